"""The built program mote: the stored runs of tests/cases, samples, statuses and limits; then that of template_app; and beside a mote in
plain C.
"""

import fnmatch
import re
from pathlib import Path

import pytest

from stored_cases import StoredCase, stored_cases
from tools import CRATES, EXAMPLES, ROOT, output_of, program, run, with_stream

CASES = stored_cases("cases")
SCRIPTS = sorted(EXAMPLES.glob("*.script"))
LONGEST = 16_777_216
of_each_case = pytest.mark.parametrize("case", CASES, ids=[case.name for case in CASES])


@pytest.fixture(scope="module")
def template() -> Path:
    return program("template_app")


@of_each_case
def test_case(mote: Path, case: StoredCase, tmp_path: Path) -> None:
    stdin = tmp_path / "stdin"
    stdin.write_bytes(case.text("stdin"))
    case.judge(case.ran(mote, stdin=stdin))


@of_each_case
def test_case_through_a_pipe(mote: Path, case: StoredCase) -> None:
    case.judge(case.ran(mote, before="dd bs=3 status=none | "))


@pytest.mark.parametrize("script", SCRIPTS, ids=[script.name for script in SCRIPTS])
def test_sample(mote: Path, script: Path) -> None:
    ran = run(mote, script.stem, stdin=script)
    assert (ran.returncode, ran.stdout, ran.stderr) == (0, script.with_suffix(".transcript").read_bytes(), b"")


# ---- Streams and limits ----

@pytest.mark.parametrize(("redirection", "word"), [("</dev/null >&-", "hello"), ("</dev/null >/dev/full", "hello"),
                                                   ("</dev/null >/dev/full", "--help")], ids=["closed", "full", "help"])
def test_output_that_fails(mote: Path, redirection: str, word: str) -> None:
    ran = with_stream(redirection, mote, word)
    assert (ran.returncode, ran.stderr) == (6, b"mote: write failed\n")


def test_input_that_fails(mote: Path) -> None:
    ran = with_stream("<&-", mote, "hello")
    assert (ran.returncode, ran.stderr) == (5, b"mote: read failed\n")
    assert ran.stdout.startswith(b"4 synch 129 - -> print 68690a\n")


@pytest.mark.parametrize(("name", "word"), [("mote", "hello"), ("template_app", "beat")])
def test_refused_memory(name: str, word: str) -> None:
    """With more and more memory a program isn't loaded, then lacks memory and says so, and then runs. Just before that its stack can't
    grow, and the system ends it: that room is no allocation of its own."""
    lacks, status = 0, 1
    for kibibytes in range(1024, 65537, 32):
        ran = run("bash", "-c", f'ulimit -v {kibibytes} && exec "$@"', "bash", program(name), word)
        status = ran.returncode
        if status == 0:
            break
        if status == 70:
            lacks += 1
            assert (ran.stdout, ran.stderr.decode()) == (b"", f"{name}: out of memory\n"), kibibytes
    assert status == 0 and lacks > 0


def test_halt(mote: Path) -> None:
    """A beat of 10 ticks that was missed 10,000 times can't be caught up: each takes a round and three turns of the 10,000."""
    beats = "".join(f"4 event 136 0 -> print {('6f6e0a', '6f66660a')[beat % 2]}\n4 answer done -> timer-reset 0\n4 answer done -> wait\n"
                    for beat in range(2500))
    ran = run(mote, "blink", stdin=b"tick 100000\n")
    assert ran.returncode == 3
    assert ran.stdout.decode() == f"4 synch 129 - -> timer-set 0 10\n4 answer done -> wait\n> tick 100000\n{beats}halt\n"


@pytest.mark.parametrize(("length", "status", "wanted"), [(LONGEST, 0, b""), (LONGEST + 1, 4, b"too long\n")])
@pytest.mark.parametrize("name", ["mote", "network"])
def test_longest_script(name: str, length: int, status: int, wanted: bytes) -> None:
    """A script of 16,777,216 line ends is executed; one more is too long, and nothing is executed."""
    ran = run(program(name), stdin=b"\n" * length)
    assert (ran.returncode, ran.stdout, ran.stderr) == (status, wanted, b"")


# ---- The program of the template ----

STDIN = CRATES / "template_app/stdin"


@pytest.mark.parametrize(("status", "wanted", "words", "script"), [
    (0, "", ["beat"], STDIN),
    (2, "", ["beat"], b"tock\n"),
    (3, "", ["beat"], b"tick 100000\n"),
    (4, "", [], b"\n" * (LONGEST + 1)),
    (64, "template_app: a word is not text\n", [b"\xff"], b""),
    (64, "error: *", ["--unknown"], b""),
    (64, "template_app: no application hello\n", ["beat", "hello"], b""),
    (64, "template_app: too many applications\n", ["beat"] * 17, b""),
    (64, "template_app: bad sizes\n", ["--mmem", "6", "beat"], b""),
], ids=["done", "bad line", "halt", "too long", "no text", "unknown option", "no application", "too many", "bad sizes"])
def test_status(template: Path, status: int, wanted: str, words: list[str | bytes], script: bytes | Path) -> None:
    """The statuses of the table in docs/transcript.md, each with its text on standard error."""
    ran = run(template, *words, stdin=script)
    assert ran.returncode == status and fnmatch.fnmatchcase(ran.stderr.decode(), wanted), output_of(ran)


@pytest.mark.parametrize(("status", "wanted", "word", "redirection"), [
    (0, "", "--help", "<&-"), (0, "", "--version", "<&-"), (5, "template_app: read failed\n", "beat", "<&-"),
    (6, "template_app: write failed\n", "beat", f"<{STDIN} >/dev/full"),
])
def test_status_with_a_stream(template: Path, status: int, wanted: str, word: str, redirection: str) -> None:
    ran = with_stream(redirection, template, word)
    assert (ran.returncode, ran.stderr.decode()) == (status, wanted)


def test_plain_mote(mote: Path, sanitizing_compiler: str) -> None:
    """The mote in plain C that the benchmark sets beside this one writes the same, under the sanitizers."""
    ran = run(ROOT / "bench/compare", "--cc", sanitizing_compiler, mote, timeout=3600)
    assert ran.returncode == 0 and re.search(rb"(?:^|\n)([1-9]\d*) of \1 runs are the same\n$", ran.stdout), output_of(ran)
