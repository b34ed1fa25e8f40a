"""The built program network: worked networks, malformed lines, what is shown, faults, limits and arguments.

A worked network is a file of tests/networks, or one in examples/networks, NAME.net with NAME.transcript. Their texts were written out from
the rules of docs/network.md.
"""

import os
import shutil
from pathlib import Path

import pytest

from stored_cases import StoredCase, stored_cases
from test_faults import SMALL_NETWORK
from tools import EXAMPLES, ROOT, cases, output_of, program, run, succeed, write_program
from tools import with_stream as with_stream

SAMPLES = sorted((EXAMPLES / "networks").glob("*.net"))


def sample(script: Path) -> StoredCase:
    """An example of a network."""
    return StoredCase(script.stem, b"", {"stdin": script.read_bytes(), "stdout": script.with_suffix(".transcript").read_bytes()})


WORKED = [*stored_cases("networks"), *map(sample, SAMPLES)]
RELAYED = ("{m} > frame {f}", "{m} 4 event 139 1 -> mmem-alloc 0 1", "{m} 4 answer done -> packet-read 0 1",
           "{m} 4 answer bytes {f} -> mmem-write 0 0 {f}", "{m} 4 answer done -> packet-send 0", "{m} note sent {f}",
           "{m} 4 answer done -> mmem-free 0", "{m} 4 answer done -> packet-done", "{m} 4 answer done -> wait")


def transcript_of(script: str, *words: str, status: int = 0) -> list[str]:
    ran = run(program("network"), *words, stdin=script.encode())
    assert (ran.returncode, ran.stderr) == (status, b""), output_of(ran)
    return ran.stdout.decode().splitlines()


def started(mote: int) -> list[str]:
    return [f"{mote} 4 synch 129 - -> packet-open", f"{mote} 4 answer done -> wait"]


def relayed(mote: int, frame: str) -> list[str]:
    return [line.format(m=mote, f=frame) for line in RELAYED]


# ---- Worked networks ----

@pytest.mark.parametrize("case", WORKED, ids=[case.name for case in WORKED])
def test_worked_network(network: Path, case: StoredCase) -> None:
    case.judge(case.ran(network))


def test_each_transcript_has_a_network() -> None:
    folder = EXAMPLES / "networks"
    assert {path.stem for path in SAMPLES} == {path.stem for path in folder.glob("*.transcript")} == {
        path.stem for path in folder.iterdir() if path.suffix != ".scenario"}


def test_a_halted_mote() -> None:
    """A mote that never rests takes 10,000 turns and is halted: it hears nothing, and the others go on."""
    script = "mote 1 relay\nmote 2 clock-watcher\nmote 3 relay\nlink 1 2 delay 1\nlink 1 3 delay 1\n1 frame 01\ntick 1\n2 frame 02\n"
    watcher = ["2 4 synch 129 - -> clock", *["2 4 answer wide 0 -> clock"] * 9999, "2 halt"]
    assert transcript_of(script) == [*started(1), *watcher, *started(3), *relayed(1, "01"), "= 1", "missed 1 2", "3 > tick 1",
                                     *relayed(3, "01"), "missed - 2"]


def test_a_thousand_motes() -> None:
    """A frame goes round a ring of 1,000 relays, both ways: at 1 its two neighbours hear it, at 2 theirs and mote 1 twice."""
    lines = transcript_of("mote 1..1000 relay\nring 1..1000 delay 1\n1 frame 0a\ntick 2\n")
    assert lines[:2000] == [line for mote in range(1, 1001) for line in started(mote)]
    heard = [line.split()[0] for line in lines if line.endswith("> frame 0a")]
    # The ring's links lead from 1 to 2 and back, from 2 to 3 and back, and last from 1000 to 1 and back: a mote sends in that order.
    assert heard == ["1", "2", "1000", "1", "3", "999", "1"]


def test_timers_of_a_thousand_motes() -> None:
    """Idle motes receive nothing, and each timer runs out on time, however long the tick is."""
    lines = transcript_of("mote 1..999 hello\nmote 1000 blink\ntick 1000\n")
    wanted = ["1000 4 synch 129 - -> timer-set 0 10", "1000 4 answer done -> wait"]
    for at in range(1, 101):
        wanted += [f"= {10 * at}", "1000 > tick 10", f"1000 4 event 136 0 -> print {'6f6e0a' if at % 2 else '6f66660a'}",
                   "1000 4 answer done -> timer-reset 0", "1000 4 answer done -> wait"]
    assert lines[2 * 999:] == wanted


def test_default_room() -> None:
    """Without a line `room`, 1,024 frames can be in flight: of 1,025 copies the last one finds no room. Eight are held, and others lost."""
    lines = transcript_of("mote 1 relay\nmote 2 hello\n" + "link 1 2 delay 1\n" * 1025 + "1 frame 0a\ntick 1\n")
    assert [line for line in lines if line.startswith("full")] == ["full 1 2"]
    begin = lines.index("2 > tick 1") + 1
    assert lines[begin:] == ["2 > frame 0a"] * 8 + ["2 > frame 0a", "2 note lost 1"] * 1016


def test_delays_that_differ() -> None:
    """A frame that overtakes others is put in its order without a walk over them: forty thousand are in flight on the long link."""
    begun = os.times()
    lines = transcript_of("mote 1 relay\nmote 2\nroom 50000\nlink 1 1 delay 1\nlink 1 2 delay 4000000000\n1 frame 0a\ntick 40000\n",
                          "--quiet")
    ended = os.times()
    assert sum(line == "1 note sent 0a" for line in lines) == 40_001
    assert ended.children_user - begun.children_user < 5


def test_plain_network(sanitizing_compiler: str) -> None:
    """The network in plain C that the benchmark sets beside this one writes the same, under the sanitizers."""
    built = ROOT / "crates/network/out/network"
    if not built.exists():
        pytest.skip("the program network isn't built")
    ran = run(ROOT / "bench/networks", "--cc", sanitizing_compiler, "--same", built)
    assert (ran.returncode, ran.stdout) == (0, b""), output_of(ran)


# ---- Malformed lines ----

TWO = "mote 1..2 relay\n"
HELLO = "1 4 synch 129 - -> print 68690a\n1 4 answer done -> wait\n"
LONG = [pytest.param(f"{TWO}1 frame {'00' * 128}\n", id="a frame of 128 bytes"),
        pytest.param(f"{TWO}1 serial {'00' * 257}\n", id="a serial line of 257 bytes")]


@pytest.mark.parametrize("script", [*cases("network_malformed"), *LONG])
def test_malformed_setup(network: Path, script: str) -> None:
    """A malformed line before the first input, here the last one: nothing is executed, and no line after it counts."""
    number = script.count("\n")
    for after in ("", "tick 1\n", "walk\n"):
        ran = run(network, stdin=(script + after).encode())
        assert (ran.returncode, ran.stdout.decode(), ran.stderr) == (2, f"bad line {number}\n", b"")


@pytest.mark.parametrize("line", ["mote 2 hello", "link 1 1 delay 1", "room 5", "rounds 5", "walk", "tick x", "2 serial 61", "0 serial 61",
                                  "1 tick 5", "serial 61"])
def test_malformed_input(network: Path, line: str) -> None:
    """A malformed line after the first input, also one that sets something up: the lines above it were executed. Blank lines count."""
    ran = run(network, stdin=f"mote 1 hello\ntick 1\n\n# the setup is over\n{line}\ntick 1\n".encode())
    assert (ran.returncode, ran.stdout.decode(), ran.stderr) == (2, f"{HELLO}= 1\nbad line 5\n", b"")


@pytest.mark.parametrize(("script", "number"), [
    (b"mote 1 hello\n\xff\n", 2), (b"mote 1 hello\ntick 1\n\n\xff\n", 4), (b"mote 1 hello\n#\xff\n", 2), (b"#" + b"x" * 1024, 1),
    (b"mote 1 hello\ntick 1\n#" + b"x" * 1024, 3),
], ids=["bytes", "later", "comment", "wide", "wide and later"])
def test_no_text(network: Path, script: bytes, number: int) -> None:
    """A line that isn't text, among the first ones also as a comment, and one of more than 1,024 bytes, is malformed."""
    ran = run(network, stdin=script)
    assert (ran.returncode, ran.stdout.decode()) == (2, (f"{HELLO}= 1\n" if b"tick" in script else "") + f"bad line {number}\n")


def test_lines_that_do_nothing(network: Path) -> None:
    """Empty lines and comments, of 1,024 bytes too, after the first input of any bytes, and a last line without its end."""
    ran = run(network, stdin=b"\n# one\nmote 1 hello\n\n#" + b"x" * 1023 + b"\ntick 1\n\n# \xff\ntick 2")
    assert (ran.returncode, ran.stdout.decode()) == (0, f"{HELLO}= 1\n= 3\n")


# ---- What is shown ----

def test_quiet_and_only_are_parts_of_the_transcript() -> None:
    """A quiet transcript has the turns that print or send and the frames that were sent, and `--only` the lines of one mote."""
    script = "mote 1..3 relay ping\nline 1..3 delay 2 every 3\n2 frame 0a0b\ntick 40\n"
    whole = transcript_of(script)
    is_shown = [any(word in line for word in ("-> print ", "-> packet-send ", "note sent ")) for line in whole]
    assert transcript_of(script, "--quiet") == [line for line, shown in zip(whole, is_shown) if shown]
    for mote in ("1", "2", "3"):
        own = [(line[2:], shown) for line, shown in zip(whole, is_shown) if line.startswith(f"{mote} ")]
        assert transcript_of(script, "--only", mote) == [line for line, _ in own]
        assert transcript_of(script, "--only", mote, "--quiet") == [line for line, shown in own if shown]


def test_only_of_many() -> None:
    """A number that begins as another one does is another mote's. A transcript of several buffers is whole."""
    script = "mote 1..12 blink\ntick 400\n"
    whole = transcript_of(script)
    for mote in ("1", "2", "11", "12"):
        own = [line.split(" ", 1)[1] for line in whole if line.split(" ", 1)[0] == mote]
        assert len(own) > 100 and transcript_of(script, "--only", mote) == own


def test_only_at_the_end() -> None:
    """`bad line N` ends a transcript of one mote too, and `halt` of the network doesn't, but that of the mote is in it."""
    own = [line[2:] for line in HELLO.splitlines()]
    assert transcript_of("mote 1..2 hello\ntick 1\nwalk\n", "--only", "1", status=2) == [*own, "bad line 3"]
    script = "mote 1..2 relay\nmesh 1..2 delay 1\nrounds 9\n1 frame 0a\ntick 90\n"
    assert transcript_of(script, status=3)[-1] == "halt"
    assert "halt" not in transcript_of(script, "--only", "2", status=3)
    assert transcript_of("mote 1 clock-watcher\nmote 2 relay\ntick 1\n", "--only", "1")[-1] == "halt"


# ---- Faults, limits, arguments ----

def test_streams_that_fail(network: Path) -> None:
    """A closed input, one that can't be read, a closed output and a full device."""
    for redirection in ("<&-", "</"):
        ran = with_stream(redirection, network)
        assert (ran.returncode, ran.stdout, ran.stderr) == (5, b"", b"network: read failed\n")
    for redirection in (f"<{SMALL_NETWORK} >&-", f"<{SMALL_NETWORK} >/dev/full"):
        ran = with_stream(redirection, network)
        assert (ran.returncode, ran.stderr) == (6, b"network: write failed\n")


def test_output_that_fails_early(network: Path, tmp_path: Path) -> None:
    """A run ends where its output fails, and goes through no more of a long tick."""
    script = tmp_path / "long.net"
    script.write_text("mote 1 blink\ntick 4000000000\n", encoding="utf-8")
    ran = with_stream(f"<{script} >/dev/full", network)
    assert (ran.returncode, ran.stderr) == (6, b"network: write failed\n")


@pytest.mark.parametrize(("script", "mote"), [(TWO, "3"), ("", "1"), (TWO, "4294967295")], ids=["3 of 2", "1 of none", "the last"])
def test_only_of_no_mote(network: Path, script: str, mote: str) -> None:
    ran = run(network, "--only", mote, stdin=f"{script}tick 1\nwalk\n".encode())
    assert (ran.returncode, ran.stdout, ran.stderr) == (64, b"", f"network: no mote {mote}\n".encode())


@pytest.mark.parametrize(("script", "status", "line"), [(b"walk\n", 2, b"bad line 1\n"), (b"\n" * (2 ** 24 + 1), 4, b"too long\n")],
                         ids=["malformed", "too long"])
def test_no_run_before_only(network: Path, script: bytes, status: int, line: bytes) -> None:
    """A script of which nothing is executed ends so also where the lines of a mote that doesn't exist are wished for."""
    ran = run(network, "--only", "3", stdin=script)
    assert (ran.returncode, ran.stdout, ran.stderr) == (status, line, b"")


def test_room_that_memory_lacks(network: Path) -> None:
    ran = run("bash", "-c", 'ulimit -v 1000000 && exec "$@"', "bash", network, stdin=b"room 4294967295\ntick 1\n")
    assert (ran.returncode, ran.stdout, ran.stderr) == (70, b"", b"network: out of memory\n")


@pytest.mark.parametrize("words", [("--only", "0"), ("--only",), ("--only", "x"), ("--only", "1", "--only", "2"), ("--loud",), ("file",)],
                         ids=" ".join)
def test_invalid_arguments(network: Path, words: tuple[str, ...]) -> None:
    ran = run(network, *words, stdin=TWO.encode())
    assert (ran.returncode, ran.stdout) == (64, b"") and ran.stderr.startswith(b"error: ")


def test_argument_that_is_no_text(network: Path) -> None:
    ran = run(network, b"\xff")
    assert (ran.returncode, ran.stdout, ran.stderr) == (64, b"", b"network: a word is not text\n")


def test_help_and_version(network: Path) -> None:
    """The help names each word of a script. Where it can't be written, that is a write fault."""
    page = succeed(network, "--help").stdout.decode()
    words = ("mote N WORD..", "calls CALL", "link A B delay D", "line, ring", "mesh", "grid", "every N", "lot C seed S", "room N",
             "rounds N", "tick N", "N serial HEX", "N frame HEX", "--quiet", "--only")
    assert [word for word in words if word not in page] == []
    assert succeed(network, "--version").stdout.decode() == f"network {(ROOT / 'VERSION').read_text(encoding='utf-8')}"
    assert with_stream(">/dev/full", network, "--help").returncode == 6


THREE = str(EXAMPLES / "networks/three.net")


@pytest.mark.parametrize("words", [(THREE, "--only", "3"), ("--only", "3", THREE), ("--only", "3")],
                         ids=["file first", "file last", "no file"])
def test_command_takes_a_file(network: Path, words: tuple[str, ...]) -> None:
    """`./network` reads the file that it is given, or standard input. The word after --only is no file."""
    if run(ROOT / "prove", "--is-current", "network").returncode != 0:
        pytest.skip("the program network isn't proved, or older than its sources: ./prove network")
    script = b"" if THREE in words else Path(THREE).read_bytes()
    shown = run(network, "--only", "3", stdin=Path(THREE).read_bytes()).stdout
    assert shown and run(ROOT / "network", *words, stdin=script).stdout == shown


def test_words_of_the_command(tmp_path: Path) -> None:
    """The first word that is no option and not after --only is the script, also where a file has the number's name."""
    write_program(tmp_path / "scripts/launch", '#!/bin/sh\necho "$@"\ncat\n')
    for name in ("3", "a b"):
        (tmp_path / name).write_text(f"script {name}\n", encoding="utf-8")
    command = shutil.copy2(ROOT / "network", tmp_path)
    for words, told in ((("--only", "3"), "--only 3\nstdin\n"), (("--only", "3", "a b", "--quiet"), "--only 3 --quiet\nscript a b\n"),
                        (("--only=3", "3", "a b"), "--only=3 a b\nscript 3\n"), (("--", "3"), "--\nscript 3\n")):
        assert run(command, *words, stdin=b"stdin\n", cwd=tmp_path).stdout.decode() == f"network input {told}"


@pytest.mark.parametrize("word", ["no such file", str(EXAMPLES)], ids=["no file", "a folder"])
def test_command_without_its_file(word: str) -> None:
    ran = run(ROOT / "network", "--quiet", word)
    assert (ran.returncode, ran.stdout, ran.stderr) == (64, b"", f"network: no file '{word}' that can be read\n".encode())
