"""The built program scenario: on the worked examples, on runs that differ or have no transcript, and on malformed files."""
from __future__ import annotations

import re
import shutil
import subprocess
from pathlib import Path
from typing import Iterator

import pytest

from stored_runs import files
from test_network import WORKED
from tools import EXAMPLES, ROOT, Completed, program, run, texts

DATA = ROOT / "tests/scenario_files"


class Folder:
    """A folder of files, and the program that reads them."""

    def __init__(self, room: Path, scenario: Path) -> None:
        self.room = room
        self.scenario = scenario

    def write(self, name: str, text: str | bytes) -> Path:
        file = self.room / name
        file.write_bytes(text if isinstance(text, bytes) else text.encode())
        return file

    def read(self, name: str) -> str:
        """What a file holds; no other file is left beside it."""
        assert not (self.room / f"{name}.new").exists()
        return (self.room / name).read_text(encoding="utf-8")

    def __call__(self, *words: str) -> tuple[int, str, str]:
        """Runs the program: its status, standard output and standard error, without the last line end."""
        ran = run(self.scenario, *words, cwd=self.room)
        return ran.returncode, ran.stdout.decode().removesuffix("\n"), ran.stderr.decode().removesuffix("\n")


@pytest.fixture
def folder(tmp_path: Path, scenario: Path) -> Folder:
    return Folder(tmp_path, scenario)


def lines_of(*lines: str) -> str:
    return "".join(line + "\n" for line in lines)


# ---- Runs ----

@pytest.mark.parametrize("file", files("examples"), ids=lambda file: str(file.name))
def test_example(folder: Folder, file: Path) -> None:
    """The worked examples come out as they are written, and without their transcripts they write these."""
    text = file.read_text(encoding="utf-8")
    runs = max(1, len(re.findall("^== ", text, re.M)))
    folder.write(file.name, text)
    assert folder(file.name) == (0, f"{file.name}: {runs} of {runs} runs as told", "")
    bare = [line for line in text.splitlines() if not re.match("[0-9>]|note ", line)]
    told = [line for line in text.splitlines() if re.match("[0-9>=]|note ", line)]
    folder.write("bare", lines_of(*bare))
    assert folder("bare") == (0, "\n".join(told), "")


@pytest.mark.parametrize(("text", "told"), texts("scenario_differs"))
def test_difference(folder: Folder, text: str, told: str) -> None:
    folder.write("line", text)
    assert folder("--all", "line") == (int("1 of 1 runs" not in told), told.removesuffix("\n"), "")


def test_all_differences(folder: Folder) -> None:
    """The first difference is shown, and with --all each."""
    folder.write("many", "times 5 tick 1\n> tick 1\n> tick 2\n> tick 1\n> tick 1\n> tick 1\n> tick 3\n")
    first = """\
many: line 2 of the transcript differs
          > tick 1
wanted:   > tick 2
found:    > tick 1

"""
    last = """\
many: line 6 of the transcript differs
          > tick 1
          > tick 1
          > tick 1
wanted:   > tick 3
found:    nothing more

"""
    end = "many: 0 of 1 runs as told"
    assert folder("many") == (1, first + end, "")
    assert folder("--all", "many") == (1, first + last + end, "")


def test_long_script(folder: Folder) -> None:
    """A script that a mote reads in three pieces."""
    folder.write("long", "times 2000 tick 1\ntimes 2000 > tick 1\n")
    folder.write("bare", "times 2000 tick 1\n")
    assert folder("long") == (0, "long: 1 of 1 runs as told", "")
    assert folder("bare") == (0, "\n".join(["> tick 1"] * 2000), "")
    assert folder("--thorough", "long") == (0, "long: 1 of 1 runs as told, 15 in pieces", "")


def test_several_files(folder: Folder) -> None:
    folder.write("one", "tick 1\n")
    folder.write("two", "== first\ntick 2\n== second\ntick 3\n")
    assert folder("one", "two") == (0, "# one\n> tick 1\n# two\n== first\n> tick 2\n== second\n> tick 3", "")


@pytest.mark.parametrize("name", ["as_told", "networks_as_told", "rules"])
def test_as_told(folder: Folder, name: str) -> None:
    """Names, quotes and gaps; applications of mote in rows; lines of a network. The first row for a stimulus answers it; a row goes on
    where it stopped, and is spent without `repeat`; what is told stays."""
    shutil.copy(DATA / name, folder.room)
    runs = len(re.findall("^== ", (DATA / name).read_text(encoding="utf-8"), re.M))
    assert folder("--thorough", name) == (0, f"{name}: {runs} of {runs} runs as told, {15 * runs} in pieces", "")


# ---- Networks ----

NETWORKS = sorted((EXAMPLES / "networks").glob("*.scenario"))
# A line of a network's transcript, which may be repeated.
OF_NETWORK = re.compile("(?:times ([0-9]+) )?((?:=|lost|full|missed) .*|[0-9]+ (?!serial |frame ).*)")


@pytest.mark.parametrize("file", NETWORKS, ids=lambda file: str(file.name))
def test_network_example(folder: Folder, file: Path) -> None:
    """The worked examples of networks come out as they are written, and without their transcripts they write these."""
    lines = file.read_text(encoding="utf-8").splitlines()
    folder.write(file.name, lines_of(*lines))
    runs = lines.count("network")
    assert folder(file.name) == (0, f"{file.name}: {runs} of {runs} runs as told", "")
    found = [(line, OF_NETWORK.fullmatch(line)) for line in lines]
    folder.write("bare", lines_of(*(line for line, match in found if match is None)))
    told = [text for line, match in found for text in ([match[2]] * int(match[1] or 1) if match else [line] * line.startswith("== "))]
    assert folder("bare") == (0, "\n".join(told), "")


@pytest.mark.parametrize("is_plain", [True, False], ids=["lines", "lines of a script"])
def test_worked_networks(folder: Folder, is_plain: bool) -> None:
    """Worked networks of the program network come out with the same transcripts, and so by `script`, where a line may be malformed."""
    runs = 0
    text = []
    for case in WORKED:
        if b"--only" in case.words or case.status == 2 and is_plain:
            continue
        runs += 1
        before = "" if is_plain else "script "
        script, transcript = (case.text(heading).decode().splitlines() for heading in ("stdin", "stdout"))
        text += [f"== {case.name}", "network", *(["quiet"] if b"--quiet" in case.words else []), *(before + line for line in script),
                 *(transcript or ["ends finished"])]
    folder.write("worked", lines_of(*text))
    assert folder("worked") == (0, f"worked: {runs} of {runs} runs as told", "") and runs > 30


def test_network_that_differs(folder: Folder) -> None:
    """The first line that differs is shown, and what differs is mended; a transcript that lacks is put below the run."""
    lines = ["== one", "network", "mote 1 hello", "tick 3", "1 4 synch 129 - -> print 68690a", "1 4 answer done -> wait", "= 4", "",
             "== two", "network", "mote 1", "tick 1", ""]
    folder.write("two", lines_of(*lines))
    assert folder("two") == (1, """\
two: one: line 3 of the transcript differs
          1 4 synch 129 - -> print 68690a
          1 4 answer done -> wait
wanted:   = 4
found:    = 3

== two
= 1
two: 0 of 1 runs as told""", "")
    assert folder("--write", "two") == (0, "two: 2 of 2 transcripts put in place", "")
    lines[6] = "= 3"
    assert folder.read("two") == lines_of(*lines[:-1], "= 1", "")
    assert folder("two") == (0, "two: 2 of 2 runs as told", "")


def test_json_of_a_network(folder: Folder) -> None:
    folder.write("net", 'network\nquiet\nmote 1 calls print "hi"\n1 serial "a"\nhalt\n')
    assert folder("--json", "net") == (0, """\
{"applications":[],"ends":"halted","file":"net","name":null,"network":true,\
"script":"mote 1 calls print 6869\\n1 serial 61\\n","transcript":"halt\\n","words":["--quiet"]}""", "")


# ---- Malformed files ----

# Files of each kind, with the number of the line that is malformed.
KINDS = {"lines": ("tick 7\n{}\n", 2), "slips": ("tick 7\nmmem 64\napp hello\n{}\n", 4), "rows": ("rows\n{}\n", 2),
         "networks": ("== net\nnetwork\nmote 1..2 hello\n{}\n", 4)}
ESCAPES = {r"\t": "\t", r"\r": "\r", r"\0": "\0", r"\\": "\\"}
WORDS = {"LONG": " " * 256, "LIST": ", ".join(["memb-write 0 0 0 00"] * 50)}


def malformed_lines() -> Iterator[tuple[str, str, str]]:
    """The kind of file, a malformed line and the reason, from rows with a bar between."""
    for case in texts("scenario_malformed"):
        for row in str(case.values[0]).splitlines():
            line, _, reason = row.partition("|")
            line = re.sub(r"\\[tr0\\]", lambda found: ESCAPES[found[0]], line)
            yield str(case.id), re.sub("LONG|LIST", lambda found: WORDS[found[0]], line), reason


@pytest.mark.parametrize(("kind", "line", "reason"), malformed_lines())
def test_malformed_line(folder: Folder, kind: str, line: str, reason: str) -> None:
    """A malformed line is reported, and no file is run, also none beside it."""
    text, number = KINDS[kind]
    folder.write("end", "tick 1\n")
    folder.write("bad", text.replace("{}", line))
    assert folder("end", "bad") == (2, "", f"scenario: bad: line {number}: {reason}")


@pytest.mark.parametrize(("text", "reason"), [
    ("network\nmote 1\ntick 1\nlink 1 1 delay 1\n", "line 4: link sets a network up, and is below an input"),
    ("tick 1\nnetwork\n", "line 2: network is the first line of a run, or none"),
    ("network please\n", "line 1: network takes no word"),
    ("app hello\nmote 1 hello\n", "line 2: a run with a line mote begins with a line network"),
    ("rows\non 136 0: wait\non TIMER 0: exit\n", "line 3: the row's stimulus has a row above"),
    ("\ufefftick 1\n", "line 1: the file begins with a byte order mark"),
    ("# above\n == one\n== two\n", "line 2: the line begins with a space"),
    ("== one\n== two\n== one\n", "line 3: two runs have the name one"),
    ("== one\ntick 1\n== \n", "line 3: a run has no name"),
    ("== one\nends halted\ntick 1\nends finished\n", "line 4: ends is given twice"),
    ("tick 1\n" + "calls\n" * 17, "line 18: a run has at most 16 applications"),
    ("mmem 6\n", "line 1: mmem takes a multiple of 4 from 4 to 65536"),
    ("last tick 1\ntick 2\n", "line 2: the script has ended with its last line"),
    ("# above\ntick 1\n\n== one\n", "line 2: a line above the first run"),
    ("# above\n\n== one\ntick 1\n== two\n\ntock\n", "line 7: unknown word tock"),
    ("== one\ntock\n", "line 2: unknown word tock"),
])
def test_malformed_file(folder: Folder, text: str, reason: str) -> None:
    folder.write("bad", text)
    assert folder("bad") == (2, "", f"scenario: bad: {reason}")


@pytest.mark.parametrize(("words", "told"), [(["end", "none"], "none: no such file"), (["bytes"], "bytes: line 1: not text"),
                                             (["."], ".: a folder")])
def test_file_that_cannot_be_read(folder: Folder, words: list[str], told: str) -> None:
    """Files that can't be read, beside one that can: nothing is run."""
    folder.write("end", "tick 1\n")
    folder.write("bytes", b"\377\n")
    assert folder(*words) == (2, "", f"scenario: {told}")


@pytest.mark.parametrize(("text", "line"), [
    (b"tick 1\n\ntick \377\n", 3), (b"\n\n\n\300\200\n\377\n", 4), (b"tick 1\ntext \303", 2), (b"tick 1\n# \355\240\200\ntock\n", 2),
    (b"# " + b"\303\244" * 200 + b"\n" * 1_000 + b"# \303\244\303", 1_001), (b"tick 1\n\303\n\244\n", 2),
], ids=["a byte that is none", "an overlong one", "the end within a letter", "a surrogate", "far below", "a letter over two lines"])
def test_file_that_is_not_text(folder: Folder, text: bytes, line: int) -> None:
    """The first line with a byte that is no UTF-8 is named, also where an earlier one is malformed."""
    for above in (b"", b"tock\n"):
        folder.write("bytes", above + text)
        assert folder("bytes") == (2, "", f"scenario: bytes: line {line + len(above) // 5}: not text")


# ---- Transcripts that are put in their places ----

@pytest.fixture
def kept(folder: Folder) -> str:
    """What a file `kept` holds of which one transcript is as told, and four are to be written."""
    text = (DATA / "kept").read_text(encoding="utf-8")
    folder.write("kept", text).chmod(0o640)
    return text


def write_a_little(folder: Folder, is_ended: bool) -> Completed:
    """Has the program write where it can write no more than 1,024 bytes of any file; the system then ends it, or refuses that."""
    limits = "ulimit -f 1" if is_ended else "ulimit -f 1; trap '' XFSZ"
    return run("bash", "-c", f'{limits}; exec "$0" --write kept', folder.scenario, cwd=folder.room)


def test_full_disk_loses_nothing(folder: Folder, kept: str) -> None:
    """On a full disk, and at an interrupt, a file stays as it was; an interrupt leaves another one beside it."""
    large = f"# {0:03000}\n{kept}"
    folder.write("kept", large)
    assert write_a_little(folder, False).returncode == 6
    assert folder.read("kept") == large
    assert write_a_little(folder, True).returncode in (153, -25)
    (folder.room / "kept.new").unlink()
    assert folder.read("kept") == large


def test_nothing_is_written(folder: Folder, kept: str) -> None:
    """Where a file is read-only, another one is in the way or not there, nothing is written."""
    (folder.room / "kept").chmod(0o440)
    assert folder("--write", "kept") == (6, "", "scenario: kept: not written: it or its folder is read-only")
    assert folder.read("kept") == kept
    (folder.room / "kept").chmod(0o640)
    folder.write("kept.new", "mine\n")
    in_the_way = "scenario: kept: not written: a file of its name with .new after it is there, as an interrupt leaves it"
    assert folder("--write", "kept") == (6, "", in_the_way)
    (folder.room / "kept.new").unlink()
    assert folder.read("kept") == kept
    assert folder("--write", "kept", "none") == (2, "", "scenario: none: no such file")
    assert folder.read("kept") == kept


def test_write(folder: Folder, kept: str) -> None:
    """Transcripts are put in their places: by a link, and once. The file keeps its mode."""
    (folder.room / "link").symlink_to("kept")
    assert kept and folder("--write", "link") == (0, "link: 4 of 5 transcripts put in place", "")
    assert folder.read("kept") == (DATA / "written").read_text(encoding="utf-8")
    assert (folder.room / "link").is_symlink() and (folder.room / "kept").stat().st_mode & 0o777 == 0o640
    assert folder("kept") == (0, "kept: 5 of 5 runs as told", "")
    assert folder("--write", "kept") == (0, "kept: 0 of 5 transcripts put in place", "")


@pytest.mark.parametrize(("text", "written", "count"), [
    ("times 3 tick 1\ntimes 3 > tick 1\n", "times 3 tick 1\ntimes 3 > tick 1\n", 0),
    ("> tick 1\ntimes 3 tick 1", "> tick 1\n> tick 1\n> tick 1\ntimes 3 tick 1", 1),
    ("> tick 9\ntick 1\n# end\n", "> tick 1\ntick 1\n# end\n", 1),
], ids=["nothing new", "more lines", "the first line"])
def test_written(folder: Folder, text: str, written: str, count: int) -> None:
    folder.write("kept", text)
    assert folder("--write", "kept") == (0, f"kept: {count} of 1 transcripts put in place", "")
    assert folder.read("kept") == written


# ---- Words ----

def test_json(folder: Folder) -> None:
    folder.write("record", '== a run\nmmem 8\nquiet\napp hello\nrows\non INIT: wait\ntext "hi"\n...\n')
    folder.write("one", "tick 1\n")
    assert folder("--json", "record", "one") == (0, """\
{"applications":[["app hello"],["rows","on 129: wait"]],"ends":null,"file":"record","name":"a run","network":false,\
"script":"serial 226869220a\\n","transcript":"...\\n","words":["--mmem","8","--heap","4096","--header","16","--quiet"]}
{"applications":[],"ends":"finished","file":"one","name":null,"network":false,"script":"tick 1\\n","transcript":null,\
"words":["--mmem","4096","--heap","4096","--header","16"]}""", "")


@pytest.mark.parametrize("words", [["--write", "--json", "one"], []], ids=["write and json", "no file"])
def test_refused_words(folder: Folder, words: list[str]) -> None:
    status, stdout, stderr = folder(*words)
    assert (status, stdout) == (64, "") and stderr.startswith("error: ")


def test_version_and_help(folder: Folder) -> None:
    assert folder("--version") == (0, f"scenario {(ROOT / 'VERSION').read_text(encoding='utf-8').strip()}", "")
    status, stdout, stderr = folder("--help")
    assert (status, stderr) == (0, "") and stdout


def test_full_device(folder: Folder) -> None:
    file = folder.write("one", "tick 1\n")
    with open("/dev/full", "wb") as full:
        ran = subprocess.run([program("scenario"), file], stdin=subprocess.DEVNULL, stdout=full, stderr=subprocess.PIPE, check=False)
    assert (ran.returncode, ran.stderr) == (6, b"scenario: write failed\n")
