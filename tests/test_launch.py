"""The scripts at the top, on a small tree of crates with stand-ins: what they pass on, and when a program counts as proved."""

import os
import random
import shutil
import signal
import tempfile
from pathlib import Path

import pytest

from hints import hints
from small_tree import WITHOUT_RT, Tree, wait_until
from tools import AS_NOBODY, can_be_nobody, run
from unproved_build import export

SCRIPT = random.Random(1).randbytes(100_000)
WINDOWS = b"# one\r\n\ntick 1\r\ntick 2\r\n"
REMARK = b"# one\r\ntick 1\n"
IS_FILE = "a.script is a file; the script is read from standard input: < a.script"


# ---- An unproved run ----

def builds(tree: Tree) -> int:
    """How often a program was built unproved."""
    tries = tree.began.with_name("begun.tries")
    return len(tries.read_text(encoding="utf-8").splitlines()) if tries.exists() else 0


def stored(tree: Tree) -> list[Path]:
    """What is in the folder of the unproved mote."""
    return list((tree.crate("mote") / "out/unproved").iterdir())


@pytest.mark.parametrize(("script", "words", "proving"), [
    ("mote", ["--mmem", "8", "--", "two words", ""], "./prove"), ("scenario", ["--write", "a b"], "./prove scenario")])
def test_unproved_run(tree: Tree, script: str, words: list[str], proving: str) -> None:
    """Arguments, input and output are passed on, and it is reported that the run is unproved. The first builds the program."""
    for number in range(2):
        tree.run(script, *words, stdin=SCRIPT)
        last = f"{script}: this run is unproved; {proving} proves and builds the program\n"
        assert tree.is_unproved() and tree.stderr.endswith(last) and ("is built without a proof" in tree.stderr) == (number == 0)
        assert tree.ran.stdout == f"words {' '.join(words)}\n".encode() + SCRIPT
    assert builds(tree) == 1


def test_status(tree: Tree) -> None:
    """The program's status and standard error are passed on."""
    tree.run("mote", STATUS="6", SAYS="mote: said\n")
    assert (tree.ran.returncode, tree.stderr.splitlines()[2:]) == (6, ["mote: said"])


@pytest.mark.parametrize(("change", "is_built"), [
    ("touch crates/low/src/lib.rt", False), ("echo more >>crates/low/proofs/Lib.antt", False),
    ("echo >>crates/modules_c/src/lib.rt", False),
    ("echo more >>crates/low/src/lib.rt", True), ("touch crates/low/src/other.rt", True), ("rm crates/mote/out/unproved/mote", True),
    ("echo more >>crates/mote/out/unproved/mote", True), ("sed -i 's/high: low/high: low beside/' crates.txt", True),
    ("touch -d 2000-01-01 crates/low/src/lib.rt; echo more >>crates/low/src/lib.rt; touch -d 2000-01-01 crates/low/src/lib.rt", False),
])
def test_kept_program(tree: Tree, change: str, is_built: bool) -> None:
    """The program is built again where a file of its sources, or itself, is another one: by times, as the proved one."""
    assert tree.runs_unproved() and builds(tree) == 1
    assert tree.shell(change).returncode == 0
    assert tree.runs_unproved() and builds(tree) == 1 + is_built
    assert tree.runs_unproved() and builds(tree) == 1 + is_built


def test_sources_that_are_refused(tree: Tree) -> None:
    tree.run("mote", REFUSES="error: refused")
    last = "mote: no program is built from the present sources, neither proved nor unproved: error: refused\n"
    assert (tree.ran.returncode, tree.stderr.endswith(last)) == (125, True)
    assert not (tree.crate("mote") / "out/unproved/mote").exists()


def test_source_that_changes_meanwhile(tree: Tree) -> None:
    started = tree.start("mote", {"PAUSE": "2"})
    wait_until(lambda: builds(tree) == 1)
    tree.edit("low")
    tree.end(started)
    assert (tree.ran.returncode, tree.stderr.endswith(": a source was changed meanwhile\n")) == (125, True)
    assert tree.runs_unproved() and builds(tree) == 2


def test_two_at_once(tree: Tree) -> None:
    """The second waits until the first has built the program."""
    first = tree.start("mote", {"PAUSE": "2"})
    wait_until(lambda: builds(tree) == 1)
    tree.run("mote")
    assert tree.is_unproved() and "another run builds the same: waiting until it has ended" in tree.stderr
    assert tree.end(first).returncode == 0 and builds(tree) == 1


@pytest.mark.parametrize("number", [signal.SIGINT, signal.SIGTERM, signal.SIGHUP], ids=["INT", "TERM", "HUP"])
def test_signal(tree: Tree, number: signal.Signals) -> None:
    """Where the script is ended while the program is built nothing goes on, and nothing is left."""
    started = tree.start("mote", {"PAUSE": "300"})
    wait_until(lambda: builds(tree) == 1)
    os.kill(started.pid, number)
    assert started.wait(timeout=120) == 128 + number
    assert [it.name for it in stored(tree)] == ["lock"]
    wait_until(lambda: not tree.goes_on())


@pytest.mark.parametrize("script", ["mote", "scripts/unproved.py"])
def test_killed(tree: Tree, script: str) -> None:
    """Where the script is ended by force nothing goes on, and what it has left is removed by the next build."""
    words = ["mote"] if script != "mote" else []
    started = tree.start(script, {"PAUSE": "300"}, *words)
    wait_until(lambda: builds(tree) == 1)
    started.kill()
    started.wait(timeout=120)
    wait_until(lambda: not tree.goes_on())
    assert len(stored(tree)) == 2
    assert tree.runs_unproved() and builds(tree) == 2
    assert sorted(it.name for it in stored(tree)) == ["lock", "mote", "sources"]


def test_kept_elsewhere(tree: Tree) -> None:
    """What is in the folder for temporary files runs where its folder is this user's own, and none that leads elsewhere."""
    assert tree.runs_unproved() and builds(tree) == 1
    kept = tree.room / "temporary" / f"unproved-{os.getuid()}{tree.root}-mote".replace("/", "-")
    kept.parent.mkdir()
    shutil.move(tree.crate("mote") / "out/unproved", kept)
    tree.run("mote", TMPDIR=str(kept.parent))
    assert tree.is_unproved() and builds(tree) == 1
    kept.rename(tree.room / "planted")
    kept.symlink_to(tree.room / "planted")
    tree.run("mote", TMPDIR=str(kept.parent))
    assert tree.is_unproved() and builds(tree) == 2


def test_full_disk(tree: Tree) -> None:
    """A limit of each file's size has the same effect. The reason is reported, and nothing is left."""
    tree.shell("ulimit -f 64; ./mote")
    assert tree.ran.returncode == 125 and "neither proved nor unproved: " in tree.stderr
    assert [it.name for it in stored(tree)] == ["lock"] and tree.runs_unproved()


@pytest.mark.parametrize("stderr", ["2>&-", "2>/dev/full"])
def test_standard_error_that_fails(tree: Tree, stderr: str) -> None:
    """Where standard error is closed or full all is built and runs, and standard output has nothing else."""
    library = tree.crate("toarmuts") / "out/unproved/libtoarmuts.a"
    for command, status, stdout in (("./mote a", 0, "words a\n"), ("scripts/unproved.py toarmuts", 0, f"{library}\n"),
                                    ("./prove", 0, ""), ("./mote a", 3, "proved a\n")):
        tree.shell(f"{command} </dev/null {stderr}")
        assert (tree.ran.returncode, tree.stdout) == (status, stdout), command


def test_library(tree: Tree) -> None:
    """The library for C has the exported functions. They are called once, so that none is left out."""
    text = 'pub mod more;\npub extern "C" fn one(\n    a: &[u8],\n    b: u32,\n) {}\n'
    (tree.crate("toarmuts") / "src/lib.rt").write_text(text, encoding="utf-8")
    (tree.crate("toarmuts") / "src/more.rt").write_text('pub extern "C" fn two() {}\npub fn three() {}\n', encoding="utf-8")
    for number in range(2):
        tree.run("scripts/unproved.py", "toarmuts")
        library = tree.crate("toarmuts") / "out/unproved/libtoarmuts.a"
        assert tree.stdout == f"{library}\n" and ("without a proof" in tree.stderr) == (number == 0), tree.stderr
    assert b"\n#[test]\nfn calls() {\n    one(any(), any());\n    more::two();\n}\n" in library.read_bytes()
    assert builds(tree) == 1


@pytest.mark.parametrize(("line", "exported"), [
    ('define internal void @"it::one"(ptr %a0) #0 {', "define void @one(ptr %a0) #0 {"),
    ('define internal noundef i32 @"it::part::two"(ptr %a0, i64 %a1) #0 {', "define noundef i32 @two(ptr %a0, i64 %a1) #0 {"),
    ('  call void @"it::one"(ptr %a0)', "  call void @one(ptr %a0)"), ('define internal void @"it::one::deeper"() {', None),
    ('define internal void @"it::ones"() {', None), ('define internal void @"other::one"() {', None),
    ("define i32 @main(i32 %0, ptr %1) {", "define internal i32 @main(i32 %0, ptr %1) {"),
])
def test_exported_functions(line: str, exported: str | None) -> None:
    """In the text of a library's module the exported functions get their names in C, and main becomes local."""
    assert export(line, "it", ["one", "two"]) == (line if exported is None else exported)


@pytest.mark.parametrize("script", ["mote", "scenario", "prove"])
def test_no_rt(tree: Tree, script: str) -> None:
    """Without rt nothing is built. What is kept runs."""
    tree.run(script, PATH=WITHOUT_RT)
    assert (tree.ran.returncode, tree.stderr.count("\n")) == (127, 1)
    if script != "prove":
        assert tree.runs_unproved(script)
        tree.run(script, PATH=WITHOUT_RT)
        assert tree.is_unproved()


@pytest.mark.parametrize(("words", "wanted"), [
    (["hello", "a.script", "no such file"], [IS_FILE]), (["hello", "echo"], []), (["--mmem", "a.script", "--", "a.script"], [IS_FILE]),
    (["--mmem", "5"], ["--mmem 5: a multiple of 4 from 4 to 65536 is allowed"]),
    (["--mmem=65540"], ["--mmem 65540: a multiple of 4 from 4 to 65536 is allowed"]),
    (["--mmem", "4", "--heap=20", "--header", "8"], []), (["--heap", "16"], ["--heap 16: a multiple of 4 from 20 to 65536 is allowed"]),
    (["--header=12"], ["--header 12: 16 or 8 is allowed"]), (["--mmem", "many", "--quota"], []),
    (["--quota", "1024", "hello", "hello", "hello"], []), (["--mmem", "9" * 5000, "--quota=" + "9" * 5000], []),
    (["--quota", "1028", "hello", "hello", "hello"], ["--quota 1028 for each application and the frames is 4112 bytes; --mmem has 4096"]),
    (["--quota=8", "--mmem=12", "hello"], ["--quota 8 for each application and the frames is 16 bytes; --mmem has 12"]),
])
def test_hints(proved_tree: Tree, words: list[str], wanted: list[str]) -> None:
    """Arguments that mote refuses with few words get a line of the script's own. An application's name has none, though it is a file's."""
    for name in ("a.script", "echo"):
        (proved_tree.room / name).touch()
    proved_tree.run("mote", *words, cwd=proved_tree.room)
    assert proved_tree.stderr.splitlines() == [f"mote: {line}" for line in wanted] and proved_tree.stdout == f"proved {' '.join(words)}\n"


@pytest.mark.parametrize("words", [
    ["--quota", "1024", "--from", "3", "--to", "9", "hello", "hello", "hello"], ["--quota=1024", "--from=3", "hello", "hello", "hello"],
    ["--quota", "1024", "hello", "hello", "hello", "--to"], ["--quota", "1024", "--page", "hello", "hello", "hello"]])
def test_hints_of_a_picture(words: list[str]) -> None:
    """The numbers of mote-picture's own options are no applications, which would need a quota each."""
    assert not list(hints(words, "transcript"))


# ---- A proved program ----

def test_proved_run(proved_tree: Tree) -> None:
    proved_tree.run("mote", "a", "b c", stdin=SCRIPT, PATH=WITHOUT_RT)
    assert (proved_tree.ran.returncode, proved_tree.ran.stdout, proved_tree.stderr) == (3, b"proved a b c\n" + SCRIPT, "")


def test_lines_of_windows_proved(proved_tree: Tree) -> None:
    """The first line as on Windows is reported if standard input is a file, from its beginning."""
    files = {"windows": WINDOWS, "remark": REMARK}
    for name, text in files.items():
        (proved_tree.root / name).write_bytes(text)
    hint = "mote: line 3 ends with byte 13, as lines of Windows do; here a line ends with byte 10 only\n"
    rest = "{ read -r _; read -r _; ./mote; } <"
    for command, stdout, stderr in (("./mote <windows", WINDOWS, hint), ("./mote <remark", REMARK, ""), (f"{rest}remark", b"", ""),
                                    (f"{rest}windows", b"tick 1\r\ntick 2\r\n", "")):
        ran = proved_tree.shell(command)
        assert (ran.returncode, ran.stdout, proved_tree.stderr) == (3, b"proved \n" + stdout, stderr), command


@pytest.mark.parametrize(("script", "first"), [("mote", "proved "), ("scenario", "words ")])
def test_script_by_a_link(proved_tree: Tree, script: str, first: str) -> None:
    (proved_tree.bin / "called").symlink_to(proved_tree.root / script)
    assert run(proved_tree.bin / "called", cwd=Path("/"), settings=proved_tree.settings()).stdout.decode() == first + "\n"


def test_touched_source(proved_tree: Tree) -> None:
    """Where times are newer, hashes are compared, and the mark gets the time of that."""
    proved_tree.source("low").touch()
    assert proved_tree.runs_proved()
    assert (proved_tree.crate("mote") / "out/proved").stat().st_mtime_ns > proved_tree.source("low").stat().st_mtime_ns


@pytest.mark.parametrize(("change", "undo"), [
    ("echo more >>crates/low/src/lib.rt", "sed -i '$d' crates/low/src/lib.rt"),
    ("touch crates/low/src/other.rt", "rm crates/low/src/other.rt"),
    ("echo more >>crates/low/specs/Lib.antt", ": >crates/low/specs/Lib.antt"),
    ("echo more >>crates/low/proofs/Lib.antt", ": >crates/low/proofs/Lib.antt"),
    ("mv crates/low/specs aside", "mv aside crates/low/specs"),
    ("sed -i 's/high beside/high beside low/' crates.txt", "sed -i 's/high beside low/high beside/' crates.txt"),
    ("sed -i 's/high: low/high: low beside/' crates.txt", "sed -i 's/high: low beside/high: low/' crates.txt"),
    ("sed -i s/3/0/ crates/mote/out/mote", "sed -i s/0/3/ crates/mote/out/mote"),
    ("mv crates/mote/out/mote aside", "mv aside crates/mote/out/mote"),
])
def test_changes(proved_tree: Tree, change: str, undo: str) -> None:
    """The program counts as proved while the sources, with what crates.txt says of them, and itself are as they were."""
    assert proved_tree.shell(change).returncode == 0 and proved_tree.runs_unproved()
    assert proved_tree.shell(undo).returncode == 0 and proved_tree.runs_proved()


@pytest.mark.skipif(not can_be_nobody(), reason="no command can be begun as nobody, who can write to /dev/null")
def test_tree_of_another(proved_tree: Tree) -> None:
    """In a tree of another user's, which can't be written, what is proved runs, also where a source was touched, and nothing else is
    proved."""
    tree = proved_tree
    for folder in (tree.room, *list(tree.room.parents)[:3]):
        if folder.stat().st_mode & 0o001 == 0:
            folder.chmod(folder.stat().st_mode | 0o011)
    # Where the stand-ins note what was built.
    tree.room.chmod(0o777)

    def as_another(script: str, *words: str) -> tuple[int, str]:
        settings = tree.settings(PATH=f"{tree.bin}:/usr/local/bin:/usr/bin:/bin")
        tree.ran = run(*AS_NOBODY, tree.root / script, *words, cwd=Path("/"), settings=settings)
        return tree.ran.returncode, tree.stderr

    tree.source("low").touch()
    assert as_another("prove", "--is-current") == (0, "")
    as_another("mote", "a")
    assert tree.is_proved("a")
    assert as_another("prove") == (1, tree.cannot_be_written)
    tree.edit("low")
    kept = Path(tempfile.gettempdir()) / f"unproved-65534{tree.root}-mote".replace("/", "-")
    try:
        for _ in range(2):
            as_another("mote")
            assert tree.is_unproved() and builds(tree) == 1
        # What belongs to this tree is used by others, too.
        shutil.rmtree(kept)
        assert tree.runs_unproved() and builds(tree) == 2
        as_another("mote")
        assert tree.is_unproved(), tree.stderr
        assert builds(tree) == 2 and not kept.exists()
        kept.mkdir(mode=0o777)
        tree.edit("low")
        assert as_another("mote") == (125, "mote: no program is built from the present sources, neither proved nor unproved: "
                                      f"{kept} is another user's\n")
    finally:
        shutil.rmtree(kept, ignore_errors=True)
    tree.source("low").chmod(0o600)
    assert as_another("prove", "--is-current") == (1, f"prove: [Errno 13] Permission denied: '{tree.source('low')}'\n")
