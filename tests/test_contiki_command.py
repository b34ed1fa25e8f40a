"""The command `contiki`, and the programs that it builds: arguments, scripts, readers, Makefiles, the debugger."""

import os
import pty
import re
import select
import shutil
import signal
import subprocess
import time
from pathlib import Path
from typing import NamedTuple

import pytest

from contiki_programs import BLINKER, HELLO, SOURCES, Contiki, messages, outcome, program_of, script_of, transcript_of, write_source
from test_contiki_refused import NO_PROGRAM
from tools import EXAMPLES, ROOT, Completed, Word, needs, output_of, run, with_stream, without, write_program

# Lines of comments that leave room for 7 bytes of the 16,777,216 of a script, which a line end precedes.
COMMENTS = (b"#" * 1023 + b"\n") * 16_383 + b"#" * 1017
SCRIPT = BLINKER.with_suffix(".script")
HOUSE = EXAMPLES / "first"
FAULTS = SOURCES / "faults"
ROOT_OF_NINE = "#include <math.h>\n" + program_of('static volatile double nine = 9; printf("%d\\n", (int)sqrt(nine));')
ANNOTATED = "#define LOG_LEVEL 0\n" + program_of('LOG_ANNOTATE("#L %d\\n", 5); printf("end\\n");')


class Case(NamedTuple):
    """Arguments, of which one of several lines is a source's text; a script; the status, the output, and a pattern of the message."""
    words: list[Word]
    script: bytes = b""
    status: int = 0
    out: str | None = ""
    why: str = ""


def refused(words: list[Word], why: str, status: int = 64) -> Case:
    return Case(words, b"", status, "", re.escape(f"contiki: {why}\n"))


def without_effect(setting: str, source: Path, why: str) -> Case:
    return Case([f"-D{setting}", source], b"", 0, None, f"(?s:.*){why}: {setting.split('=')[0]} changes nothing(?s:.*)")


def check(ran: Completed, case: Case) -> None:
    assert (ran.returncode, ran.stdout.decode() if case.out is not None else None) == (case.status, case.out), output_of(ran)
    assert re.fullmatch(case.why, ran.stderr.decode()), output_of(ran)


# ---- Arguments of the command ----

@pytest.mark.parametrize("case", [
    refused([BLINKER, "--mmem"], "--mmem needs an argument"),
    *(refused([BLINKER, "--clock-second", second], "--clock-second needs a number from 1 to 999999999") for second in ("0", "1000000000")),
    *(refused([BLINKER, f"{option}="], f"{option} needs an argument")
      for option in ("--network", "--only", "--record", "--replay", "--node", "--build", "--clock-second")),
    refused([BLINKER, "--cc", "none"], "there is no compiler none", 69),
    refused([BLINKER, "--library", "/none"], "/none has no libtoarmuts.a with toarmuts.h", 69),
    refused(["--mmem", "5", BLINKER], "bad sizes"),
    refused(["--frob", BLINKER], "unknown option --frob"),
    refused([], "no source is given; see --help"),
    refused([BLINKER, SCRIPT], f"{SCRIPT} is not a C source; the script is read from standard input: < {SCRIPT}"),
    refused(["none.c"], "none.c: no such file"),
    refused(["--", "--text"], "--text: no such file"),
    refused([SOURCES], f"{SOURCES} is a folder: name the sources in it"),
    refused(["--text", "--picture", BLINKER], "--picture draws the whole transcript: leave out --text"),
    refused(["--test", "--picture", BLINKER], "--picture draws the whole transcript: leave out --test"),
    *(refused([*option, *option, BLINKER], f"{option[0]} is given twice")
      for option in (["--mmem", "64"], ["--quota", "8"], ["--quiet"], ["--text"])),
    *(refused([option, "1", f"{option}=2", BLINKER], f"{option} is given twice")
      for option in ("--clock-second", "--network", "--only", "--record", "--replay", "--node", "--build")),
    refused(["--picture", "--gdb", BLINKER], "--picture and --gdb don't go together"),
    refused(["--gdb", "--build", "x", BLINKER], "--gdb and --build don't go together"),
    refused(["--build", "x", "-o", "y", BLINKER], "-o is for --board: --build has its own file"),
    *(refused(["--build", place, BLINKER], f"--build {place}: no program can be written there") for place in ("/", "/none/x")),
    Case(["--picture", "--picture", "--version"], out=f"contiki {(ROOT / 'VERSION').read_text(encoding='utf-8')}"),
    Case(["--version"], out=f"contiki {(ROOT / 'VERSION').read_text(encoding='utf-8')}"),
    Case(["--text", BLINKER], b"tick 128\ntick 128\n", out="LED on\nLED off\n"),
    Case(["--quiet", BLINKER], b"tick 128\n", out="4 event 136 0 -> print 4c4544206f6e0a\n"),
    Case(["--text", "--", BLINKER], b"tick 128\n", out="LED on\n"),
    Case(["--clock-second", "10", "--text", BLINKER], b"tick 10\n", out="LED on\n"),
    Case(["--clock-second=10", "-D", "NOTHING", "-I", EXAMPLES, "--cc=gcc", BLINKER],
         out="4 synch 129 - -> timer-set 0 10\n4 answer done -> wait\n"),
    Case(["--mmem", "64", "--heap=64", BLINKER], b"tick 1\n", out="4 synch 129 - -> timer-set 0 128\n4 answer done -> wait\n> tick 1\n"),
    Case(["-D", "WORD=1", "-D", "LINUX", "-U", "LINUX", "--text", program_of('printf("%d\\n", WORD);')], out="1\n"),
    *(Case([f"-DLOG_CONF_WITH_ANNOTATE={setting}", "--text", ANNOTATED], out="#L 5\n" * setting + "end\n") for setting in (0, 1)),
    # Libraries go after what needs them.
    Case(["-fno-builtin", "-Wl,--as-needed", "-L", "/", "-lm", "--text", ROOT_OF_NINE], out="3\n"),
    without_effect("PROCESS_CONF_NUMEVENTS=64", BLINKER, "the mote's event queue holds 32 events"),
    without_effect("HEAPMEM_CONF_ARENA_SIZE=64", BLINKER, "the heap's size is the option --heap"),
    without_effect("MMEM_CONF_SIZE=64", BLINKER, "the size of managed memory is the option --mmem"),
    without_effect("LINKADDR_CONF_SIZE=2", SOURCES / "frames.c", "addresses have 8 bytes"),
    Case(["-DLINKADDR_CONF_SIZE=8", SOURCES / "frames.c"], out=None),
    Case(["-D", "AUTOSTART_ENABLE=0", BLINKER], status=64, why="(?s:.*)no AUTOSTART_PROCESSES(?s:.*)"),
    # A crash is told in one line, and none by the shell.
    Case([FAULTS / "null_pointer.c"], b"tick 1\n", 139, None, r"contiki: .*\(SIGSEGV\)\n"),
    Case(["--quiet", FAULTS / "endless.c"], b"tick 1\n", 3, "halt\n", "contiki: the mote halted: .*\n"),
], ids=lambda case: " ".join(word.name if isinstance(word, Path) else str(word).partition("\n")[0] for word in case.words))
def test_arguments(contiki: Contiki, tmp_path: Path, case: Case) -> None:
    """Arguments of the command. A source's path may have blanks."""
    folder = tmp_path / "a folder with blanks"
    folder.mkdir()
    check(contiki(*(write_source(folder, word) if isinstance(word, str) and "\n" in word else word for word in case.words),
                  stdin=case.script), case)


def test_help(contiki: Contiki, blinker: Path) -> None:
    for ran in contiki("--help"), run(blinker, "--text", "--mmem=64", "--heap=64", "--help"):
        assert (ran.returncode, ran.stdout[:5], ran.stderr) == (0, b"Runs ", b""), output_of(ran)


@pytest.mark.parametrize("words", [[BLINKER], ["--network", HOUSE / "house.net", HOUSE / "beacon.c", HOUSE / "listener.c"]],
                         ids=["mote", "network"])
def test_streams_that_fail(contiki: Contiki, words: list[str | Path]) -> None:
    """Standard input that is closed or a folder, and standard output that is closed or full."""
    command: list[str | Path] = [ROOT / "contiki", "--library", contiki.library, *words]
    for redirection, status, what in (("<&-", 5, "read"), ("</", 5, "read"), (">&-", 6, "write"), (">/dev/full", 6, "write")):
        ran = with_stream(redirection, *command)
        assert (ran.returncode, ran.stderr) == (status, f"contiki: {what} failed\n".encode()), output_of(ran)


def test_streams_of_a_built_program(blinker: Path) -> None:
    for redirection, status, what in (("<&-", 5, "read"), ("</", 5, "read"), (">&-", 6, "write"), (">/dev/full", 6, "write")):
        ran = with_stream(redirection, blinker)
        assert (ran.returncode, ran.stderr) == (status, f"contiki: {what} failed\n".encode()), output_of(ran)


@pytest.mark.parametrize("word", ["--help", "--version"])
def test_help_that_can_not_be_written(word: str) -> None:
    for redirection in (">&-", ">/dev/full"):
        ran = with_stream(redirection, ROOT / "contiki", word)
        assert (ran.returncode, ran.stderr) == (6, b"contiki: write failed\n"), output_of(ran)


def test_sources_of_a_record(contiki: Contiki, tmp_path: Path) -> None:
    """A record names the sources that the program is made of, and the headers beside them, in folders of any name."""
    def sources(name: str, text: str, header: str) -> bytes:
        folder = tmp_path / name
        folder.mkdir()
        (folder / "own.h").write_text(header, encoding="utf-8")
        source, record = write_source(folder, f'#include "own.h"\n{text}'), folder / "record"
        assert contiki("--record", record, source).returncode == 0
        return record.read_bytes().split()[4]

    text = BLINKER.read_text(encoding="utf-8")
    first = sources("plain", text, "")
    assert sources("a blank, #, $HOME and $", text, "") == first
    assert len({first, sources("another source", f"{text}\n", ""), sources("another header", text, "\n")}) == 3


@pytest.mark.parametrize(("other", "why"), [
    ((EXAMPLES / "contiki/timers.c").read_text(encoding="utf-8"), "two sources have AUTOSTART_PROCESSES: name those of one program"),
    ("int main(void) { return 0; }\n", "a source has a main: leave it out, since AUTOSTART_PROCESSES says what is started"),
], ids=["two", "main"])
def test_two_programs(contiki: Contiki, sanitizing_compiler: str, tmp_path: Path, other: str, why: str) -> None:
    ran = contiki("--cc", sanitizing_compiler, BLINKER, write_source(tmp_path, other))
    assert (ran.returncode, messages(ran.stderr)) == (65, [why, NO_PROGRAM]), output_of(ran)


# ---- Scripts, and arguments of the program ----

@pytest.fixture(scope="module")
def blinker(contiki: Contiki) -> Path:
    return contiki.build(BLINKER)


@pytest.mark.parametrize(("script", "line", "why"), [
    (b"tick 1\n\nfrob\ntick 1\n", 3, "is malformed"), (b"# \r\ntick 1\r\n", 2, "ends with byte 13"),
    (b"\xef\xbb\xbftick 1\n", 1, "begins with a byte order mark"),
], ids=["frob", "Windows", "mark"])
def test_malformed_line(blinker: Path, script: bytes, line: int, why: str) -> None:
    """A malformed line ends the transcript, and the reason is reported in one line."""
    whole, text = run(blinker, stdin=script), run(blinker, "--text", stdin=script)
    assert (whole.returncode, text.returncode, text.stdout, text.stderr) == (2, 2, b"", whole.stderr), output_of(whole)
    assert whole.stdout.endswith(f"\nbad line {line}\n".encode()), output_of(whole)
    assert re.fullmatch(f"contiki: line {line} of the script {why}.*\n", whole.stderr.decode()), output_of(whole)


@pytest.mark.parametrize(("script", "status", "end"), [
    (b"#" * 1024 + b"\ntick 1", 0, b"> tick 1\n"), (b"#" * 1025 + b"\ntick 1\n", 2, b"bad line 1\n"),
    (COMMENTS + b"\ntick 1", 0, b"> tick 1\n"), (COMMENTS + b"\ntick 11", 4, b"wait\ntoo long\n"),
    (COMMENTS + b"\ntick 1\n", 4, b"wait\ntoo long\n"),
], ids=["longest line", "longer line", "longest script", "longer script", "longer by a line end"])
def test_longest_script(blinker: Path, script: bytes, status: int, end: bytes) -> None:
    ran = run(blinker, stdin=script)
    assert ran.returncode == status and ran.stdout.endswith(end), output_of(ran)


@pytest.mark.parametrize("case", [
    refused(["--mmem", "64x"], "--mmem needs a number"), refused(["--heap", "4294967360"], "--heap needs a number"),
    refused(["--quota", ""], "--quota needs a number"), refused(["--mmem"], "--mmem needs a number"),
    refused(["--mmem=64x"], "--mmem needs a number"), refused(["--mmem=64", "--mmem", "64"], "--mmem is given twice"),
    refused(["a", "b"], "unknown argument b"), refused(["--quiet=1"], "unknown argument --quiet=1"), refused(["--quota", "0"], "bad sizes"),
    refused(["/none.script"], "/none.script: no such file", 5),
    Case(["--text", "--mmem=64", "--heap=64"], b"tick 128\n", out="LED on\n"),
], ids=lambda case: " ".join(map(str, case.words)))
def test_arguments_of_the_program(blinker: Path, case: Case) -> None:
    check(run(blinker, *case.words, stdin=case.script), case)


# ---- Readers ----

def test_lines_are_written_before_more_is_read(blinker: Path) -> None:
    with subprocess.Popen([blinker], stdin=subprocess.PIPE, stdout=subprocess.PIPE) as ran:
        assert ran.stdin is not None and ran.stdout is not None
        for line, wanted in ((b"", [b"4 synch 129 - -> timer-set 0 128\n", b"4 answer done -> wait\n"]), (b"tick 1\n", [b"> tick 1\n"])):
            ran.stdin.write(line)
            ran.stdin.flush()
            assert select.select([ran.stdout], [], [], 60)[0], f"nothing after {line!r}"
            assert [ran.stdout.readline() for _ in wanted] == wanted
        ran.communicate()


@pytest.mark.parametrize("reader", ["gone", "full", "stuck"])
def test_reader(blinker: Path, tmp_path: Path, reader: str) -> None:
    """Where nobody reads any more, or a disk is full, the status is 6. Where a reader is stuck, a program can be ended."""
    script = tmp_path / "long.script"
    # No pipe takes its transcript at once.
    script.write_text("tick 1\n" * 200_000, encoding="utf-8")
    with script.open("rb") as opened, open("/dev/full", "wb") as full, subprocess.Popen(
            [blinker], stdin=opened, stdout=full if reader == "full" else subprocess.PIPE, stderr=subprocess.PIPE) as ran:
        assert ran.stderr is not None
        if reader == "gone" and ran.stdout is not None:
            ran.stdout.close()
        elif reader == "stuck":
            time.sleep(1)
            ran.terminate()
        wanted = (-signal.SIGTERM, b"") if reader == "stuck" else (6, b"contiki: write failed\n")
        assert (ran.wait(timeout=60), ran.stderr.read()) == wanted


def test_script_that_cannot_be_read(blinker: Path) -> None:
    folder = os.open("/", os.O_RDONLY)
    ran = subprocess.run([blinker], stdin=folder, capture_output=True, check=False)
    os.close(folder)
    assert (ran.returncode, ran.stderr) == (5, b"contiki: read failed\n")


# ---- The command in a tree, in a release and from a Makefile ----

@pytest.fixture
def tree(toarmuts_library: Path, tmp_path: Path) -> Path:
    """A tree whose library is current, as its ./prove says: a stand-in."""
    place = tmp_path / "tree"
    (place / "crates/toarmuts").mkdir(parents=True)
    for name in ("contiki", "VERSION"):
        shutil.copy2(ROOT / name, place)
    (place / "c").symlink_to(ROOT / "c")
    for name in ("include", "out"):
        (place / "crates/toarmuts" / name).symlink_to(toarmuts_library)
    write_program(place / "prove", "#!/bin/bash\n")
    return place


@pytest.mark.parametrize(("current", "script", "case"), [
    (0, HELLO.with_suffix(".script"), Case([], out=transcript_of(HELLO).decode())),
    (1, Path("/dev/null"), Case([], status=69, why="(?s:.*) ./prove toarmuts\n(?s:.*)")),
    (0, Path("/"), Case([], status=5, out=None, why="contiki: read failed\n")),
], ids=["current", "not current", "a folder as script"])
def test_library_of_a_tree(tree: Path, current: int, script: Path, case: Case) -> None:
    """Without --library the command uses that of crates/toarmuts, if it is current. ./prove doesn't read the script."""
    write_program(tree / "prove", f'#!/bin/bash\n[[ "$*" == "--is-current toarmuts" && ! -d /dev/stdin ]] && exit {current}\nexit 1\n')
    check(run("bash", "-c", '"$0" "$1" < "$2"', tree / "contiki", HELLO, script), case)


def test_unproved_library_of_a_tree(tree: Path, toarmuts_library: Path) -> None:
    """Where the library isn't current one is built without a proof, by a stand-in here, and that is reported."""
    write_program(tree / "prove", "#!/bin/bash\nexit 1\n")
    write_program(tree / "scripts/unproved.py", f'#!/bin/bash\n[[ $* == toarmuts ]] && echo {toarmuts_library}/libtoarmuts.a\n')
    ran = run(tree / "contiki", HELLO, stdin=script_of(HELLO))
    assert (ran.returncode, ran.stdout) == (0, transcript_of(HELLO)), output_of(ran)
    assert ran.stderr == b"contiki: this run is unproved; ./prove toarmuts proves and builds the library\n"


# A script that waits until it is interrupted, and then ends with a status, as those in Python and those that start Python do.
WAITS = """#!/bin/bash
trap 'exit {}' INT
touch "$(dirname "$(readlink -f "$0")")/waits"
while :; do sleep 0.1; done
"""


@pytest.mark.parametrize("status", [1, 130])
@pytest.mark.parametrize("waits", ["prove", "scripts/unproved.py"])
def test_interrupt_before_the_run(tree: Path, waits: str, status: int) -> None:
    """Ctrl-C ends the command, also where the library is looked for or built: nothing is run, and no library is said to be missing."""
    write_program(tree / "prove", "#!/bin/bash\nexit 1\n")
    write_program(tree / waits, WAITS.format(status))
    # Where this was started in the background, interrupts are passed over.
    command = ["env", "--default-signal=INT", str(tree / "contiki"), str(HELLO)]
    ran = subprocess.Popen(command, stdin=subprocess.DEVNULL, stdout=subprocess.PIPE, stderr=subprocess.PIPE, start_new_session=True)
    while not (tree / waits).with_name("waits").exists():
        time.sleep(0.05)
    os.killpg(ran.pid, signal.SIGINT)
    assert (*ran.communicate(timeout=60), ran.returncode) == (b"", b"", 128 + signal.SIGINT)


def test_driver_that_a_release_keeps(tree: Path, toarmuts_library: Path, tmp_path: Path) -> None:
    """A release stores its compiled driver in the user's cache folder, if there is one. A driver that wasn't used for long is removed."""
    (tree / "library").symlink_to(toarmuts_library)
    (tmp_path / "file").touch()
    cache = tmp_path / "cache/toarmuts"
    for name, days in ("0123456789abcdef", 31), ("0123456789abcdef.7", 31), ("1123456789abcdef", 29), ("another", 31):
        (cache / name).mkdir(parents=True)
        os.utime(cache / name, times=(time.time() - days * 86_400,) * 2)
    kept = []
    for folder in tmp_path / "file", cache.parent, cache.parent:
        ran = run(tree / "contiki", HELLO, stdin=script_of(HELLO), settings={"XDG_CACHE_HOME": str(folder)})
        assert ran.stdout == transcript_of(HELLO), output_of(ran)
        kept.append({path.name: path.stat().st_ino for path in cache.iterdir()})
    assert kept[1] == kept[2] and len(kept[0]) == 4
    made, = set(kept[1]) - {"1123456789abcdef", "another"}
    assert len(kept[1]) == 3 and re.fullmatch("[0-9a-f]{16}", made)


@pytest.mark.parametrize(("source", "name", "status"), [(HELLO, "Hello world", 0), (SOURCES / "faults/calls_exit.c", "Faulty", 1)],
                         ids=["hello", "fault"])
def test_picture(tree: Path, source: Path, name: str, status: int) -> None:
    """A picture is drawn by the command beside it, of the same sizes; the status is that of the run."""
    write_program(tree / "mote-picture", '#!/bin/bash\necho "$@" && grep -c .\n')
    ran = run(tree / "contiki", "--picture", "--heap=64", "--mmem", 128, source)
    assert (ran.returncode, ran.stdout.decode()) == (status, f"--heap=64 --mmem 128 -- {name}\n{2 - status}\n"), output_of(ran)


@pytest.mark.parametrize(("removed", "size", "why"), [
    ("", "5", "bad sizes"),
    ("AUTOSTART_PROCESSES(&only);", "4", "no AUTOSTART_PROCESSES, so no process is started"),
])
def test_picture_of_nothing(tree: Path, tmp_path: Path, removed: str, size: str, why: str) -> None:
    """Where nothing was run, nothing is drawn, and the reason is given once."""
    write_program(tree / "mote-picture", "#!/bin/bash\necho drawn\n")
    source = write_source(tmp_path, program_of("PROCESS_WAIT_EVENT();").replace(removed, ""))
    assert outcome(run(tree / "contiki", "--picture", "--mmem", size, source)) == (64, "", f"contiki: {why}\n")


# Makefiles of Contiki-NG's kind, one of them with CONTIKI elsewhere, one that asks for folders and target first, one with modules
# that are started with the program, and one of the old Contiki's that names a program as a target alone.
@needs("make")
@pytest.mark.parametrize(("name", "wanted"), [("Makefile", "7 a b\n"), ("Makefile.quotes", "7 it's\n"), ("Makefile.old", "7 c\n"),
                                              ("Makefile.target-variables", "7 sky\n"),
                                              ("Makefile.modules", "#0001.0001.0001.0001> 7 x\n")])
def test_makefile(contiki: Contiki, tmp_path: Path, name: str, wanted: str) -> None:
    """A program's own Makefile builds it, by `make`, `make NAME.native` or `make NAME`, and has the targets of Contiki-NG's tutorials."""
    shutil.copytree(SOURCES / "makefiles", tmp_path, dirs_exist_ok=True)
    text = (tmp_path / name).read_text(encoding="utf-8")

    def make(*words: str) -> Completed:
        return run("make", "-s", "-C", tmp_path, "-f", name, "TARGET=sky", f"CONTIKI={ROOT}/c/contiki",
                   f"CONTIKI_COMMAND={ROOT}/contiki --library {contiki.library}", *words)
    assert outcome(make("savetarget")) == (0, "saving Makefile.target\n", "")
    assert (tmp_path / "Makefile.target").read_text(encoding="utf-8") == "TARGET = native\n"
    shown = make("viewconf")
    for line in re.findall(r"^(?:CONTIKI_PROJECT|DEFINES) = [^$\n]*\n", text, re.M):
        assert shown.returncode == 0 and line in shown.stdout.decode(), output_of(shown)
    target = "node.native" if name == "Makefile.quotes" else "node"
    assert outcome(make() if name == "Makefile" else make(target)) == (0, "", "")
    assert outcome(run(tmp_path / target, "--text")) == (0, wanted, "")
    if name != "Makefile.old":
        make("distclean")
        assert {path.name for path in tmp_path.iterdir()} == {path.name for path in (SOURCES / "makefiles").iterdir()}


@needs("make")
@pytest.mark.parametrize(("kept", "words", "wanted"), [("", [], "native"), ("TARGET = sky\n", [], "sky"),
                                                       ("TARGET = sky\n", ["TARGET=z1"], "z1")])
def test_target_of_a_makefile(tmp_path: Path, kept: str, words: list[str], wanted: str) -> None:
    """A Makefile may ask for the target, and name folders of modules: from make's arguments, from Makefile.target, or native."""
    (tmp_path / "Makefile.target").write_text(kept, encoding="utf-8")
    includes = "".join(f"include {ROOT}/c/contiki/Makefile.{name}\n" for name in ("dir-variables", "identify-target"))
    (tmp_path / "Makefile").write_text(includes + "all:; @echo $(TARGET) $(CONTIKI_NG_APP_LAYER_DIR)\n", encoding="utf-8")
    assert outcome(run("make", "-s", "-C", tmp_path, *words, settings=without("TARGET"))) == (0, f"{wanted} os/net/app-layer\n", "")


# ---- The debugger ----

@needs("gdb")
def test_debugger(contiki: Contiki) -> None:
    ran = contiki("--gdb", SOURCES / "faults/null_pointer.c", settings={"GDB": "gdb -q -batch -ex run -ex backtrace"})
    assert b"process_thread_careless" in ran.stdout, output_of(ran)


@needs("setsid")
def test_debugger_without_a_terminal(contiki: Contiki) -> None:
    ran = run("setsid", "--wait", ROOT / "contiki", "--library", contiki.library, "--gdb", HELLO, settings={"GDB": ""})
    assert (ran.returncode, ran.stderr) == (69, b"contiki: --gdb needs a terminal\n"), output_of(ran)


def test_debugger_that_is_missing(contiki: Contiki) -> None:
    ran = contiki("--gdb", HELLO, settings={"GDB": "none -q"})
    assert (ran.returncode, ran.stderr) == (69, b"contiki: there is no debugger none\n"), output_of(ran)


def test_debugger_from_a_terminal(contiki: Contiki, tmp_path: Path) -> None:
    """From a terminal gdb is started for the program and its arguments. Here a stand-in prints these."""
    write_program(tmp_path / "gdb", '#!/bin/bash\necho "$1 $2 ${@:4:3} ${@: -1}" >"${0%/*}/told"\n')
    words = [str(ROOT / "contiki"), "--library", str(contiki.library), "--gdb", "--quiet", "--heap", "64", str(HELLO)]
    settings = {**without("GDB"), "PATH": f"{tmp_path}:{os.environ['PATH']}"}
    child, terminal = pty.fork()
    if child == 0:
        # Whatever fails here, no second one goes on with these tests.
        try:
            os.dup2(os.open("/dev/null", os.O_RDONLY), 0)
            os.execve(words[0], words, settings)
        finally:
            os._exit(127)
    _, status = os.waitpid(child, 0)
    os.close(terminal)
    assert status == 0
    assert re.fullmatch(r"-q --args --quiet --heap 64 /\S+/script\n", (tmp_path / "told").read_text(encoding="utf-8"))
