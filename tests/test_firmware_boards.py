"""Images of boards in the emulator: each run there is, by its record, the run of ./contiki on Linux.

A live board is fed by its ports, and its clock is the emulator's, which counts instructions.
"""

import os
import pty
import re
import select
import shutil
import signal
import subprocess
import time
from pathlib import Path
from typing import Iterator

import pytest

from contiki_programs import Contiki, messages, program_of, script_of, transcript_of, write_source
from emulator import CORES, HAS_NEWLIB, PATIENCE, Builder, Emulated, kernels, replay, run_script, whole_lines
from tools import EXAMPLES, ROOT, Word, needs, once, output_of, run, succeed

pytestmark = [needs("arm-none-eabi-gcc", "qemu-system-arm"),
              pytest.mark.skipif(not HAS_NEWLIB, reason="not here: libnewlib-arm-none-eabi")]

HERE = ROOT / "tests/c/firmware"
CONTIKI = EXAMPLES / "contiki"
BOARDS = ROOT / "c/contiki/boards"
LARGE = "mps2-an385"
EACH_CORE = (LARGE, "netduinoplus2")
SCRIPTED = sorted(CONTIKI.glob("*.c")) + sorted((CONTIKI / "mote").glob("*.c"))


@pytest.fixture(scope="module")
def build(toarmuts_library: Path, shared: Path) -> Builder:
    return Builder(kernels(shared / "kernels"), shared / "images")


@pytest.fixture
def boards() -> Iterator[list[Emulated]]:
    """The boards of a test: they are ended after it."""
    running: list[Emulated] = []
    yield running
    for it in running:
        it.close()


def start(boards: list[Emulated], image: Path, board: str, room: Path, fast: bool = False, radio: str = "") -> Emulated:
    boards.append(Emulated(image, board, room, fast=fast, radio=radio))
    return boards[-1]


def check_replay(contiki: Contiki, place: Path, board: Emulated, source: Path, *words: Word) -> None:
    """The board's record, up to its last whole line, makes on Linux what the board printed. The board ends here: what it did last may be in
    one of both alone."""
    board.pump(0.2)
    board.finish()
    ran = replay(contiki, place, whole_lines(board.heard["record"]), source, "--text", *words)
    told_last = messages(ran.stderr)[-1]
    assert ran.returncode == 0 and re.fullmatch(r"replayed \d+ inputs and \d+ values; [1-9]\d* checks agree", told_last), output_of(ran)
    heard, made = board.heard["console"], ran.stdout
    assert heard.startswith(made) or made.startswith(heard), (heard[-300:], made[-300:])
    assert abs(len(heard) - len(made)) < 256


def script_beside(source: Path) -> Path:
    """The script of an example; those of mote's applications are beside the mote's."""
    return source.with_suffix(".script") if source.with_suffix(".script").exists() else EXAMPLES / f"{source.stem}.script"


@pytest.mark.parametrize("board", EACH_CORE)
def test_scripts(build: Builder, board: str) -> None:
    """With its script each example writes on a board the transcript that it writes on Linux."""
    for source in SCRIPTED:
        script = script_beside(source)
        _, transcript, status = run_script(build(board, source, "--script", script), board)
        assert (status, transcript) == (0, script.with_suffix(".transcript").read_bytes()), source


@pytest.mark.parametrize("level", ["-O0", "-O1", "-O2", "-O3", "-Os"])
def test_level(build: Builder, level: str) -> None:
    """At each level of the compiler a program fits, and its run is the same byte for byte."""
    for board in EACH_CORE:
        for source in CONTIKI / "guests.c", CONTIKI / "shell.c":
            _, transcript, status = run_script(build(board, source, level, "--script", source.with_suffix(".script")), board)
            assert (status, transcript) == (0, transcript_of(source)), (board, source)


def test_text_is_left_out(build: Builder) -> None:
    """Only an image with a script has the kernel's text of a transcript."""
    source = CONTIKI / "hello-world.c"
    images = build(LARGE, source), build(LARGE, source, "--script", source.with_suffix(".script"))
    assert [b" toarmuts_line\n" in succeed("arm-none-eabi-nm", image).stdout for image in images] == [False, True]


@pytest.mark.parametrize("what,told_as", [
    ("static volatile char all[66000]", "variables and stack don't fit in the board's RAM"),
    ("static volatile char all[56000]", "variables and stack don't fit in the board's RAM"),
    ("static const char all[300000] = {1}", "code and constants don't fit in the board's flash"),
])
@pytest.mark.parametrize("level", ["-O0", "-Os"])
def test_what_does_not_fit(build: Builder, tmp_path: Path, what: str, told_as: str, level: str) -> None:
    """The message says which memory is too small."""
    source = write_source(tmp_path, program_of('printf("%d", all[clock_time()]);', f"{what};"))
    ran = run(ROOT / "contiki", "--library", build.library, "--board", "lm3s6965", level, source, "-o", tmp_path / "image")
    assert ran.returncode == 65 and messages(ran.stderr)[0] == told_as, output_of(ran)


@pytest.mark.parametrize("board", CORES)
def test_live(contiki: Contiki, build: Builder, boards: list[Emulated], tmp_path: Path, board: str) -> None:
    """A shell answers on the serial line, and the record of that replays."""
    source = CONTIKI / "shell.c"
    it = start(boards, build(board, source), board, tmp_path / "board")
    it.until("record", b"# check ")
    for line in b"help\n", b"echo some text\n", b"count 2\n":
        it.send("console", line)
        it.until("record", b"serial " + line.hex().encode() + b"\n# check ")
    it.until("console", b"some text\n")
    check_replay(contiki, tmp_path / "record", it, source)
    record = whole_lines(it.heard["record"])
    changed = record.replace(b"serial " + b"help\n".hex().encode(), b"serial " + b"halp\n".hex().encode())
    assert replay(contiki, tmp_path / "record", changed, source).returncode == 1


# A board, its number in clock.c, what that counts with, in hundredths of a second, and minutes: the emulator takes longer for the last two.
COUNTERS = [("mps2-an385", 1, 1, 60), ("lm3s6965", 2, 100, 15), ("netduinoplus2", 3, 1, 2)]


@pytest.mark.parametrize("board,number,step,minutes", COUNTERS, ids=["mps2-an385", "lm3s6965", "netduinoplus2"])
def test_an_hour(contiki: Contiki, build: Builder, boards: list[Emulated], tmp_path: Path, board: str, number: int, step: int,
                 minutes: int) -> None:
    """For an hour the program's clock is that of another timer of the board, also where the serial line is flooded. The emulator's time
    runs ahead while the board sleeps."""
    source, words = HERE / "clock.c", [f"-DBOARD={number}"]
    it = start(boards, build(board, source, *words), board, tmp_path / "board", fast=True)
    it.until("record", b"# check ")
    rows = [(0, 0)]
    while rows[-1][0] < minutes * 6000 or len(rows) < 30:
        if len(rows) % 10 == 5:
            it.send("console", b"some text\n" * 100)
            it.pump(0.2)
        it.send("console", b"\nnow\n")
        it.until("console", b"\n", len(rows))
        own, counter = map(int, it.heard["console"].splitlines()[-1].split())
        assert abs(counter - own) <= 1000, rows
        rows.append((own, counter))
    # Both are rounded down: to a tick, and to the counter's step. They differ by what passed before the counter was started.
    ahead = [counter - own for own, counter in rows[1:]]
    assert max(ahead) - min(ahead) <= step + 1 and abs(ahead[0]) <= step + 5, rows
    check_replay(contiki, tmp_path / "record", it, source, *words)


def test_stall(contiki: Contiki, build: Builder, boards: list[Emulated], tmp_path: Path) -> None:
    """No tick is lost where the emulator itself stops for a second."""
    source = CONTIKI / "mote/blink.c"
    it = start(boards, build("lm3s6965", source), "lm3s6965", tmp_path / "board")
    it.until("console", b"on", 3)
    it.stall(1.5)
    it.until("console", b"on", 12)
    check_replay(contiki, tmp_path / "record", it, source)


def test_values(contiki: Contiki, build: Builder, boards: list[Emulated], tmp_path: Path) -> None:
    """A replay prints the values that the board read; without one of them it ends there."""
    it = start(boards, build(LARGE, HERE / "thermo.c"), LARGE, tmp_path / "board", fast=True)
    it.until("console", b"degrees", 8)
    check_replay(contiki, tmp_path / "record", it, HERE / "thermo.c")
    lines = whole_lines(it.heard["record"]).splitlines(keepends=True)
    at = next(number for number, line in enumerate(lines) if line.startswith(b"# value "))
    ran = replay(contiki, tmp_path / "record", b"".join(lines[:at] + lines[at + 1:]), HERE / "thermo.c")
    assert ran.returncode == 1 and b"this run reads a value, which its run didn't" in ran.stderr, output_of(ran)


def test_widths(contiki: Contiki, build: Builder, boards: list[Emulated], tmp_path: Path) -> None:
    """A pool of structs with pointers is another pool of the mote on a board: the replay ends there, and says what may be why."""
    it = start(boards, build(LARGE, HERE / "widths.c"), LARGE, tmp_path / "board")
    it.until("record", b"# check ")
    it.send("console", b"x\n")
    it.until("record", b"# check ", 2)
    it.pump(0.3)
    ran = replay(contiki, tmp_path / "record", whole_lines(it.heard["record"]), HERE / "widths.c", "--text")
    assert ran.returncode == 1, output_of(ran)
    assert messages(ran.stderr)[-1].endswith("does the program depend on the size of a pointer, of a long or of a struct?"), output_of(ran)


def test_two_boards(contiki: Contiki, build: Builder, boards: list[Emulated], tmp_path: Path) -> None:
    """Two boards are joined by their radios; each one's record replays alone."""
    sources = [CONTIKI / f"networks/{name}.c" for name in ("receiver", "sender")]
    second = start(boards, build(LARGE, sources[0], "--node", "2"), LARGE, tmp_path / "second")
    second.until("record", b"# check ")
    second.sockets.pop("radio").close()
    first = start(boards, build(LARGE, sources[1], "--node", "1"), LARGE, tmp_path / "first", radio=f"socket,path={tmp_path}/second/radio")
    for number in range(3):
        first.send("console", b"line %d\n" % number)
    first.until("console", b"has arrived\n", 3)
    second.until("console", b"line 2\n")
    for it, source in zip((second, first), sources):
        check_replay(contiki, tmp_path / "record", it, source)


def test_flood_of_the_serial_line(contiki: Contiki, build: Builder, boards: list[Emulated], tmp_path: Path) -> None:
    """Bytes that arrive faster than they can be taken are lost and counted; the record has what the mote was given, and replays. How many
    are lost is up to the machine that emulates: test_firmware_rings.py has each case."""
    source = HERE / "slow.c"
    it = start(boards, build(LARGE, source), LARGE, tmp_path / "board")
    it.until("record", b"# check ")
    flood = b"".join(b"%d: a line of a flood\n" % number for number in range(300))
    it.send("console", flood)
    it.pump(3)
    it.send("console", b"\n\nthe end\n")
    it.until("record", b"\nserial " + b"the end\n".hex().encode() + b"\n# check ")
    # The mote was given what was sent, in its order, without what was lost.
    given = b"".join(bytes.fromhex(it.decode()) for it in re.findall(rb"^serial (\w+)$", it.heard["record"], re.M))
    lost = sum(map(int, re.findall(rb"^# serial line: (\d+) bytes lost$", it.heard["record"], re.M)))
    left = iter(flood + b"\n\nthe end\n")
    assert all(byte in left for byte in given) and len(given) + lost == len(flood) + len(b"\n\nthe end\n")
    check_replay(contiki, tmp_path / "record", it, source)


def test_flood_of_the_radio(contiki: Contiki, build: Builder, boards: list[Emulated], tmp_path: Path) -> None:
    """The same for frames, and for bytes that are none."""
    source = CONTIKI / "mote/relay.c"
    it = start(boards, build(LARGE, source), LARGE, tmp_path / "board")
    it.until("record", b"# check ")
    sent = [bytes([1 + number]) * (5 + number) for number in range(100)]
    for frame in sent:
        it.send("radio", b"\xc0" + frame + b"\xc0")
    it.send("radio", b"\xc0" + b"x" * 200 + b"\xc0\xdb\x01\xc0\xdb\xc0")
    it.pump(2)
    it.send("radio", b"\xc0\xdb\xdc\xdb\xdd\x2a\xc0")
    it.until("record", b"frame c0db2a\n# check ")
    it.until("radio", b"\xc0\xdb\xdc\xdb\xdd\x2a\xc0")
    assert b"bad frames" in it.heard["record"]
    # What was lost is lost as whole frames: none was joined with another one, or shortened.
    given = re.findall(rb"^frame (\w+)$", it.heard["record"], re.M)[:-1]
    left = iter(frame.hex().encode() for frame in sent)
    assert all(frame in left for frame in given)
    check_replay(contiki, tmp_path / "record", it, source)


@pytest.mark.parametrize("before,after,bad", [(b"\xc0early\xc0", b"", 0), (b"early\xc0\xc0half of ", b"a frame\xc0", 1)],
                         ids=["between two frames", "amid a frame"])
def test_radio_that_opens_late(contiki: Contiki, build: Builder, boards: list[Emulated], tmp_path: Path, before: bytes, after: bytes,
                               bad: int) -> None:
    """What comes before `packet-open` is lost and counted, with the rest of a frame that has begun; the first frame after it arrives."""
    source = HERE / "late.c"
    it = start(boards, build(LARGE, source), LARGE, tmp_path / "board")
    it.until("record", b"# check ")
    it.send("radio", before)
    it.pump(0.5)
    it.send("console", b"open\n")
    it.until("console", b"open\n")
    it.send("radio", after + b"whole\xc0")
    it.until("console", b"a frame of 5 bytes\n")
    it.until("record", b"frame " + b"whole".hex().encode() + b"\n# check ")
    assert b"early".hex().encode() not in it.heard["record"] and it.heard["console"].count(b"frame") == 1
    lost = sum(map(int, re.findall(rb"^# radio: (\d+) bytes lost$", it.heard["record"], re.M)))
    assert lost == len(before) + len(after.removesuffix(b"\xc0")) and it.heard["record"].count(b"# radio: 1 bad frames\n") == bad
    check_replay(contiki, tmp_path / "record", it, source)


def test_record_that_nobody_reads(contiki: Contiki, build: Builder, boards: list[Emulated], tmp_path: Path) -> None:
    """Where the record's port is too slow the board goes on, and the record ends with a line that says so: it never has a gap."""
    source = CONTIKI / "mote/blink.c"
    it = start(boards, build(LARGE, source), LARGE, tmp_path / "board", fast=True)
    it.until("record", b"# check ")
    for _ in range(600):
        it.pump(0.1, ports=("console",))
        if it.heard["console"].count(b"\n") > 12_500:
            break
    else:
        pytest.fail("the board waits for the record's port")
    it.until("record", b"# the record ends here: the port is too slow\n")
    assert whole_lines(it.heard["record"]).endswith(b"# the record ends here: the port is too slow\n")
    ran = replay(contiki, tmp_path / "record", whole_lines(it.heard["record"]), source, "--text")
    assert ran.returncode == 0 and it.heard["console"].startswith(ran.stdout[:len(it.heard["console"])]), output_of(ran)


FAULTS = ["null", "zero", "exit", "abort", "assert", "timers", "partly", "8", "100", "1000", "4000"]


@pytest.mark.parametrize("how", FAULTS)
def test_fault(contiki: Contiki, build: Builder, boards: list[Emulated], tmp_path: Path, how: str) -> None:
    """A fault is reported on the console and in the record with the simulator's message, and the board begins anew; the replay has the same
    fault at the same place."""
    board = "lm3s6965" if how in ("null", "100", "4000") else LARGE
    source = HERE / "faults.c"
    it = start(boards, build(board, source), board, tmp_path / "board")
    it.until("record", b"# check ")
    it.send("console", how.encode() + b"\n")
    assert it.ended() == 0
    ran = replay(contiki, tmp_path / "record", it.heard["record"], source, "--text")
    (message,) = messages(ran.stderr)
    line = f"contiki: {message}\n".encode()
    assert line in it.heard["console"] and b"# " + line in it.heard["record"], output_of(ran)
    assert it.heard["console"].startswith(b"ready\n" + how.encode() + b"\n")


def own_board(folder: Path, old: str = "", new: str = "", name: str = "mine") -> Path:
    """A copy of a board's files, with one line of the other one's in it."""
    text = (BOARDS / f"{LARGE}.c").read_text(encoding="utf-8")
    assert not old or text.count(old) == 1
    (folder / f"{name}.c").write_text(text.replace(old, new) if old else text, encoding="utf-8")
    (folder / f"{name}.ld").write_bytes((BOARDS / f"{LARGE}.ld").read_bytes())
    return folder / f"{name}.c"


def build_own(build: Builder, place: Path, board: Path, source: Path, *words: Word) -> Path:
    ran = run(ROOT / "contiki", "--library", build.library, "--board", board, *words, source, "-o", place)
    assert (ran.returncode, ran.stderr) == (0, b""), output_of(ran)
    return place


RECEIVED = "    input_received(port, (uint8_t)UART(port, DATA));\n"
# What a board's file does at a byte `!`, and what is reported of it.
IN_INTERRUPT = {
    "a read of NULL": ("(void)*(volatile int *)0;", "a crash: an invalid address (SIGSEGV)"),
    "a bus error": ("(void)*(volatile int *)0xf0000000;", "a crash: an invalid address (SIGSEGV)"),
    "a division by 0": ("board_zero = 5 / board_zero;", "a crash: a division by 0 (SIGFPE)"),
    "an invalid instruction": ('__asm__ volatile("udf 0");', "a crash: an invalid instruction (SIGILL)"),
    "a full stack": ('__asm__ volatile("mov sp, %0\\n push {r0}" ::"r"(0xf0000100));',
                     "a crash: the stack is full, as by endless recursion (SIGSEGV)"),
}


@pytest.mark.parametrize("what", IN_INTERRUPT)
@pytest.mark.parametrize("stops", [False, True], ids=["anew", "stops"])
def test_fault_in_an_interrupt(build: Builder, boards: list[Emulated], tmp_path: Path, what: str, stops: bool) -> None:
    """It is reported as any other one, with the interrupt, unless the stack of that is lost: on the console and in the record. Then the
    board begins anew, or stops."""
    statement, message = IN_INTERRUPT[what]
    fault = f"    uint8_t byte = (uint8_t)UART(port, DATA);\n    static volatile int board_zero;\n    (void)board_zero;\n" \
        f"    if(byte == '!') {{ {statement} }}\n    input_received(port, byte);\n"
    mine = own_board(tmp_path, RECEIVED, fault)
    image = build_own(build, tmp_path / "image", mine, HERE / "faults.c", *(["--stop-at-fault"] if stops else []))
    it = start(boards, image, LARGE, tmp_path / "board")
    it.until("record", b"# check ")
    it.send("console", b"!\n")
    if stops:
        it.until("record", b"# exception ")
        it.pump(1)
        assert it.process.poll() is None and it.heard["console"].count(b"ready") == 1
    else:
        assert it.ended() == 0
    line = f"contiki: {'' if what == 'a full stack' else 'in interrupt 0: '}{message}\n".encode()
    assert b"ready\n" + line in it.heard["console"] and b"\n# " + line in it.heard["record"], (it.heard["console"], it.heard["record"])


def test_second_fault(build: Builder, boards: list[Emulated], tmp_path: Path) -> None:
    """A fault that can't be reported, as where the process's name is lost, is reported without it, and the board begins anew."""
    it = start(boards, build(LARGE, HERE / "twice.c"), LARGE, tmp_path / "board")
    it.until("record", b"# check ")
    it.send("console", b"fault\n")
    assert it.ended() == 0
    line = b"contiki: a crash: an invalid address (SIGSEGV), and another one where that was reported\n"
    assert it.heard["console"].startswith(line) and b"\n# " + line in it.heard["record"], (it.heard["console"], it.heard["record"])


def test_fault_of_the_port_itself(build: Builder, boards: list[Emulated], tmp_path: Path) -> None:
    """Where even the report's ports are at fault, the board begins anew, and doesn't lock up."""
    mine = own_board(tmp_path, "  int byte;\n", "  int byte;\n  (void)*(volatile int *)0xf0000000;\n")
    it = start(boards, build_own(build, tmp_path / "image", mine, HERE / "faults.c"), LARGE, tmp_path / "board")
    assert it.ended() == 0


def test_fault_while_a_port_takes_nothing(build: Builder, boards: list[Emulated], tmp_path: Path) -> None:
    """The record has the message of a fault, and the board begins anew, also where nobody reads the console."""
    it = start(boards, build(LARGE, HERE / "twice.c"), LARGE, tmp_path / "board")
    it.until("record", b"# check ")
    it.send("console", b"fill\n")
    it.until("record", b"serial 66696c6c0a\n# check ", ports=("record",))
    it.send("console", b"exit\n")
    assert it.ended(ports=("record",)) == 0
    assert b"the program called exit\n" in it.heard["record"], it.heard["record"][-300:]


# What each error changes in the driver's sources, and the lines for faults.c at which it is noticed: the last one is a fault.
PLANTED = {
    "a fault's message is cut": ("board/faults.c", "REPORT_ROOM - report->length;", "(REPORT_ROOM - report->length) / 4;", "timers"),
    "a fault's message lacks its line end": ("board/faults.c", 'output_put_at_once(CONSOLE, "\\n", 1);',
                                             'output_put_at_once(CONSOLE, "", 0);', "exit"),
    "the record lacks a fault's message": ("board/faults.c", "  if(is_recording()) {", "  if(!is_recording()) {", "exit"),
    "the guards are off": ("board/start.c", "MPU_CONTROL = 5;", "MPU_CONTROL = 0;", "1000"),
    "NULL isn't guarded": ("board/start.c", "  guard(0, NULL, NULL_GUARD);\n", "", "null"),
    "the stack isn't guarded": ("board/start.c", "  guard(1, low - (1u << log2_of_size), log2_of_size);\n", "", "1000"),
    "a division by 0 is none": ("board/start.c", "CONFIGURATION |= 0x11;", "CONFIGURATION |= 0x1;", "zero"),
    "what was printed is lost": ("board/faults.c", "    flush_console();\n", "", "partly"),
    "a value isn't recorded": ("record.c", '  record_note("value ", value, "");\n', "", "value exit"),
    "a value isn't in the sum": ("record.c", "  sum_number(value);\n", "  (void)value;\n", "value exit"),
    "calls aren't in the sum": ("mote.c", "    sum_call(call);\n", "", "exit"),
    "an input isn't in the sum": ("record.c", "  sum_line(line.text, line.length);\n", "", "value exit"),
}


@pytest.fixture(scope="module")
def planted_tree(shared: Path) -> Path:
    """The command and the driver, to be changed."""
    def make(folder: Path) -> None:
        folder.mkdir()
        for name in "contiki", "VERSION":
            shutil.copy2(ROOT / name, folder / name)
        shutil.copytree(ROOT / "c", folder / "c", ignore=shutil.ignore_patterns("out"))
    return once(shared / "planted", make)


def fault_told(contiki: Contiki, it: Emulated, place: Path, how: str) -> bool:
    """Whether the board tells of a fault what the replay of its record tells on Linux. A board that doesn't see it goes on."""
    lines = how.split()
    for number, line in enumerate(lines, 1):
        it.until("record", b"# check ", number)
        it.send("console", line.encode() + b"\n")
    end = time.monotonic() + PATIENCE
    while it.process.poll() is None and it.heard["record"].count(b"# check ") <= len(lines) and time.monotonic() < end:
        it.pump(0.05)
    it.pump(0.2)
    ran = replay(contiki, place, it.heard["record"], HERE / "faults.c", "--text")
    message = f"contiki: {messages(ran.stderr)[-1]}\n".encode()
    has_ended, is_printed = it.process.poll() is not None, ran.stdout + message in it.heard["console"]
    return has_ended and is_printed and b"# " + message in it.heard["record"]


@pytest.mark.parametrize("what", PLANTED)
def test_planted_error(contiki: Contiki, build: Builder, boards: list[Emulated], planted_tree: Path, tmp_path: Path, what: str) -> None:
    """An error in the driver for boards is noticed: the board's fault isn't that of the replay."""
    file, old, new, how = PLANTED[what]
    tree = Path(shutil.copytree(planted_tree, tmp_path / "tree"))
    source = tree / "c/contiki/src" / file
    text = source.read_text(encoding="utf-8")
    assert text.count(old) == 1, text.count(old)
    source.write_text(text.replace(old, new), encoding="utf-8")
    for name, command in (("right", ROOT / "contiki"), ("wrong", tree / "contiki")):
        image = tmp_path / name
        ran = run(command, "--library", build.library, "--board", LARGE, HERE / "faults.c", "-o", image)
        assert ran.returncode == 0, output_of(ran)
        it = start(boards, image, LARGE, tmp_path / f"board of {name}")
        assert fault_told(contiki, it, tmp_path / "record", how) == (name == "right"), (name, it.heard)


def test_without_a_record(build: Builder, boards: list[Emulated], tmp_path: Path) -> None:
    """As it is told, the board writes nothing to its third port, also at a fault; it does all else."""
    it = start(boards, build(LARGE, HERE / "faults.c", "--no-record", "--stop-at-fault"), LARGE, tmp_path / "board")
    it.until("console", b"ready")
    it.send("console", b"null\n")
    it.until("console", b"a crash: an invalid address (SIGSEGV)\n")
    it.pump(0.3)
    assert it.heard["record"] == b""


def test_stop_at_fault(build: Builder, boards: list[Emulated], tmp_path: Path) -> None:
    """As it is told, the board stops instead."""
    it = start(boards, build(LARGE, HERE / "faults.c", "--stop-at-fault"), LARGE, tmp_path / "board")
    it.until("record", b"# check ")
    it.send("console", b"exit\n")
    it.until("console", b"the program called exit\n")
    it.pump(1)
    assert it.process.poll() is None and it.heard["console"].count(b"ready") == 1


def test_own_board(build: Builder, boards: list[Emulated], tmp_path: Path) -> None:
    """A file of one's own is a board, beside its linker script."""
    assert build("template", CONTIKI / "blinker.c").exists() and len((BOARDS / "template.c").read_text("utf-8").splitlines()) <= 80
    image = build_own(build, tmp_path / "image", own_board(tmp_path), CONTIKI / "blinker.c")
    it = start(boards, image, LARGE, tmp_path / "board")
    it.until("console", b"LED on\n")


@pytest.mark.parametrize("name", ["settings", "driver", "a board"])
def test_name_of_an_own_board(build: Builder, tmp_path: Path, name: str) -> None:
    """Its file may have any name, also that of a part."""
    folder = tmp_path / "a folder"
    folder.mkdir()
    assert build_own(build, folder / "an image", own_board(folder, name=name), CONTIKI / "blinker.c").stat().st_size > 10_000


@pytest.mark.parametrize("source,words", [("names.c", []), ("standard.c", ["-lm"])])
def test_names_and_standard_functions(contiki: Contiki, build: Builder, tmp_path: Path, source: str, words: list[str]) -> None:
    """A program may have the driver's names. What functions of the C library return is the same as on Linux, and -l is passed on."""
    (tmp_path / "empty").write_bytes(b"")
    ran = run(ROOT / "contiki", "--library", build.library, "--board", LARGE, "--script", tmp_path / "empty", "--run", HERE / source,
              *words, timeout=PATIENCE)
    there = contiki(HERE / source, *words)
    assert (ran.returncode, ran.stdout, ran.stderr) == (0, there.stdout, b"") and ran.stdout.count(b"print") > 4, output_of(ran)


def test_slow_reader_of_a_transcript(build: Builder) -> None:
    """A script has no time: a reader that begins late has the whole transcript."""
    source = EXAMPLES / "contiki/mote/churn.c"
    script = script_beside(source)
    words: list[Word] = [ROOT / "contiki", "--library", build.library, "--board", LARGE, "--script", script, "--run", source]
    ran = run("bash", "-c", '"$@" | { sleep 6; cat; }', "-", *words, timeout=PATIENCE)
    assert ran.stdout == script.with_suffix(".transcript").read_bytes(), output_of(ran)


def test_run_by_the_command(contiki: Contiki, build: Builder) -> None:
    """`--run` with a script writes the transcript, or with `--text` what is printed."""
    source = CONTIKI / "kitchen.c"
    words: list[Word] = [ROOT / "contiki", "--library", build.library, "--board", LARGE, "--script", source.with_suffix(".script")]
    ran = run(*words, "--run", source, timeout=PATIENCE)
    assert (ran.returncode, ran.stdout) == (0, transcript_of(source)), output_of(ran)
    printed = run(*words, "--run", "--text", source, timeout=PATIENCE).stdout
    assert printed == contiki("--text", source, stdin=script_of(source)).stdout


def test_two_boards_by_the_command(build: Builder, tmp_path: Path) -> None:
    """`--radio` joins two boards as docs/firmware.md says."""
    page, running = (ROOT / "docs/firmware.md").read_text(encoding="utf-8"), []
    for name, number, radio in ("receiver", "2", "unix:FILE,server=on,wait=off"), ("sender", "1", "unix:FILE"):
        assert f"`{radio}`" in page
        words = ["--run", "--node", number, "--radio", radio.replace("FILE", str(tmp_path / "radio"))]
        running.append(subprocess.Popen([str(ROOT / "contiki"), "--library", str(build.library), "--board", LARGE, *words,
                                         str(CONTIKI / f"networks/{name}.c")], stdin=subprocess.PIPE, stdout=subprocess.PIPE))
        end = time.monotonic() + PATIENCE
        while not (tmp_path / "radio").exists():
            assert time.monotonic() < end
            time.sleep(0.1)
    first, second = running
    try:
        assert second.stdin is not None and first.stdout is not None
        second.stdin.write(b"a line\n")
        second.stdin.flush()
        assert select.select([first.stdout], [], [], PATIENCE)[0] and first.stdout.readline() == b"1: a line\n"
    finally:
        # The emulator ends with the command.
        for it in running:
            it.terminate()
            it.communicate(timeout=PATIENCE)


class Terminal:
    """A command at a terminal."""

    def __init__(self, *words: Word) -> None:
        self.child, self.file = pty.fork()
        if self.child == 0:
            os.execv(str(words[0]), [str(word) for word in words])
        self.seen = b""

    def until(self, text: bytes) -> None:
        end = time.monotonic() + PATIENCE
        while text not in self.seen:
            assert time.monotonic() < end, self.seen
            if select.select([self.file], [], [], 1)[0]:
                self.seen += os.read(self.file, 4096)

    def ends(self) -> bool:
        """Whether it ends, of itself."""
        end = time.monotonic() + PATIENCE
        while time.monotonic() < end:
            if os.waitpid(self.child, os.WNOHANG)[0] != 0:
                os.close(self.file)
                return True
            time.sleep(0.1)
        os.kill(self.child, signal.SIGKILL)
        return False


def test_run_at_a_terminal(contiki: Contiki, build: Builder, tmp_path: Path) -> None:
    """What is typed is seen, the key Enter ends a line, and Ctrl-C ends the run; the record replays."""
    source, record = CONTIKI / "shell.c", tmp_path / "shell.record"
    terminal = Terminal(ROOT / "contiki", "--library", build.library, "--board", LARGE, source, "--run", "--record", record)
    end = time.monotonic() + PATIENCE
    while not record.exists() or b"# check " not in record.read_bytes():
        assert time.monotonic() < end
        time.sleep(0.1)
    os.write(terminal.file, b"help\r")
    terminal.until(b"help\r\nhelp, echo TEXT, count N\r\n")
    os.write(terminal.file, b"\x03")
    assert terminal.ends()
    ran = contiki("--replay", record, "--text", source)
    assert (ran.returncode, ran.stdout) == (0, b"help, echo TEXT, count N\n"), output_of(ran)


@pytest.mark.parametrize("words,told_as", [
    (["--board", "arduino", "-o", "image"], "there is no board arduino: lm3s6965 mps2-an385 netduinoplus2 or a file of your own "
     "(docs/firmware.md)"),
    (["--board", LARGE], "--board needs -o IMAGE, or --run"),
    (["--board", LARGE, "-o", "image", "--sanitize"], "--board builds an image: leave out --network, --sanitize, --replay, --test, "
     "--picture, --gdb, --build and --cc"),
    (["--board", LARGE, "-o", "image", "--record", "file"], "--record FILE and --radio are for --run: the image writes its record to "
     "the third port"),
    (["--board", LARGE, "--run", "--record", "file", "--no-record"], "--record FILE is the image's record: leave out --no-record"),
    (["--run"], "-o, --run, --script, --radio, --no-record and --stop-at-fault are for --board"),
    (["--board", LARGE, "-o", "image", "--heap", "x"], "--heap needs a number"),
    (["--board", LARGE, "-o", "image", "--heap", "3"], "--heap needs a multiple of 4 from 20 to 65536"),
    (["--board", LARGE, "-o", "image", "--heap", "16"], "--heap needs a multiple of 4 from 20 to 65536"),
    (["--board", LARGE, "-o", "image", "--mmem", "65540"], "--mmem needs a multiple of 4 from 4 to 65536"),
    (["--board", LARGE, "-o", "image", "--quota=0"], "--quota needs a multiple of 4 from 4 to 65536"),
    (["--board", LARGE, "-o", "image", "--header", "12"], "--header needs 16 or 8"),
    (["--board", LARGE, "-o", "image", "--quiet"], "a board writes its whole transcript: leave out --quiet"),
    (["--board", LARGE, "-o", "image", "--node", "70000"], "a mote's number is at most 65535"),
    (["--board", LARGE, "-o", "image", "--node", f"{2**64 + 1}"], "a mote's number is at most 65535"),
    (["--board", LARGE, "-o", "image", "--node", "00"], "a mote's number is at least 1"),
    (["--board", LARGE, "-o", "image", "--node", "x"], "--node needs a number"),
])
def test_refused(contiki: Contiki, tmp_path: Path, words: list[str], told_as: str) -> None:
    (tmp_path / "cortex-m3").mkdir()
    (tmp_path / "cortex-m3/libtoarmuts.a").touch()
    for name in "toarmuts.h", "toarmuts_memory.c":
        (tmp_path / name).write_bytes((contiki.library / name).read_bytes())
    ran = run(ROOT / "contiki", "--library", tmp_path, *words, CONTIKI / "blinker.c", cwd=tmp_path)
    assert (ran.returncode, messages(ran.stderr)) == (64, [told_as]), output_of(ran)


@pytest.mark.parametrize("lacks,words,told_as", [
    ("arm-none-eabi-gcc", [], "arm-none-eabi-gcc is missing: apt-get install gcc-arm-none-eabi libnewlib-arm-none-eabi"),
    ("qemu-system-arm", ["--run"], "qemu-system-arm is missing: apt-get install qemu-system-arm"),
])
def test_missing_tool(tmp_path: Path, lacks: str, words: list[str], told_as: str) -> None:
    """What is missing is named with the command that gets it."""
    tools = tmp_path / "bin"
    tools.mkdir()
    for folder in "/bin", "/usr/bin":
        for it in Path(folder).iterdir():
            if it.name != lacks and not (tools / it.name).exists():
                (tools / it.name).symlink_to(it)
    ran = run(ROOT / "contiki", "--board", LARGE, "-o", "image", *words, CONTIKI / "blinker.c", settings={"PATH": str(tools)}, cwd=tmp_path)
    assert (ran.returncode, messages(ran.stderr)) == (69, [told_as]), output_of(ran)
