"""The parts of a board that bytes and interrupts pass, compiled for this machine: rings, and the main loop's decision to sleep.

Board and mote are stand-ins in C. Errors that are planted in the sources are noticed.
"""

import shutil
from pathlib import Path

import pytest

from contiki_programs import STRICT
from tools import CRATES, ROOT, SANITIZERS, Completed, all_hold, needs, output_of, run, succeed, with_sanitizers

HERE = ROOT / "tests/c/firmware"
SOURCES = ROOT / "c/contiki/src"
HEADERS = (f"-I{ROOT}/c/contiki/include", f"-I{CRATES}/toarmuts/include")
# Each test, and the parts that it runs.
PARTS = {"rings": ["rings.c"], "loop": ["main.c", "clock.c", "rings.c", "slip.c"], "rings_threads": ["rings.c"],
         "frames": ["rings.c", "slip.c"]}
COMPILERS = [pytest.param("gcc"), pytest.param("clang", marks=needs("clang"))]


def run_test(compiler: str, name: str, room: Path, *options: str, sources: Path = SOURCES) -> Completed:
    """Compiles a test with the parts of these sources, and runs it. One that doesn't come to an end is stopped."""
    parts = [sources / "board" / it for it in PARTS[name]]
    succeed(compiler, *STRICT, "-g", *options, f"-I{sources}/board", *HEADERS, f"-I{ROOT}/tests/c", HERE / f"{name}.c", *parts, "-o",
            room / name)
    return run("timeout", "300", room / name)


@with_sanitizers
@pytest.mark.parametrize("name", ["rings", "loop", "frames"])
@pytest.mark.parametrize("compiler", COMPILERS)
def test_part(tmp_path: Path, compiler: str, name: str) -> None:
    """Rings keep each byte, at each position and size; nothing is slept over, wherever it comes; frames pass as they are."""
    all_hold(run_test(compiler, name, tmp_path, "-O1", "-DRANDOM_CALLS=100000", *SANITIZERS))


def thread_sanitizer(room: Path) -> tuple[str, ...]:
    """The options for it; where it's missing the test is skipped."""
    options = ("-O1", "-fsanitize=thread", "-pthread")
    if run("gcc", *options, "-x", "c", "-", "-o", room / "none", stdin=b"int main(void) { return 0; }\n").returncode != 0:
        pytest.skip("no gcc with the thread sanitizer here")
    return options


def test_two_threads(tmp_path: Path) -> None:
    """One writes and the other one reads: the sanitizer finds an access without an order, also where it does no harm on this processor."""
    all_hold(run_test("gcc", "rings_threads", tmp_path, *thread_sanitizer(tmp_path)))


# The test that must notice it, the file, and pairs of what is there and what is planted.
PLANTED = {
    "a ring is full one byte early": ("rings", "ring.h", [("ring_used(ring) == ring->room", "ring_used(ring) + 1 == ring->room")]),
    "a ring is full one byte late": ("rings", "ring.h", [("ring_used(ring) == ring->room", "ring_used(ring) == ring->room + 1")]),
    "a ring is empty one byte early": ("rings", "ring.h", [("ring_used(ring) == 0", "ring_used(ring) <= 1")]),
    "bytes are put one position further": ("rings", "ring.h", [("bytes[put % ring->room]", "bytes[(put + 1) % ring->room]")]),
    "bytes are taken one position further": ("rings", "ring.h", [("bytes[taken % ring->room]", "bytes[(taken + 1) % ring->room]")]),
    "the last position isn't used": ("rings", "ring.h", [("put % ring->room", "put % (ring->room - (ring->room > 1))"),
                                                         ("taken % ring->room", "taken % (ring->room - (ring->room > 1))")]),
    "an input has half of its room": ("rings", "rings.c", [("INPUT_ROOM = 512", "INPUT_ROOM = 256")]),
    "a long line waits for one byte more": ("rings", "rings.c", [(">= MANY", "> MANY")]),
    "a taken line end isn't counted": ("rings", "rings.c", [("inputs[port].ends_taken++", "(void)0")]),
    "a lost line end counts as one": ("rings", "rings.c", [("} else if(is_end)", "}\n  if(is_end)")]),
    "lost inputs aren't counted": ("rings", "rings.c", [("    count_up(&input->lost);\n    input->has_gap", "    input->has_gap")]),
    "what is lost after a gap isn't counted": ("rings", "rings.c", [("      count_up(&input->lost);\n      return;", "      return;")]),
    "a frame with a gap is passed": ("rings", "rings.c", [("    ring_put(&input->ring, SLIP_ESC);\n", "")]),
    "after a gap in a frame nothing is put any more": ("rings", "rings.c", [("    input->has_gap = false;\n", "")]),
    "the first frame of a radio that opens late is lost": ("rings", "rings.c", [("has_gap = byte != SLIP_END;", "has_gap = true;")]),
    "the end of a frame is taken for one": ("rings", "rings.c", [("has_gap = byte != SLIP_END;", "has_gap = false;")]),
    "what follows a gap is put": ("rings", "rings.c", [("byte != SLIP_END || ring_used", "ring_used")]),
    "lost outputs count as one": ("rings", "rings.c", [("lost += (uint32_t)length", "lost += 1")]),
    "an output refuses what fits": ("rings", "rings.c", [("while(output_left(port) < room)", "while(output_left(port) <= room)")]),
    "an output is put without room": ("rings", "rings.c", [("while(output_left(port) < room)", "while(output_left(port) + 1 < room)")]),
    "a port without room isn't waited for": ("rings", "rings.c", [("    if(!has_patience(port)) {", "    if(port < PORTS) {")]),
    "a port that takes nothing is waited for without end": ("rings", "rings.c", [
        ("run_script != NULL || output_is_awaited(port, true)", "run_script == NULL || output_is_awaited(port, true)")]),
    "a port is waited for anew for each message": ("rings", "rings.c", [
        ("      return;\n    }\n  }", "      break;\n    }\n  }")]),
    "a port has half of the time": ("rings", "rings.c", [("(uint64_t)PATIENCE * board_hz", "(uint64_t)PATIENCE * board_hz / 2")]),
    "a port that takes a byte again is given up": ("rings", "rings.c", [(" || taken != output->taken_then", "")]),
    "a port that was idle is given up": ("rings", "rings.c", [("!output->was_behind || ", "")]),
    "bytes that are given up aren't counted": ("rings", "rings.c", [("lost += (uint32_t)(length - i)", "lost += 0 * (length - i)")]),
    "bytes leave while interrupts are on": ("rings", "rings.c", [
        ("  restore_interrupts(before);", ""), ("  board_pump(port);", "  restore_interrupts(before);\n  board_pump(port);")]),
    "the question is before interrupts are off": ("loop", "clock.c", [
        ("  uint32_t before =", "  bool waits = is_waiting();\n  uint32_t before ="), ("!is_waiting()", "!waits")]),
    "interrupts are on before the sleep": ("loop", "clock.c", [
        ("    wait_for_interrupt();", "    restore_interrupts(before);\n    wait_for_interrupt();")]),
    "nobody asks before the sleep": ("loop", "clock.c", [("end > now && !is_waiting()", "end > now + 0 * is_waiting()")]),
    "a sleep has no end": ("loop", "clock.c", [("    board_wake_after(", "    (void)(")]),
    "a sleep is twice as long": ("loop", "clock.c", [("(uint32_t)(end - now)", "2 * (uint32_t)(end - now)")]),
    "a sleep is as long as the counter": ("loop", "clock.c", [("end - now > LONGEST_SLEEP ? LONGEST_SLEEP : (uint32_t)(end - now)",
                                                               "(uint32_t)(end - now) + 0 * LONGEST_SLEEP")]),
    "frames don't wake": ("loop", "rings.c", [("has_work(CONSOLE) || has_work(RADIO)", "has_work(CONSOLE)")]),
    "the main loop doesn't ask for frames": ("loop", "main.c", [("length = take_frame_bytes(bytes)", "length = 0")]),
    "time is passed over a timer's end": ("loop", "main.c", [("due > passed && due < now ? due : now", "due > now + 1 ? now : now")]),
    "no time is passed before an input": ("loop", "main.c", [("  pass_time(now);\n  pass_input(kind",
                                                              "  pass_time(0 * now);\n  pass_input(kind")]),
    "a tick is lost where an input is taken": ("loop", "main.c", [("  pass_time(now);\n  pass_input(kind",
                                                                  "  pass_time(now - 1);\n  pass_input(kind")]),
    "an interrupt calls the mote": ("loop", "rings.c", [
        ("  put_input(input, byte, byte == end_of[port]);",
         "  put_input(input, byte, byte == end_of[port]);\n  if(byte == end_of[port]) {\n    next_due();\n  }")]),
    "a check is skipped": ("loop", "main.c", [("  record_check();\n", "")]),
    "a check is before the rest": ("loop", "main.c", [("  run_to_rest();\n  record_check();\n", "  record_check();\n  run_to_rest();\n")]),
    "the mote has an input before the record": ("loop", "main.c", [
        ("  record_input(kind, ticks, bytes, length);\n  if(feed_input(kind, ticks, bytes, length) != 0) {",
         "  uint32_t status = feed_input(kind, ticks, bytes, length);\n  record_input(kind, ticks, bytes, length);\n  if(status != 0) {")]),
    "an escape isn't sent": ("frames", "slip.c", [("bytes[i] == END || bytes[i] == ESC;", "bytes[i] == END;")]),
    "an escape isn't taken": ("frames", "slip.c", [("byte = byte == ESC_END ? END : ESC;", "byte = byte == ESC_END ? END : byte;")]),
    "an escape of another byte is taken": ("frames", "slip.c", [("    is_bad |= byte != ESC_END && byte != ESC_ESC;\n", "")]),
    "an escape at a frame's end is ignored": ("frames", "slip.c", [("is_bad || is_escaped ? 0 : length", "is_bad ? 0 : length")]),
    "the longest frame is refused": ("frames", "slip.c", [("  if(length == MOST) {", "  if(length == MOST - 1) {")]),
    "a frame that is too long is taken": ("frames", "slip.c", [("  if(length == MOST) {", "  if(length == MOST + 1) {")]),
    "a sent frame lacks its last byte": ("frames", "slip.c", [("i < count && i < MOST", "i + 1 < count && i < MOST")]),
    "the longest frame is sent without its last byte": ("frames", "slip.c", [("i < count && i < MOST", "i < count && i + 1 < MOST")]),
    "a bad frame isn't counted": ("frames", "slip.c", [("  bad_count += is_bad || is_escaped;\n", "")]),
    "a count is shown before its byte": ("rings_threads", "ring.h", [("put + 1, memory_order_release", "put + 1, memory_order_relaxed")]),
    "room is given back before it's read": ("rings_threads", "ring.h", [("taken + 1, memory_order_release",
                                                                         "taken + 1, memory_order_relaxed")]),
}


@pytest.mark.parametrize("what", PLANTED)
def test_planted_error(tmp_path: Path, what: str) -> None:
    """Each of these errors is noticed."""
    name, file, edits = PLANTED[what]
    sources = Path(shutil.copytree(SOURCES, tmp_path / "src"))
    text = (sources / "board" / file).read_text(encoding="utf-8")
    for old, new in edits:
        assert text.count(old) == 1, old
        text = text.replace(old, new)
    (sources / "board" / file).write_text(text, encoding="utf-8")
    options = thread_sanitizer(tmp_path) if name == "rings_threads" else ("-O1", "-DRANDOM_CALLS=20000")
    ran = run_test("gcc", name, tmp_path, *options, sources=sources)
    assert ran.returncode != 0, output_of(ran)
