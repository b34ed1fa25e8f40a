"""What programs in C rarely do: calls outside of any process, blocks of a process that waits for another one, records that were written by
hand. The expected texts are written out from docs/contiki.md, docs/firmware.md and Contiki-NG's documented interface.
"""

import signal
from pathlib import Path

import pytest

from contiki_programs import Contiki, messages, outcome, place, program_of, write_source
from tools import output_of

TWO_PROCESSES = """#include "contiki.h"
#include "lib/heapmem.h"
#include <stdio.h>
PROCESS(first, "First");
PROCESS(second, "Second");
AUTOSTART_PROCESSES(&first, &second);
static void *block;
PROCESS_THREAD(first, ev, data)
{
  PROCESS_BEGIN();
  block = heapmem_alloc(10);
  PROCESS_PAUSE();
  process_post_synch(&second, 150, NULL);
  PROCESS_WAIT_EVENT();
  PROCESS_END();
}
PROCESS_THREAD(second, ev, data)
{
  PROCESS_BEGIN();
  PROCESS_WAIT_EVENT_UNTIL(ev == 150);
  block = heapmem_realloc(block, 20);
  PROCESS_END();
}
"""
RECORD = "# record 1 sources 0 second 128 mmem 4096 heap 4096 header 16 quota 0 node 0 long 8 pointer 8\n"


@pytest.mark.parametrize("call,what", [
    ("clock_time()", "a call of the mote is made outside of any process"),
    ("process_post(&only, 150, NULL)", "a call of the mote is made outside of any process"),
    ("heapmem_alloc(4)", "heap memory is allocated outside of any process"),
    ("mmem_alloc(&handle, 4)", "managed memory is allocated outside of any process")])
def test_call_outside_of_any_process(contiki: Contiki, tmp_path: Path, call: str, what: str) -> None:
    """A constructor of the program runs before the mote: it must not make a call."""
    headers = '#include "lib/heapmem.h"\n#include "lib/mmem.h"\nextern struct mmem handle;\nstruct mmem handle;\n'
    constructor = f"static __attribute__((constructor)) void early(void) {{ {call}; }}"
    source = write_source(tmp_path, headers + program_of('printf("not reached\\n");', constructor))
    ran = contiki(source)
    assert (ran.returncode, ran.stdout, messages(ran.stderr)) == (1, b"", [what]), output_of(ran)


def test_block_of_a_process_that_waits(contiki: Contiki, tmp_path: Path) -> None:
    """A block's owner must be able to make the call: one that waits for the receiver of its event can't."""
    ran = contiki(write_source(tmp_path, TWO_PROCESSES))
    wanted = place("5 (Second)", "event 150", 6, 1) + ("a timer or a block of First must change, and can't: the process isn't running, or "
                                                       "is in an activation\n")
    assert (ran.returncode, ran.stderr.decode()) == (1, wanted), output_of(ran)


def test_report_of_the_heap(contiki: Contiki, tmp_path: Path) -> None:
    """A block of NULL that is resized is a new one; the report has each chunk with its owner, where chunks are wanted. With headers of 16
    bytes, 4,096 bytes have 4,040 left beside 40 in use.
    """
    source = write_source(tmp_path, '#include "lib/heapmem.h"\n' + program_of(
        "heapmem_realloc(NULL, 40); heapmem_print_debug_info(false); heapmem_print_debug_info(true);"))
    total = "heap: 40 bytes allocated, 16 overhead, 4040 available, footprint 56, 1 chunks\n"
    assert outcome(contiki("--text", source)) == (0, f"{total}{total}chunk of Only: 40 bytes\n", "")


def test_illegal_instruction(contiki: Contiki, tmp_path: Path) -> None:
    ran = contiki(write_source(tmp_path, program_of("__builtin_trap();")))
    wanted = place("4 (Only)", "INIT (129)", 1, 0) + "a crash: an invalid instruction (SIGILL)\n"
    assert (ran.returncode, ran.stderr.decode()) == (128 + signal.SIGILL, wanted), output_of(ran)


def test_text_of_no_address(contiki: Contiki, tmp_path: Path) -> None:
    """As in Contiki-NG, NULL has a text of its own."""
    source = write_source(tmp_path, '#include "net/ipv6/uiplib.h"\n' + program_of(
        'static char text[40]; printf("%d", uiplib_ipaddr_snprint(text, sizeof text, NULL)); printf(" %s\\n", text);'))
    assert outcome(contiki("--text", source)) == (0, "14 (NULL IP addr)\n", "")


@pytest.mark.parametrize("length", [1, 16])
def test_padded_key(contiki: Contiki, tmp_path: Path, length: int) -> None:
    """A key that is shorter than 16 bytes has zeros after it."""
    source = write_source(tmp_path, '#include "lib/aes-128.h"\n#include <string.h>\n' + program_of(f"""
  static uint8_t short_key[{length}] = {{7}}, whole_key[16] = {{7}}, first[16] = {{1}}, second[16] = {{1}};
  aes_128_set_padded_key(short_key, sizeof short_key);
  AES_128.encrypt(first);
  AES_128.set_key(whole_key);
  AES_128.encrypt(second);
  printf("%d %d\\n", memcmp(first, second, 16), first[0] == 1 && first[1] == 0);"""))
    assert outcome(contiki("--text", source)) == (0, "0 0\n", "")


@pytest.mark.parametrize("lines,status,wanted", [
    ("tick 5\n# contiki: a message\n", 0, ["the record says: a message", "replayed 1 inputs and 0 values; 0 checks agree"]),
    ("tick 5\ntick x\n", 1, ["line 3 of the record is malformed"]),
    ("serial 6\n", 1, ["line 2 of the record is malformed"])])
def test_record_by_hand(contiki: Contiki, tmp_path: Path, lines: str, status: int, wanted: list[str]) -> None:
    """A message of the record is repeated; a malformed line ends the replay. The hash 0 is that of other sources."""
    (tmp_path / "record").write_text(RECORD + lines, encoding="ascii")
    ran = contiki("--replay", tmp_path / "record", write_source(tmp_path, program_of("PROCESS_WAIT_EVENT();")))
    other_sources = "the record is of other sources: this run may be another one"
    assert (ran.returncode, messages(ran.stderr)) == (status, [other_sources, *wanted]), output_of(ran)


@pytest.mark.parametrize("old,new", [
    ("second 128", "second x128"), ("heap 4096", "heap x4096"), ("node 0", "node x0"), ("pointer 8", "pointer x8"),
    ("second 128", f"second {2**32 + 128}"), ("heap 4096", f"heap {2**32 + 4096}"), ("mmem 4096", f"mmem {2**64 + 4096}"),
    ("node 0", "node 65536"), ("node 0", "node 65537")])
def test_head_of_a_record(contiki: Contiki, tmp_path: Path, old: str, new: str) -> None:
    """Each number of the first line must be one in its range: another one isn't taken for it."""
    (tmp_path / "record").write_text(RECORD.replace(old, new), encoding="ascii")
    ran = contiki("--replay", tmp_path / "record", write_source(tmp_path, program_of("PROCESS_WAIT_EVENT();")))
    wanted = "this is no record: it doesn't begin with `# record 1 sources ..`"
    assert (ran.returncode, messages(ran.stderr)) == (2, [wanted]), output_of(ran)
