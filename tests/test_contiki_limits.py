"""Programs in C at the limits of buffers, numbers and tables, and what is left of a mote that was halted.

The expected texts are written out from docs/contiki.md, docs/network.md and Contiki-NG's documented interface.
"""

import os
import re
import signal
import subprocess
import time
from pathlib import Path

import pytest

import test_contiki_network
from contiki_programs import Contiki, outcome, place, program_of, write_source
from test_contiki_network import HELLO, TWO_MOTES, Runner, write_network
from tools import ROOT, output_of, run, with_sanitizers

runner = test_contiki_network.runner
PART = 65536
ECHO = program_of('while(1) { PROCESS_WAIT_EVENT_UNTIL(ev == serial_line_event_message); printf("%s\\n", (char *)data); }')


def build(contiki: Contiki, folder: Path, text: str) -> Path:
    """Builds a program of one source."""
    assert outcome(contiki("--build", folder / "built", write_source(folder, text))) == (0, "", "")
    return folder / "built"


# ---- Scripts and transcripts ----

def comments(length: int) -> bytes:
    """Lines of comments, of this many bytes."""
    whole, rest = divmod(length, 1025)
    return (b"#" * 1024 + b"\n") * whole + (b"#" * (rest - 1) + b"\n" if rest > 0 else b"")


def test_line_over_two_reads(contiki: Contiki, tmp_path: Path) -> None:
    """A script is read in parts of 65,536 bytes. A line is whole wherever in it a part ends, also right before it and after it."""
    script, texts = b"", []
    for part in range(17):
        text = f"line{part:02}"
        line = b"serial " + text.encode().hex().encode() + b"0a\n"
        script += comments((part + 1) * PART - len(script) - len(line) * part // 16) + line
        texts.append(text)
    (tmp_path / "script").write_bytes(script)
    ran = run(build(contiki, tmp_path, ECHO), "--text", stdin=tmp_path / "script")
    assert outcome(ran) == (0, "\n".join(texts) + "\n", "")


@with_sanitizers
def test_full_buffer_of_the_transcript(contiki: Contiki, tmp_path: Path) -> None:
    """The transcript has a buffer of 65,536 bytes: prints of 64 bytes fill it, then they lack one byte in it. No byte is beside it."""
    source = write_source(tmp_path, program_of(
        'for(i = 0; i < 1025; i++) { printf("%063d\\n", i); } printf("\\n"); for(; i < 2100; i++) { printf("%063d\\n", i); }',
        "static int i;"))
    wanted = "".join(f"{i:063}\n" + ("\n" if i == 1024 else "") for i in range(2100))
    assert outcome(contiki("--sanitize", "--text", source)) == (0, wanted, "")


# ---- Events and timers ----

def test_many_posted_pointers(contiki: Contiki, tmp_path: Path) -> None:
    """Each pointer has one number, from 65,536 on, for the whole run: also the first ones after the table grew twice, at 65 and 129."""
    source = write_source(tmp_path, program_of(
        'for(i = 0; i < 300; i++) { process_post(&only, 150, &things[i % 150]); PROCESS_WAIT_EVENT_UNTIL(ev == 150); '
        'if(data != &things[i % 150]) { printf("another pointer\\n"); } }', "static int i; static int things[150];"))
    ran = contiki(source)
    numbers = [int(number) for number in re.findall(r"-> post 4 150 (\d+)$", ran.stdout.decode(), re.M)]
    assert numbers == [*range(65536, 65686)] * 2 and b"print" not in ran.stdout, output_of(ran)


def test_restarted_timer(contiki: Contiki, tmp_path: Path) -> None:
    """A restart begins the interval again now: the driver's own answers say so, and the mote's timer runs out then."""
    built = build(contiki, tmp_path, program_of("""static struct etimer t;
  etimer_set(&t, 10);
  PROCESS_WAIT_EVENT();
  etimer_restart(&t);
  printf("%lu %d\\n", (unsigned long)etimer_next_expiration_time(), etimer_pending());
  while(1) {
    PROCESS_WAIT_EVENT();
    printf("%u at %lu: %d\\n", ev, (unsigned long)clock_time(), etimer_expired(&t));
  }"""))
    script = b"tick 3\nserial 610a\ntick 7\nserial 620a\ntick 2\ntick 1\n"
    assert re.findall(b"-> (timer-(?:set|restart).*)", run(built, stdin=script).stdout) == [b"timer-set 0 10", b"timer-restart 0"]
    assert outcome(run(built, "--text", stdin=script)) == (0, "13 1\n138 at 10: 0\n136 at 13: 1\n", "")


def test_reset_of_a_stopped_callback(contiki: Contiki, tmp_path: Path) -> None:
    """A callback timer that is stopped and then reset before its end calls back at that end, as in Contiki-NG; a second reset leaves it."""
    source = write_source(tmp_path, program_of("""static struct ctimer c;
  ctimer_set(&c, 10, called, NULL);
  PROCESS_WAIT_EVENT();
  ctimer_stop(&c);
  ctimer_reset(&c);
  printf("%d\\n", ctimer_expired(&c));
  ctimer_reset(&c);
  PROCESS_WAIT_EVENT();""", 'static void called(void *ptr) { printf("%lu\\n", (unsigned long)clock_time()); }'))
    ran = contiki(source, stdin=b"tick 3\nserial 610a\ntick 6\ntick 1\n")
    assert re.findall(r"-> (callback-.*)", ran.stdout.decode()) == ["callback-set 0 10", "callback-stop 0", "callback-set 0 7"]
    assert b"-> print 300a\n" in ran.stdout and ran.stdout.endswith(b"-> print 31300a\n4 answer done -> wait\n"), output_of(ran)


RESTARTED = """#include "contiki.h"
PROCESS(first, "First");
PROCESS(second, "Second");
AUTOSTART_PROCESSES(&first, &second);
static struct etimer own, other;
static int starts;
PROCESS_THREAD(first, ev, data)
{
  PROCESS_BEGIN();
  etimer_set(&own, starts++ == 0 ? 5 : 0);
  while(1) {
    PROCESS_WAIT_EVENT();
    etimer_expired(&own);
  }
  PROCESS_END();
}
PROCESS_THREAD(second, ev, data)
{
  PROCESS_BEGIN();
  etimer_set(&other, 5);
  PROCESS_WAIT_EVENT();
  etimer_expired(&own);
  process_exit(&first);
  process_start(&first, NULL);
  PROCESS_WAIT_EVENT();
  PROCESS_END();
}
"""


def test_event_from_before_a_start(contiki: Contiki, tmp_path: Path) -> None:
    """A timer's event that waits in the queue while its process is ended and started again isn't taken for that of the timer which that has
    set since: the mote is asked whether this one ran out. After its own event it isn't asked."""
    ran = contiki(write_source(tmp_path, RESTARTED), stdin=b"tick 5\n")
    calls = [line.split(" -> ")[1] for line in ran.stdout.decode().splitlines() if line.startswith("4 ")]
    start = calls.index("timer-set 0 0")
    assert calls[start:] == ["timer-set 0 0", "wait", "timer-expired 0", "wait", "wait"], output_of(ran)


ENDED = """#include "contiki.h"
PROCESS(first, "First");
PROCESS(second, "Second");
AUTOSTART_PROCESSES(&first, &second);
static struct etimer own[20], other;
static int starts, i;
PROCESS_THREAD(first, ev, data)
{
  PROCESS_BEGIN();
  etimer_set(&own[starts++], 5);
  while(1) {
    PROCESS_WAIT_EVENT();
  }
  PROCESS_END();
}
PROCESS_THREAD(second, ev, data)
{
  PROCESS_BEGIN();
  for(i = 0; i < 19; i++) {
    etimer_set(&other, 5);
    PROCESS_WAIT_EVENT_UNTIL(etimer_expired(&other));
    printf("%d", etimer_expired(&own[i]));
    process_exit(&first);
    etimer_set(&other, 1);
    PROCESS_WAIT_EVENT_UNTIL(etimer_expired(&other));
    process_start(&first, NULL);
  }
  printf("\\n%d starts\\n", starts);
  PROCESS_END();
}
"""


def test_events_of_ended_processes(contiki: Contiki, tmp_path: Path) -> None:
    """A timer's event that waits where its process ends reaches nobody: after a new start no slot of the mote is held for it."""
    ran = contiki("--text", write_source(tmp_path, ENDED), stdin=b"tick 1\n" * 120)
    assert outcome(ran) == (0, "1" * 19 + "\n20 starts\n", "")


STAYING = """#include "contiki.h"
PROCESS(only, "Only");
AUTOSTART_PROCESSES(&only);
static struct etimer own[20];
static struct ctimer again;
static int starts;
static void
start_again(void *ptr)
{
  process_start(ptr, NULL);
}
PROCESS_THREAD(only, ev, data)
{
  PROCESS_BEGIN();
  process_post(&only, 150, NULL);
  etimer_set(&own[starts++], 0);
  PROCESS_WAIT_EVENT_UNTIL(ev == 150);
  printf("%d", etimer_expired(&own[starts - 1]));
  if(starts < 20) {
    ctimer_set(&again, AFTER, start_again, &only);
  } else {
    printf("\\n");
  }
  PROCESS_END();
}
"""


@pytest.mark.parametrize("after", [0, 1], ids=["at once", "later"])
def test_events_of_a_process_that_stays(contiki: Contiki, tmp_path: Path, after: int) -> None:
    """The same where the last process has ended, and stays in the mote for a callback timer that starts it again."""
    ran = contiki("--text", f"-DAFTER={after}", write_source(tmp_path, STAYING), stdin=b"tick 1\n" * 30)
    assert outcome(ran) == (0, "1" * 20 + "\n", "")


@pytest.mark.parametrize("call", ["leds_on", "leds_toggle", "leds_set"])
def test_leds_that_are_not_there(contiki: Contiki, tmp_path: Path, call: str) -> None:
    statement = f'{call}((leds_mask_t)~0u); printf("%d\\n", leds_get() == LEDS_ALL);'
    source = write_source(tmp_path, program_of(statement, '#include "dev/leds.h"'))
    assert outcome(contiki("--text", source)) == (0, "1\n", "")


HEIR = """#include "contiki.h"
PROCESS(heir, "Heir");
PROCESS(owner, "Owner");
AUTOSTART_PROCESSES(&heir, &owner);
static struct ctimer timer;
static void called(void *ptr) { printf("called\\n"); }
PROCESS_THREAD(heir, ev, data)
{
  PROCESS_BEGIN();
  PROCESS_WAIT_EVENT_UNTIL(ev == PROCESS_EVENT_EXITED);
  printf("%d\\n", ctimer_expired(&timer));
  PROCESS_WAIT_EVENT();
  PROCESS_END();
}
PROCESS_THREAD(owner, ev, data)
{
  PROCESS_BEGIN();
  PROCESS_WAIT_EVENT_UNTIL(ev == serial_line_event_message);
  ctimer_set(&timer, 0, called, NULL);
  PROCESS_END();
}
"""


def test_callback_of_another_process(contiki: Contiki, tmp_path: Path) -> None:
    """A callback timer that is due, and that another process has since its own has ended, runs out in the next round, not before."""
    ran = contiki("--text", write_source(tmp_path, HEIR), stdin=b"serial 610a\n")
    assert outcome(ran) == (0, "0\ncalled\n", "")


CALLED = 'static int i; static struct ctimer timers[6]; static void called(void *text) { printf("%s\\n", (char *)text); }'


@pytest.mark.parametrize("others", [0, 3], ids=["in the mote", "waiting"])
def test_callbacks_of_one_end(contiki: Contiki, tmp_path: Path, others: int) -> None:
    """Of callback timers that end at once the one that was set last is first: in the mote, and where they wait for a slot of it."""
    source = write_source(tmp_path, program_of(f"""for(i = 0; i < {others}; i++) {{ ctimer_set(&timers[i], 100, called, NULL); }}
  ctimer_set(&timers[3], 5, called, "first");
  ctimer_set(&timers[4], 10, called, "second");
  ctimer_set(&timers[5], 10, called, "third");
  PROCESS_WAIT_EVENT();""", CALLED))
    assert outcome(contiki("--text", source, stdin=b"tick 5\ntick 5\n")) == (0, "first\nthird\nsecond\n", "")


def test_gap_of_the_shared_block(contiki: Contiki, tmp_path: Path) -> None:
    """Parts of a process's last block have 16 bytes between them. After three of 16 bytes the middle one is freed: 20 bytes don't
    fit there, 16 do."""
    source = write_source(tmp_path, program_of("""for(i = 0; i < 15; i++) { heapmem_alloc(4); }
  for(i = 0; i < 3; i++) { parts[i] = heapmem_alloc(16); }
  heapmem_free(parts[1]);
  heapmem_alloc(20);
  heapmem_alloc(16);""", "static int i; static void *parts[3];"))
    calls = re.findall(r"-> (heap-\w+ 15 \d+)$", contiki(source).stdout.decode(), re.M)
    assert calls == ["heap-alloc 15 16", "heap-realloc 15 48", "heap-realloc 15 80", "heap-realloc 15 116"]


def test_exit_by_a_callback_of_the_process_that_stays(contiki: Contiki, tmp_path: Path) -> None:
    """A process whose thread has ended isn't running, so process_exit does nothing: its later callback timers still call back."""
    source = write_source(tmp_path, program_of(
        "static struct ctimer a, b; ctimer_set(&a, 5, called, NULL); ctimer_set(&b, 10, called, NULL);",
        'static void called(void *ptr) { printf("%lu\\n", (unsigned long)clock_time()); process_exit(&only); }'))
    assert outcome(contiki("--text", source, stdin=b"tick 5\ntick 5\n")) == (0, "5\n10\n", "")


def test_zones_beside_blocks(contiki: Contiki, tmp_path: Path) -> None:
    """A zone is reserved of what the general zone has left. Of 4,096 bytes a block of 1,000 takes 1,016, so 3,080 are left."""
    source = write_source(tmp_path, '#include "lib/heapmem.h"\n' + program_of("""heapmem_alloc(1000);
  printf("%d ", heapmem_zone_register("larger", 3081) == HEAPMEM_ZONE_INVALID);
  printf("%d ", heapmem_zone_register("all", 3080));
  printf("%d\\n", heapmem_alloc(4) == NULL);"""))
    assert outcome(contiki("--text", source)) == (0, "1 1 1\n", "")


ADDRESSES = {
    "::": "::", "::1": "::1", "1::": "1::", "0:0:0:0:0:0:0:0": "::", "fe80::00Ab": "fe80::ab", "1:2:3:4:5:6:7:8": "1:2:3:4:5:6:7:8",
    # One zero alone is written, and of two runs the first one is left out.
    "1:0:3:4:5:6:7:8": "1:0:3:4:5:6:7:8", "1:0:3:0:0:6:0:0": "1:0:3::6:0:0", "1:2:3:4:5:6:0:0": "1:2:3:4:5:6::", "1:2:3:4:5:6:7::":
    "1:2:3:4:5:6:7:0", "::2:3:4:5:6:7:8": "0:2:3:4:5:6:7:8", "ffff:ffff:ffff:ffff:ffff:ffff:ffff:ffff":
    "ffff:ffff:ffff:ffff:ffff:ffff:ffff:ffff",
}
NO_ADDRESSES = ["", ":", "1", "1:2:3:4:5:6:7", "1:2:3:4:5:6:7:8:9", "1:2:3:4:5:6:7:8:", ":1:2:3:4:5:6:7:8", "1::2:", ":1::2", "1::2::3",
                "1:::2", ":::", "1:2:3:4::5:6:7:8", "::12345", "::00001", "::g", "::1 ", " ::1"]


def test_texts_of_addresses(contiki: Contiki, tmp_path: Path) -> None:
    """IPv6 addresses are read, and written with two zeros or more as ::; what is no address is refused, and a buffer is never overrun."""
    texts = ", ".join(f'"{text}"' for text in [*ADDRESSES, *NO_ADDRESSES])
    source = write_source(tmp_path, program_of("""for(i = 0; i < sizeof texts / sizeof texts[0]; i++) {
    uip_ipaddr_t address;
    if(!uiplib_ipaddrconv(texts[i], &address)) {
      printf("none\\n");
    } else {
      char text[4];
      int length = uiplib_ipaddr_snprint(text, sizeof text, &address);
      uiplib_ipaddr_print(&address);
      printf(" %d %s\\n", length, text);
    }
  }""", f'#include "net/ipv6/uiplib.h"\nstatic unsigned i; static const char *const texts[] = {{{texts}}};'))
    wanted = [f"{text} {len(text)} {text[:3]}" for text in ADDRESSES.values()] + ["none"] * len(NO_ADDRESSES)
    assert outcome(contiki("--text", "--sanitize", source)) == (0, "".join(f"{line}\n" for line in wanted), "")


SENSOR = """#include "lib/sensors.h"
static int value(int type) { return type; }
static int configure(int type, int to) { return type == to; }
SENSORS_SENSOR(level, "Level", value, configure, value);
SENSORS(&level);
static process_event_t first;"""


def test_sensor_that_changes_twice(contiki: Contiki, tmp_path: Path) -> None:
    """All changes have one event, which is allocated at the first of them."""
    source = write_source(tmp_path, program_of("""printf("%d\\n", sensors_event == PROCESS_EVENT_NONE);
  sensors_changed(&level);
  first = sensors_event;
  PROCESS_WAIT_EVENT_UNTIL(ev == first && data == &level);
  sensors_changed(&level);
  PROCESS_WAIT_EVENT_UNTIL(ev == first && data == &level);
  printf("%d\\n", sensors_event == first);""", SENSOR))
    assert outcome(contiki("--text", source)) == (0, "1\n1\n", "")


COMMANDS = """#include "services/shell/shell.h"
static PT_THREAD(greet(struct pt *pt, shell_output_func output, char *args))
{
  PT_BEGIN(pt);
  SHELL_OUTPUT(output, "hello %s\\n", args);
  PT_END(pt);
}
static const struct shell_command_t commands[] = {{"greet", greet, "greets"}, {NULL, NULL, NULL}};
static struct shell_command_set_t set = {NULL, commands};"""


def test_commands_that_are_registered_twice(contiki: Contiki, tmp_path: Path) -> None:
    """A set of the shell's commands is in the list once, and can be removed once."""
    source = write_source(tmp_path, program_of("""shell_command_set_register(&set);
  shell_command_set_register(&set);
  printf("%d %d\\n", shell_command_lookup("greet") == commands, shell_command_lookup("none") == NULL);
  printf("%d ", shell_command_set_deregister(&set));
  printf("%d %d\\n", shell_command_set_deregister(&set), shell_command_lookup("greet") == NULL);""", COMMANDS))
    assert outcome(contiki("--text", source)) == (0, "1 1\n0 1 1\n", "")


ENERGEST = """ENERGEST_ON(ENERGEST_TYPE_LISTEN);
  energest_type_set(ENERGEST_TYPE_TRANSMIT, (uint64_t)1000 * ENERGEST_SECOND / CLOCK_SECOND);
  PROCESS_WAIT_EVENT();
  ENERGEST_ON(ENERGEST_TYPE_LISTEN);
  ENERGEST_OFF(ENERGEST_TYPE_TRANSMIT);
  show();
  PROCESS_WAIT_EVENT();
  ENERGEST_OFF(ENERGEST_TYPE_LISTEN);
  ENERGEST_OFF(ENERGEST_TYPE_LISTEN);
  ENERGEST_ON(ENERGEST_TYPE_TRANSMIT);
  show();
  PROCESS_WAIT_EVENT();
  show();
  energest_init();
  show();
  PROCESS_WAIT_EVENT();
  show();"""


def test_energest(contiki: Contiki, tmp_path: Path) -> None:
    """Time counts while a part is on, once where it is turned on twice, and none after it is off. energest_init begins again."""
    show = ("#define TICKS(part) (unsigned long)(energest_type_time(ENERGEST_TYPE_##part) * CLOCK_SECOND / ENERGEST_SECOND)\nstatic void "
            'show(void) { energest_flush(); printf("%lu %lu %lu\\n", TICKS(CPU), TICKS(LISTEN), TICKS(TRANSMIT)); }')
    source = write_source(tmp_path, program_of(ENERGEST, f'#include "sys/energest.h"\n{show}'))
    script = b"".join(b"tick %d\nserial 610a\n" % ticks for ticks in (5, 7, 11, 13))
    ran = contiki("-DENERGEST_CONF_ON=1", "--text", source, stdin=script)
    # 1,000 was set for the sending part before it was first on. After energest_init only CPU is on.
    assert outcome(ran) == (0, "5 5 1000\n12 12 1000\n23 12 1011\n0 0 0\n13 0 0\n", "")


def test_counters(contiki: Contiki, tmp_path: Path) -> None:
    """A trickle timer counts at most 255 consistent messages. Each wait for a semaphore takes one."""
    source = write_source(tmp_path, program_of("""static struct trickle_timer tt; static struct pt_sem s; static int i;
  trickle_timer_config(&tt, 64, 2, 10);
  trickle_timer_set(&tt, called, NULL);
  for(i = 1; i <= 257; i++) {
    trickle_timer_consistency(&tt);
    if(i >= 254) {
      printf("%u ", tt.c);
    }
  }
  PT_SEM_INIT(&s, 6);
  while(PT_SEM_COUNT(&s) > 0) {
    PT_SEM_WAIT(process_pt, &s);
    printf("%u ", PT_SEM_COUNT(&s));
  }
  trickle_timer_stop(&tt);""", """#include "lib/trickle-timer.h"
#include "sys/pt-sem.h"
static void called(CC_UNUSED void *ptr, CC_UNUSED uint8_t suppressed) { }"""))
    assert outcome(contiki("--text", source)) == (0, "254 255 255 255 5 4 3 2 1 0 ", "")


def test_intervals_of_trickle_timers(contiki: Contiki, tmp_path: Path) -> None:
    """The first interval of a trickle timer is a random one. Each further one is twice as long, and at most the greatest (RFC 6206)."""
    source = write_source(tmp_path, program_of("""static struct etimer t; static int i;
  for(i = 0; i < 8; i++) {
    trickle_timer_config(&tt[i], 16, 3, 1);
    trickle_timer_set(&tt[i], called, (void *)(intptr_t)i);
  }
  etimer_set(&t, 600);
  PROCESS_WAIT_EVENT_UNTIL(etimer_expired(&t));
  for(i = 0; i < 8; i++) {
    trickle_timer_stop(&tt[i]);
  }""", """#include "lib/trickle-timer.h"
static struct trickle_timer tt[8];
static void called(void *ptr, CC_UNUSED uint8_t suppressed) { printf("%d %lu\\n", (int)(intptr_t)ptr, tt[(intptr_t)ptr].i_cur); }"""))
    status, text, error = outcome(contiki("--text", source, stdin=b"tick 1\n" * 600))
    lengths: dict[str, list[int]] = {}
    for line in text.splitlines():
        lengths.setdefault(line.split()[0], []).append(int(line.split()[1]))
    assert (status, error, len(lengths)) == (0, "", 8) and any(128 % first for first, *_ in lengths.values())
    for timer in lengths.values():
        assert len(timer) > 3 and 16 <= timer[0] <= 128 and timer[1:] == [min(2 * length, 128) for length in timer[:-1]]


# ---- Numbers in the files of a network ----

HUGE = 2 ** 64


@pytest.mark.parametrize("line", [f"room {HUGE + 5}", f"mote 3..{HUGE + 3} hello-world.c", "link 1 2 delay 1 lot 65537 seed 1"])
def test_number_beyond_its_range(runner: Runner, line: str) -> None:
    """A number that is too large is malformed, also one whose low bits are a good one."""
    ran = runner(f"{TWO_MOTES}{line}\n", [HELLO], "")
    assert (ran.returncode, ran.stdout) == (2, b"bad line 2\n"), output_of(ran)


def test_input_beyond_its_range(runner: Runner) -> None:
    for line in (f"tick {HUGE + 1}", f"{HUGE + 1} serial 61"):
        ran = runner(TWO_MOTES, [HELLO], f"{line}\n")
        assert ran.returncode == 2 and ran.stdout.endswith(b"\nbad line 1\n"), output_of(ran)


def test_largest_numbers(runner: Runner) -> None:
    """The greatest numbers of each kind set something up: the malformed line is the one after them."""
    setup = ("mote 1..65535 hello-world.c\nlink 65535 1 delay 4294967295 every 4294967295\nlink 1 2 delay 1 lot 65536 seed 4294967295\n"
             "room 4294967295\nrounds 4294967295\ngrid 1..4 width 4294967295 delay 1\n")
    ran = runner(f"{setup}walk\n", [HELLO], "")
    assert (ran.returncode, ran.stdout) == (2, b"bad line 7\n"), output_of(ran)


def test_certain_loss(contiki: Contiki, runner: Runner, tmp_path: Path) -> None:
    """`lot 65536` loses each frame, `lot 0` none."""
    runner.folder.joinpath("radio.c").write_text(RADIO, encoding="utf-8")
    setup = "mote 1..3 radio.c\nlink 1 2 delay 1 lot 65536 seed 1\nlink 1 3 delay 1 lot 0 seed 1\n"
    lines = runner.text(setup, [tmp_path / "radio.c"], "1 serial 610a\n1 serial 610a\ntick 1\n")
    assert lines == ["3 hears 1", "3 hears 1"]


def test_hexadecimal_digits(runner: Runner, tmp_path: Path) -> None:
    """Serial bytes of a network: digits and letters of both kinds, the first and the last of each."""
    (tmp_path / "echo.c").write_text(ECHO, encoding="utf-8")
    assert runner.text("mote 1 echo.c\n", [tmp_path / "echo.c"], "1 serial 4A4B4C4D4E4F4a4b4c4d4e4f30390A\n") == ["1 JKLMNOJKLMNO09"]


# ---- Shapes ----

RADIO = program_of("""nullnet_buf = bytes; nullnet_len = 1; nullnet_set_input_callback(hear);
  while(1) {
    PROCESS_WAIT_EVENT_UNTIL(ev == serial_line_event_message);
    NETSTACK_NETWORK.output(NULL);
  }""", """static uint8_t bytes[1];
static void
hear(CC_UNUSED const void *data, CC_UNUSED uint16_t length, const linkaddr_t *from, CC_UNUSED const linkaddr_t *to)
{
  printf("hears %u\\n", 256u * from->u8[6] + from->u8[7]);
}""")


def are_in_grid(a: int, b: int, width: int) -> bool:
    """Whether two motes, the later one first, are beside each other in a row or a column."""
    return width > 0 and (a - b == 1 and a // width == b // width or a - b == width)


def neighbours(shape: str, count: int, width: int) -> list[set[int]]:
    """Who is linked with each mote of a shape, counted from 0, by the words of docs/network.md."""
    pairs = {"line": [(a, a + 1) for a in range(count - 1)],
             "ring": [(a, (a + 1) % count) for a in range(count)],
             "mesh": [(a, b) for a in range(count) for b in range(a)],
             "grid": [(a, b) for a in range(count) for b in range(a) if are_in_grid(a, b, width)]}[shape]
    return [{b for pair in pairs for b in pair if a in pair and a != b} for a in range(count)]


def test_neighbours(runner: Runner, tmp_path: Path) -> None:
    """Each mote of each small shape sends: its neighbours hear it, once, and no other mote."""
    (tmp_path / "radio.c").write_text(RADIO, encoding="utf-8")
    shapes = [("grid", count, width) for count in range(1, 8) for width in range(1, 5)]
    shapes += [(shape, count, 0) for shape in ("line", "mesh", "ring") for count in range(3 if shape == "ring" else 1, 6)]
    setup, wanted, first = "", [], 1
    for shape, count, width in shapes:
        setup += f"{shape} {first}..{first + count - 1}{f' width {width}' if width else ''} delay 1\n"
        for mote, others in enumerate(neighbours(shape, count, width)):
            wanted += sorted(f"{first + other} hears {first + mote}" for other in others)
        first += count
    script = "".join(f"{mote} serial 610a\ntick 1\n" for mote in range(1, first))
    lines = runner.text(f"mote 1..{first - 1} radio.c\n{setup}", [tmp_path / "radio.c"], script)
    heard: dict[str, list[str]] = {}
    for line in lines:
        heard.setdefault(line.rpartition(" ")[2], []).append(line)
    assert [line for mote in range(1, first) for line in sorted(heard.get(str(mote), []))] == wanted


# ---- After a mote was halted ----

def test_print_after_a_halt_within_a_print(runner: Runner, tmp_path: Path) -> None:
    """A mote that is halted while it prints leaves the console as it was: what another one buffers is printed at its wait."""
    (tmp_path / "prints.c").write_text(program_of("""static char buffer[200];
  PROCESS_WAIT_EVENT();
  while(node_id == 2) {
    printf("x\\n");
  }
  setvbuf(stdout, buffer, _IOFBF, sizeof buffer);
  printf("begun");""", '#include "sys/node-id.h"'), encoding="utf-8")
    ran = runner("mote 1..2 prints.c\n", [tmp_path / "prints.c"], "2 serial 0a\n1 serial 0a\n")
    assert ran.returncode == 0 and ran.stdout.decode().splitlines()[-4:] == [
        "2 halt", "1 > serial 0a", "1 4 event 138 x -> print 626567756e", "1 4 answer done -> exit"], output_of(ran)


# Mote 1 sends twenty frames, each over a thousand links, and mote 2 never rests from the first tick on.
HALTING = program_of("""static struct etimer t;
  static int i;
  if(node_id == 1) {
    nullnet_buf = (uint8_t *)"x";
    nullnet_len = 1;
    for(i = 0; i < 20; i++) {
      NETSTACK_NETWORK.output(NULL);
    }
  } else {
    etimer_set(&t, 1);
    PROCESS_WAIT_EVENT();
    while(1) {
      clock_time();
    }
  }""", '#include "sys/node-id.h"')


def is_blocked(number: int) -> bool:
    """Whether a process sleeps, twenty times in a row."""
    for _ in range(20):
        if Path(f"/proc/{number}/stat").read_text(encoding="utf-8").rpartition(") ")[2][0] != "S":
            return False
        time.sleep(0.01)
    return True


def test_end_after_a_halt(contiki: Contiki, tmp_path: Path) -> None:
    """A run that is ended after a mote was halted names no process: none works. It waits for whoever reads the rest then."""
    (tmp_path / "halting.c").write_text(HALTING, encoding="utf-8")
    links = "".join(f"link 1 2 delay {delay}\n" for delay in range(2, 1002))
    network = write_network(tmp_path, f"mote 1..2 halting.c\n{links}room 20000\n")
    (tmp_path / "script").write_text("tick 2000\n", encoding="utf-8")
    words: list[str | Path] = [ROOT / "contiki", "--library", contiki.library, "--network", network, tmp_path / "halting.c"]
    with (tmp_path / "script").open("rb") as script, subprocess.Popen(words, stdin=script, stdout=subprocess.PIPE,
                                                                      stderr=subprocess.PIPE) as ran:
        assert ran.stdout is not None and ran.stderr is not None
        while ran.stdout.readline() not in (b"2 halt\n", b""):
            pass
        program = int(Path(f"/proc/{ran.pid}/task/{ran.pid}/children").read_text(encoding="utf-8"))
        while not is_blocked(program):
            pass
        os.kill(program, signal.SIGTERM)
        rest, said = ran.stdout.read(), ran.stderr.read()
    assert (ran.returncode, said.decode()) == (128 + signal.SIGTERM, (
        "contiki: mote 2 halted: one input may cause at most 10,000 turns and rounds; the last turn was that of process 4 (Only)\n"))
    assert len(rest) > PART


# ---- What ends a run, or warns ----

# The driver asks for an alarm in ten seconds. This program has that come a hundred times as early.
SOON = """#include <sys/syscall.h>
#include <unistd.h>
int setitimer(int which, const void *wanted, void *before); int setitimer(int which, const void *wanted, void *before) {
long soon[4] = {0, 0, ((const long *)wanted)[2] / 100, ((const long *)wanted)[2] * 10000 % 1000000};
return (int)syscall(SYS_setitimer, which, soon, before); }"""


def test_no_call_for_long(contiki: Contiki, tmp_path: Path) -> None:
    """A process that makes no call between two alarms is reported once, with where it is, and continues."""
    source = write_source(tmp_path, program_of('printf("one\\n"); for(i = 0; i < 50; i++) { poll(NULL, 0, 20); } printf("two\\n");',
                                               f"{SOON}\n#include <poll.h>\nstatic volatile int i;"))
    ran = contiki("--text", source)
    assert outcome(ran) == (0, "one\ntwo\n", place("4 (Only)", "INIT (129)", 1, 1) + "no call for 10 seconds: perhaps an endless loop\n")


def test_calls_between_alarms(contiki: Contiki, tmp_path: Path) -> None:
    """A process that makes calls meanwhile is not reported."""
    source = write_source(tmp_path, program_of('for(i = 0; i < 50; i++) { poll(NULL, 0, 10); clock_time(); }',
                                               f"{SOON}\n#include <poll.h>\nstatic volatile int i;"))
    assert outcome(contiki("--text", source)) == (0, "", "")


def test_bus_error(contiki: Contiki, tmp_path: Path) -> None:
    """A page of a file beyond its end is an invalid address of another kind."""
    source = write_source(tmp_path, program_of('printf("%d\\n", ((volatile char *)mmap(NULL, 1, PROT_READ, MAP_SHARED, memfd(), 0))[0]);', (
        "#include <sys/mman.h>\n#include <stdio.h>\nstatic int memfd(void) { return fileno(tmpfile()); }")))
    ran = contiki("--text", source)
    assert outcome(ran) == (128 + signal.SIGBUS, "", place("4 (Only)", "INIT (129)", 1, 0) + "a crash: an invalid address (SIGBUS)\n")


def test_longest_script_of_a_network(runner: Runner, tmp_path: Path) -> None:
    """A script of 16,777,216 bytes is executed; with one more the run ends before the line that has it."""
    longest = "".join(["#" * 1023 + "\n"] * 16384)
    network = write_network(tmp_path, "mote 1 hello-world.c\n")
    for script, wanted in ((longest, (0, "")), (longest + "\n", (4, "too long\n"))):
        ran = runner.contiki("--network", network, "--quiet", HELLO, stdin=script.encode())
        assert outcome(ran) == (wanted[0], f"1 4 synch 129 - -> print 48656c6c6f2c20776f726c640a\n{wanted[1]}", "")
