"""Programs in C that go beyond a limit, misuse memory or are interrupted: the message names the process and the line."""

import re
import signal
import subprocess
from pathlib import Path
from typing import Any

import pytest

from contiki_programs import SOURCES, Contiki, outcome, place, program_of, write_source
from tools import ROOT, cases, needs, output_of, run, table

SCRIPT = b"tick 1\nserial 0a\n"


def only(stimulus: str, line: int, calls: int, what: str) -> str:
    """The message where the process of a short program is stopped."""
    return place("4 (Only)", stimulus, line, calls) + what + "\n"


# Programs of tests/c/contiki/faults that are no matter for the sanitizers.
PLAIN = ("null_pointer", "recursion", "stack_etimer", "stack_ctimer", "stack_mmem")


def test_each_fault_is_tried() -> None:
    assert sorted(row[0] for row in table("contiki_faults")) == sorted(path.stem for path in (SOURCES / "faults").glob("*.c"))


# A program of tests/c/contiki/faults, its status, what of the sanitizer's report stands first, as a pattern, where it is stopped, and why.
@pytest.mark.parametrize(("name", "status", "report", "at", "why"), cases("contiki_faults", takes_name=True))
def test_fault(contiki: Contiki, name: str, status: int, report: str, at: list[Any], why: str) -> None:
    """A program that is stopped says why, and its transcript up to there is written."""
    what = (place(*at) if at else "") + why
    ran = run(contiki.build(SOURCES / f"faults/{name}.c", "gcc", *([] if name in PLAIN else ["--sanitize"])), stdin=SCRIPT)
    assert ran.returncode == status and re.search(f"{report}(?s:.*){re.escape(what)}", ran.stderr.decode()), output_of(ran)
    assert report or ran.stderr.decode().startswith(what), output_of(ran)
    assert (b"division by zero" if name == "undefined" else b"") in ran.stderr, output_of(ran)
    stopped = re.search(rb"at line (\d+) of the transcript, after (\d+) calls", ran.stderr)
    lines = int(stopped[1]) - 1 + int(stopped[2]) if stopped else 10_001
    assert ran.stdout.count(b"\n") == lines and ran.stdout.endswith(b"\n" * (lines > 0))


@pytest.mark.parametrize("asks", ["heapmem_alloc(4096)", "mmem_alloc(&large, 4097)"])
def test_late_block(contiki: Contiki, asks: str) -> None:
    """Figures that depend on a block that is freed later aren't returned."""
    ran = contiki(f"-DASKS={asks}", SOURCES / "faults/late_block.c", stdin=b"tick 1\n")
    assert ran.returncode == 1 and b"after 1 calls: a block was freed during an activation of its owner" in ran.stderr, output_of(ran)


# A statement at which a program is stopped or crashes, or loses something, its status, where that is, and what is told. What it printed
# with no line end is kept, as the last call.
@pytest.mark.parametrize(("statement", "status", "stimulus", "line", "calls", "what"), cases("contiki_stopped", takes_name=True))
def test_statement(contiki: Contiki, tmp_path: Path, statement: str, status: int, stimulus: str, line: int, calls: int, what: str) -> None:
    source = write_source(tmp_path, program_of(f'printf("begun"); {statement} printf("never");', "#include <signal.h>"))
    assert outcome(contiki("--text", source, stdin=b"tick 1\n")) == (status, "begun", only(stimulus, line, calls, what))


def test_print_before_a_crash(contiki: Contiki, tmp_path: Path) -> None:
    """What was printed without a line end is the last call of the transcript."""
    source = write_source(tmp_path, program_of('printf("line\\n"); printf("half a line"); abort();'))
    transcript = "4 synch 129 - -> print 6c696e650a\n4 answer done -> print 68616c662061206c696e65\n"
    assert outcome(contiki(source)) == (134, transcript, only("INIT (129)", 1, 2, "the program was aborted (SIGABRT)"))


def test_print_before_a_report(contiki: Contiki, tmp_path: Path) -> None:
    """The same where the sanitizers end the program."""
    source = write_source(tmp_path, program_of('char *block = heapmem_alloc(4); printf("half a line"); block[4] = 1;'))
    ran = contiki("--sanitize", "--text", source)
    assert (ran.returncode, ran.stdout, b"heap-buffer-overflow" in ran.stderr) == (1, b"half a line", True), output_of(ran)


ANOTHER = 'PROCESS(p{0}, "P");\nPROCESS_THREAD(p{0}, ev, data)\n{{PROCESS_BEGIN();PROCESS_END();}}\n'


@pytest.mark.parametrize(("text", "reason"), [
    (program_of("").replace("AUTOSTART_PROCESSES(&only);", ""), "no AUTOSTART_PROCESSES, so no process is started"),
    (program_of("") + "".join(ANOTHER.format(number) for number in range(16)), "more than 16 processes"),
], ids=["none", "seventeen"])
def test_number_of_processes(contiki: Contiki, tmp_path: Path, text: str, reason: str) -> None:
    assert outcome(contiki(write_source(tmp_path, text), stdin=b"tick 1\n")) == (64, "", f"contiki: {reason}\n")


def test_process_without_a_name(contiki: Contiki, tmp_path: Path) -> None:
    source, program = write_source(tmp_path, program_of("while(1) { clock_time(); }").replace('"Only"', "NULL")), tmp_path / "nameless"
    contiki("--build", program, source)
    assert run(program, "--names").stdout == b"\n"
    ran = run(program)
    assert ran.returncode == 3 and ran.stderr.endswith(b"; the last turn was that of process 4 ()\n"), output_of(ran)


SPINS = SOURCES / "spins.c"
SPINNING = b"4 synch 129 - -> wait\n> tick 1\n> serial 0a\n4 event 138 x -> print 7370696e730a\n"


def start_spinning(tmp_path: Path, *words: object) -> subprocess.Popen[bytes]:
    """Starts what runs a program that ends by itself never, and waits until it is so far."""
    script = tmp_path / "script"
    script.write_bytes(SCRIPT)
    # Where this was started in the background, interrupts are passed over.
    command = ["env", "--default-signal=INT,TERM,HUP", *map(str, words)]
    with script.open("rb") as opened:
        ran = subprocess.Popen(command, stdin=opened, stdout=subprocess.PIPE, stderr=subprocess.PIPE)
    assert ran.stderr is not None
    ran.stderr.readline()
    return ran


@pytest.mark.parametrize("words", [[], ["--sanitize"]], ids=["plain", "sanitized"])
@pytest.mark.parametrize(("number", "how"), [(signal.SIGINT, "interrupted (SIGINT)"), (signal.SIGTERM, "ended (SIGTERM)"),
                                             (signal.SIGHUP, "ended (SIGHUP)")], ids=["INT", "TERM", "HUP"])
def test_signal(contiki: Contiki, tmp_path: Path, words: list[str], number: signal.Signals, how: str) -> None:
    ran = start_spinning(tmp_path, contiki.build(SPINS, "gcc", *words))
    ran.send_signal(number)
    out, told_of = ran.communicate(timeout=60)
    assert (ran.returncode, out, told_of.decode()) == (-number, SPINNING, place("4 (Spinner)", "LINE (138)", 4, 1) + how + "\n")


@needs("setpriv")
def test_command_that_is_killed(contiki: Contiki, tmp_path: Path) -> None:
    """Whoever ends the command ends the program."""
    ran = start_spinning(tmp_path, ROOT / "contiki", "--library", contiki.library, SPINS)
    ran.kill()
    assert ran.communicate(timeout=60)[0] == SPINNING
