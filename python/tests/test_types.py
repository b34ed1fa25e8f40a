"""Programs that are written as docs/python.md says are well typed for mypy --strict, and slips of the hand are none."""
import shutil
import subprocess
import sys

import pytest

PROGRAM = '''
from toarmuts import (ApplicationLike, Call, Event, EventCode, Mote, MmemAlloc, Network, NetworkEntry, NetworkKind, NetworkRun, Print, Run,
                      Stimulus, Table, TimerSet, Turns, Wait, run, run_network)


def beat() -> Turns:
    reply = yield TimerSet(0, 10)
    while reply.ok:
        match (yield Wait()):
            case Event(code=EventCode.TIMER):
                yield Print(b"beat")


class Greeter:
    def turn(self, stimulus: Stimulus) -> Call:
        return Print(b"hi") if stimulus == Event(EventCode.INIT) else Wait()


codes: dict[EventCode, list[Call]] = {EventCode.INIT: [TimerSet(0, 5)], EventCode.TIMER: [Print(b".")]}
numbers: dict[int, list[Call]] = {140: [Wait()]}
both: dict[int | str, list[Call]] = {140: [Wait()], "callback": [Print(b".")]}
applications: list[ApplicationLike] = [beat, Greeter, Greeter(), "echo", [MmemAlloc(0, 4), "wait"], lambda: Table(codes)]
run([*applications, Table(numbers), Table(both), Table({EventCode.INIT: [TimerSet(0, 5)], "callback": [Print(b".")]})], "tick 5").check()
with Mote(applications) as mote:
    printed: bytes = mote.tick(5).printed(4)
    due: int | None = mote.due
    mote.until(lambda mote: mote.clock > 5, most=9)
with Network([applications, "relay", ["hello", "echo"]], mmem=64).add(beat, count=2).ring(delay=3, every=2) as network:
    lines: list[NetworkEntry] = [line for line in network.frame(2, b"a") if line.kind is NetworkKind.LOST]
    sent: list[bytes] = network.until(lambda network: network.lost()).mote(2).sent()
    network.mote(1).serial_text("on").printed(1)
svg: str = network.svg(first=0) + network.so_far().page("title")
of_all_kinds = Network([beat, Greeter, ["relay", beat], [[MmemAlloc(0, 5), Wait()], "echo", Greeter()], "relay"])
whole: NetworkRun = run_network(Network(["echo"]).disk([(0, 1.5)], range=2, delay=lambda distance: int(distance)), ["tick 5"], check=True)
part: Run = whole.mote(1)
'''
SLIPS = ['Table({1.5: [Wait()]})', 'Table({129: ["wait"]})', "run([5])", "Mote([], quiet=True)", 'mote.tick("5")',
         "Network([5])", 'network.link(1, 2, delay="3")', "network.frame('1', b'a')", "run_network([applications])"]


def errors_of(program, folder):
    """What mypy tells of a program, by the installed package, line by line."""
    place = folder / "program.py"
    place.write_text(program)
    done = subprocess.run(["mypy", "--strict", "--python-executable", sys.executable, "--cache-dir", str(folder / "cache"), str(place)],
                          capture_output=True, text=True, check=False)
    return [int(line.split(":")[1]) for line in done.stdout.splitlines() if ": error:" in line]


@pytest.mark.skipif(shutil.which("mypy") is None, reason="no mypy here")
def test_a_program_is_well_typed_and_its_slips_are_found(tmp_path):
    assert errors_of(PROGRAM, tmp_path) == []
    first = PROGRAM.count("\n") + 1
    assert errors_of(PROGRAM + "\n".join(SLIPS) + "\n", tmp_path) == list(range(first, first + len(SLIPS)))
