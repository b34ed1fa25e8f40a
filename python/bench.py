"""What the package costs: the figures of docs/python.md. Each is the best of many, so that other work on the machine counts little.

    environment/bin/python python/bench.py
"""
from __future__ import annotations

import pathlib
import subprocess
import sys
import tempfile
import time
from typing import Any, Callable

from hypothesis import HealthCheck, given, settings

import toarmuts
from toarmuts import (Mote, Network, Options, Print, Script, TimerReset, TimerSet, TimerStop, Transcript, Turn, Turns, Wait, run_network,
                      strategies)
from toarmuts.coverage import Coverage
from toarmuts.library import library

TARGET = pathlib.Path(__file__).resolve().parent.parent / "examples/python/target.py"


def best(work: Callable[[], Any], tries: int = 500) -> float:
    """The shortest time, in microseconds."""
    shortest = float("inf")
    for _ in range(tries):
        began = time.perf_counter()
        work()
        shortest = min(shortest, time.perf_counter() - began)
    return shortest * 1e6


def tell(what: str, microseconds: float, count: int = 0, unit: str = "") -> None:
    """A line of the table."""
    rate = f", {count / microseconds * 1e6:,.0f} {unit} a second" if count else ""
    print(f"| {what} | {microseconds:,.0f} us{rate} |", flush=True)


def bench_runs() -> None:
    """Whole runs, and their entries."""
    script = Script()
    for _ in range(40):
        script = script.tick(10).serial_text("abc").frame(b"hello")
    names, data = ["blink", "echo", "relay"], str(script).encode()
    run = toarmuts.run(names, data)
    lines, count = "".join(f"{name}\n" for name in names).encode(), len(run.transcript)
    usual = Options().configuration()

    def read() -> None:
        for entry in Transcript(run.transcript.data):
            if isinstance(entry, Turn):
                _ = entry.process, entry.clock, entry.stimulus, entry.call

    tell("`run([\"hello\"])`, 2 lines", best(lambda: toarmuts.run(["hello"])))
    calls = ["timer-set 0 5", "wait", "print 6869"]
    tell("`run` of a list of 3 calls and 1 input, 5 lines", best(lambda: toarmuts.run([calls], b"tick 5\n")))
    tell(f"3 applications, 120 inputs, {count} lines: the library's call", best(lambda: library().run(usual, lines, data)), count, "lines")
    tell("the same by `run`", best(lambda: toarmuts.run(names, data)), count, "lines")
    tell("its entries made", best(lambda: list(Transcript(run.transcript.data))), count, "entries")
    tell("its entries made, and of each turn process, clock, stimulus and call read", best(read), count, "entries")
    tell("its coverage", best(lambda: Coverage().add(Transcript(run.transcript.data)), 100))


STOPS = [TimerStop(0)] * 99 + [Wait()]


def stops() -> Turns:
    """Makes 100 calls at each line that comes in, and does nothing else."""
    yield Wait()
    while True:
        for call in STOPS:
            yield call


def beat() -> Turns:
    """Prints a word every ten ticks."""
    yield TimerSet(0, 10)
    while True:
        yield Wait()
        yield Print(b"on\n")
        yield TimerReset(0)


def bench_motes() -> None:
    """A mote in hand, with applications in Python. Times are short, since others leave a processor alone for no longer."""
    mote = Mote([stops])
    tell("a call of an application in Python", best(lambda: mote.serial_text("a"), 5000) / 100)
    mote = Mote([beat])
    tell("`mote.tick(10)`, 4 entries", best(lambda: mote.tick(10), 5000))


def bench_networks() -> None:
    """Frames that go round a ring of 100 motes, with applications that run in Python."""
    network = Network(["relay"] * 100)
    for number in range(100):
        network.link(number + 1, (number + 1) % 100 + 1)
    network.frame(1, b"a")
    tell("a frame handed over from relay to relay, 10 lines", best(lambda: network.tick(100), 50) / 100)


MANY = 1_000_000


def seconds(what: str, work: Callable[[], Any]) -> None:
    """A line of the table, by the processor's time of one try."""
    began = time.process_time()
    work()
    print(f"| {what} | {time.process_time() - began:.2f} s |", flush=True)


def bench_many() -> None:
    """A million inputs: in a script, and one by one."""
    script = "tick 1\n" * MANY
    mote, network = Mote(["hello"]), Network(["hello"])
    seconds(f"`run(['hello'])`, {MANY:,} inputs", lambda: toarmuts.run(["hello"], script))
    seconds(f"`run_network`, {MANY:,} inputs", lambda: run_network(network, script))
    seconds(f"`mote.tick()`, {MANY:,} times", lambda: [mote.tick() for _ in range(MANY)])
    seconds(f"`network.tick()`, {MANY:,} times", lambda: [network.tick() for _ in range(MANY)])
    relays = Network(["relay", "relay"]).link(1, 2).link(2, 1)
    relays.frame(1, b"a")
    seconds("`until` with `len(network.sent())`, 10,000 frames", lambda: relays.until(lambda it: len(it.sent()) == 10_001))
    seconds(f"a `Run` of it, `mote.so_far()`, after {MANY:,} inputs", mote.so_far)
    seconds(f"`network.so_far()`, after {MANY:,} inputs", network.so_far)
    tell(f"`printed()`, `sent()` and `clock` of a mote after {MANY:,} inputs", best(lambda: (mote.printed(), mote.sent(), mote.clock)))
    tell(f"`mote.tick()` after {MANY:,} inputs", best(mote.tick))
    tell(f"`network.tick()` after {MANY:,} inputs", best(network.tick))


def bench_search(examples: int = 300) -> None:
    """Hypothesis: scripts drawn and run."""
    began = time.process_time()

    @settings(max_examples=examples, database=None, deadline=None, suppress_health_check=list(HealthCheck))
    @given(script=strategies.scripts())
    def searched(script: Script) -> None:
        toarmuts.run(["blink", "echo", "relay"], script)

    searched()
    tell("a script drawn by Hypothesis and run (processor time)", (time.process_time() - began) / examples * 1e6, 1, "examples")


def bench_campaigns() -> None:
    """Runs a second, by processes and by Dask."""
    for name, seeds, words in (("Lists", 64, ["1"]), ("Lists", 64, ["2"]), ("Lists", 64, ["4"]), ("Lists", 64, ["4", "--dask", "local"]),
                               ("Supervised", 64, ["1"]), ("Supervised", 64, ["4"])):
        with tempfile.TemporaryDirectory() as folder:
            command = [sys.executable, "-m", "toarmuts.campaign", f"{TARGET}:{name}", "--seeds", f"0:{seeds}", "--found", folder]
            command += ["--jobs", *words]
            line = subprocess.run(command, capture_output=True, text=True, check=False).stderr.strip().splitlines()[-1]
        print(f"| campaign `{name}`, {seeds * 100:,} runs, --jobs {' '.join(words)} | {line} |", flush=True)


if __name__ == "__main__":
    bench_runs()
    bench_motes()
    bench_networks()
    bench_many()
    bench_search()
    bench_campaigns()
