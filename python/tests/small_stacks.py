"""What threads with small stacks get, for test_stack.py: a process of its own, since a thread may be given the stack of one that has ended.

    small_stacks.py sizes run|step|mote|network    for each size of a stack in KiB what is answered, the smallest size first
    small_stacks.py least run|step          the worked runs with as little as is taken
    small_stacks.py refusals                what is told
    small_stacks.py elsewhere               a mote that goes on in another thread
"""
import sys
import threading

from common import ROOT

import toarmuts
from toarmuts import ApplicationError, Event, EventCode, Mote, Network, OutOfMemory, Print, StackTooSmall, Wait, run_network
from toarmuts.scenario import read_file


def beats():
    yield Print(b"hi\n")


def waits():
    while True:
        yield Wait()


def in_thread(kibibytes, work):
    """What comes of work in a thread with so much stack; an exception that it raises is answered."""
    results = []

    def wrapped():
        try:
            results.append(work())
        except Exception as fault:
            results.append(fault)

    threading.stack_size(kibibytes * 1024)
    thread = threading.Thread(target=wrapped)
    thread.start()
    thread.join()
    return results[0]


WORKS = {"run": lambda: toarmuts.run(["hello"]).printed(), "step": lambda: toarmuts.run([beats]).printed(),
         "mote": lambda: Mote(["hello", beats]).booted.printed(4),
         "network": lambda: run_network(Network(["relay", "relay", beats]).line(), ["1 frame 61", "tick 9"]).printed()}


def sizes(what):
    """Tells what each size of a stack gets."""
    for size in range(32, 513, 16):
        result = in_thread(size, WORKS[what])
        print(size, "too small" if isinstance(result, StackTooSmall) else result)


def refusals():
    """Tells what to do; nothing was done."""
    rows = [(128, WORKS["run"], "has less than 240 KiB left, which a run may need: threading.stack_size(1 << 20), before a thread"),
            (64, WORKS["mote"], "has less than 168 KiB left, which a mote that goes step by step may need"),
            (64, lambda: Mote([], mmem=5), "less than 168 KiB"), (64, lambda: toarmuts.run([], mmem=5), "less than 240 KiB")]
    for size, work, words in rows:
        result = in_thread(size, work)
        assert isinstance(result, StackTooSmall) and isinstance(result, (OutOfMemory, MemoryError)) and words in str(result), (size, result)
    # There is room to open a mote's sizes by a step, and none for the run that tells what is wrong with them.
    result = in_thread(192, lambda: Mote([], mmem=5))
    assert isinstance(result, StackTooSmall) and "less than 240 KiB" in str(result), result


class Asked:
    """Fails at a line, and then prints; counts how often it is asked."""

    count = 0

    def turn(self, stimulus):
        if stimulus != Event(EventCode.SERIAL_LINE, b"on"):
            return Wait()
        self.count += 1
        if self.count == 1:
            raise KeyError
        return Print(b"%d" % self.count)


def goes_on_elsewhere():
    """A mote loses no input, and no call that an application has made. All threads ask for 64 KiB: one may get the stack of another."""
    mote = Mote([Asked])
    for work in (lambda: mote.tick(1), lambda: mote.feed("tick 1"), lambda: mote.run("tick 1")):
        assert isinstance(in_thread(64, work), StackTooSmall)
    assert mote.clock == 0 and len(mote.transcript) == 1
    try:
        mote.serial_text("on")
    except ApplicationError:
        pass
    assert isinstance(in_thread(64, mote.resume), StackTooSmall) and mote.application(4).count == 2
    assert mote.resume().printed() == b"2" and mote.application(4).count == 2
    assert mote.tick(1).inputs()[0].ticks == 1
    assert in_thread(64, mote.close) is None and mote.closed


def least(work):
    """The least size of a stack with which this is done."""
    return next(size for size in range(64, 513, 4) if not isinstance(in_thread(size, work), Exception))


def worked_runs(size, run):
    """Each comes out or is refused, with the least size and with larger ones; how many come out with the last."""
    count = 0
    for path in [*sorted((ROOT / "crates/scenario/data").glob("*.scenario")), *sorted((ROOT / "examples").glob("*.scenario"))]:
        for scenario in read_file(path):
            try:
                wanted = run(scenario).transcript.data
            except toarmuts.ToarmutsError:
                continue
            results = [in_thread(size + more, lambda: run(scenario).transcript.data) for more in range(0, 49, 8)]
            assert all(one == wanted or isinstance(one, StackTooSmall) for one in results), (scenario.name, results)
            count += results[-1] == wanted
    return count


def step_by_step(scenario):
    """A worked run beside an application in Python."""
    return toarmuts.run([*scenario.applications, waits], scenario.script, options=scenario.options)


if __name__ == "__main__":
    toarmuts.run(["hello", beats])
    toarmuts.run(["hello"])
    match sys.argv[1:]:
        case ["sizes", asked]:
            sizes(asked)
        case ["least", asked]:
            smallest = least(WORKS[asked])
            print(smallest, worked_runs(smallest, step_by_step if asked == "step" else lambda scenario: scenario.run()))
        case ["refusals"]:
            refusals()
        case ["elsewhere"]:
            goes_on_elsewhere()
