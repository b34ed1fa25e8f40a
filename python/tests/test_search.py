"""Searches find the faults of the applications in examples/python from each of five seeds, and nothing where these are repaired."""
import os
import re
import subprocess
import sys

import pytest
from common import ROOT
from hypothesis import given, seed, settings
from hypothesis import strategies as st
from hypothesis.stateful import run_state_machine_as_test

import toarmuts
from toarmuts import BadCall, BadInput, BadSizes, Call, Clock, Options, Print, Wait, WrongType, read_scenarios, strategies
from toarmuts.coverage import Coverage
from toarmuts.strategies import MoteMachine

sys.path.insert(0, str(ROOT / "examples/python"))
import forwarder  # noqa: E402  they are examples, and no package
import journal  # noqa: E402
import watchdog  # noqa: E402

SEEDS = range(5)


def search(number, check, examples=150, **drawn):
    """Looks for an example that fails, from a seed. The last one that Hypothesis tries is the smallest."""
    @seed(number)
    @settings(max_examples=examples)
    @given(**drawn)
    def searched(**words):
        check(**words)

    searched()


class Seeker:
    """Searches for a fault of an application, and keeps the last run in which it was found."""

    def __init__(self, application, fault_of, **drawn):
        self.application, self.fault_of, self.drawn = application, fault_of, drawn
        self.found = None

    def check(self, script, mmem=4096, supervisor=None):
        others = [] if supervisor is None else [supervisor]
        run = toarmuts.run([self.application, *others], script, mmem=mmem)
        if self.fault_of(run) is not None:
            self.found = run
        assert self.fault_of(run) is None

    def search(self, number):
        search(number, self.check, **self.drawn)


FRAMES = {"script": strategies.scripts(kinds=("tick", "frame"), max_size=6), "mmem": st.integers(8, 64).map(strategies.by_four)}
TICKS = {"script": strategies.scripts(kinds=("tick", "text"), max_ticks=12)}
SUPERVISED = {"script": strategies.scripts(kinds=("tick", "text"), max_size=4),
              "supervisor": strategies.call_lists(("kill", "start", "poll", "wait", "timer-set"), max_size=8)}
FAULTY = [(forwarder.forwarder, forwarder.repaired_forwarder, forwarder.fault_of, FRAMES),
          (watchdog.watchdog, watchdog.repaired_watchdog, watchdog.fault_of, TICKS),
          (journal.Journal, journal.RepairedJournal, journal.fault_of, SUPERVISED)]
IDS = ["forwarder", "watchdog", "journal"]


@pytest.mark.parametrize("number", SEEDS)
@pytest.mark.parametrize("faulty, repaired, fault_of, drawn", FAULTY, ids=IDS)
def test_the_fault_is_found_and_made_small(faulty, repaired, fault_of, drawn, number):
    seeker = Seeker(faulty, fault_of, **drawn)
    with pytest.raises(AssertionError):
        seeker.search(number)
    assert len(seeker.found.transcript.inputs()) <= 3
    again = read_scenarios(seeker.found.scenario())[0]
    assert again.carry_out().fault is None


@pytest.mark.parametrize("number", SEEDS)
@pytest.mark.parametrize("faulty, repaired, fault_of, drawn", FAULTY, ids=IDS)
def test_nothing_is_found_once_it_is_repaired(faulty, repaired, fault_of, drawn, number):
    Seeker(repaired, fault_of, **drawn).search(number)


class Forwards(MoteMachine):
    """The forwarder, with little memory: whatever comes in, it holds no frame at rest."""

    options = Options(mmem=64)
    scenarios: list = []

    def look(self, entries):
        assert forwarder.fault_of(self.mote.so_far()) is None


class Faulty(Forwards):
    applications = [forwarder.forwarder]
    on_failure = Forwards.scenarios.append


class Repaired(Forwards):
    applications = [forwarder.repaired_forwarder]


def machine_settings(count):
    """At most this number of runs of a machine, the same ones each time (same_each_time.py)."""
    return settings(max_examples=count, stateful_step_count=10)


def test_a_state_machine_finds_it_too():
    with pytest.raises(AssertionError):
        run_state_machine_as_test(Faulty, settings=machine_settings(1000))
    smallest = read_scenarios(Forwards.scenarios[-1])[0]
    assert smallest.carry_out().fault is None and smallest.script.count("\n") <= 2
    run_state_machine_as_test(Repaired, settings=machine_settings(30))


def test_what_is_drawn_is_carried_out():
    """Lists of calls and tables with bad names, scripts, sizes: each run comes out, and each line reads back."""
    def check(lists, table, script, options):
        coverage = Coverage()
        try:
            run = toarmuts.run([*lists, table], script, options=options)
        except BadSizes as fault:
            assert fault.size in ("mmem", "heap", "header", "quota")
            return
        assert "".join(f"{entry}\n" for entry in run.transcript) == run.text
        coverage.add(run)
        assert not coverage.unexpected()

    calls = strategies.call_lists(wild=True, applications=3, max_size=16)
    tables = strategies.tables(wild=True, applications=3)
    search(1, check, 200, lists=st.lists(calls, max_size=3), table=tables, script=strategies.scripts(), options=strategies.options())


def test_what_is_drawn_is_what_was_asked_for():
    """Kinds of lines and how many, names within bounds, processes of all applications, and a machine that looks at the boot, too."""
    def check(script, calls, tall, options):
        assert all(line.startswith("tick ") and int(line[5:]) <= 3 for line in script) and len(script) <= 4
        assert all(Call.parse(str(call)) and call.arguments[0] < 4 for call in calls)
        processes.update(call.process for call in tall)
        assert options.quota is None and options.mmem % 4 == 0

    processes = set()
    search(1, check, 100, script=strategies.scripts(kinds=("tick",), max_ticks=3, max_size=4),
           calls=strategies.call_lists(("timer-set", "mmem-free", "memb-write", "list-add"), max_size=5),
           tall=strategies.call_lists(("poll",), applications=3), options=strategies.options(quotas=False))
    assert processes == {4, 5, 6}

    codes = set()
    search(1, lambda calls: codes.update(call.code for call in calls), 100, calls=strategies.call_lists(("post",)))
    assert codes == {140, 141, 134, 133}
    search(1, lambda calls: codes.update(call.code for call in calls), 100, calls=strategies.call_lists(("post",), wild=True))
    assert codes == {140, 141, 134, 133, 129, 136}


@pytest.mark.parametrize("make, fault, reason", [
    (lambda: strategies.inputs(kinds=["tock"]), BadInput, "no kind of input 'tock'; there are tick, serial, text, frame"),
    (lambda: strategies.scripts(kinds="tick"), WrongType, "kinds of inputs must be a list, not str"),
    (lambda: strategies.inputs(texts="on"), WrongType, "texts must be a list, not str"),
    (lambda: strategies.inputs(texts=["on", "x" * 256]), BadInput, "text with its line end of 257 bytes: 1 to 256 are allowed"),
    (lambda: strategies.inputs(max_ticks=2**32), BadInput, "tick 4294967296: 0 to 4,294,967,295 is allowed"),
    (lambda: strategies.inputs(max_frame=128), BadInput, "frames of 128 bytes: 1 to 127 are allowed"),
    (lambda: strategies.frames(0), BadInput, "frames of 0 bytes: 1 to 127 are allowed"),
    (lambda: strategies.calls(["wait", "frob"]), BadCall, "no call 'frob'"),
    (lambda: strategies.call_lists("wait"), WrongType, "words of calls must be a list, not str"),
    (lambda: strategies.calls(5), WrongType, "words of calls must be a list, not int"),
    (lambda: strategies.arguments("frob"), BadCall, "no call has an argument 'frob'; there are process, code, payload,"),
    (lambda: strategies.inputs(kinds=[]), BadInput, "no kinds of inputs: at least one is needed"),
    (lambda: strategies.calls([]), BadInput, "no words of calls: at least one is needed"),
    (lambda: strategies.calls(applications="x"), WrongType, "applications must be an int, not str"),
    (lambda: strategies.call_lists(applications=17), BadInput, "applications is 17; 0 to 16 is allowed"),
    (lambda: strategies.call_lists(max_size=None), WrongType, "max_size must be an int, not NoneType"),
    (lambda: strategies.scripts(max_size="4"), WrongType, "max_size must be an int, not str"),
    (lambda: strategies.frames(None), WrongType, "the bytes of frames must be an int, not NoneType"),
    (lambda: strategies.inputs(max_frame=None), WrongType, "the bytes of frames must be an int, not NoneType"),
    (lambda: strategies.tables(codes=5), WrongType, "codes of events must be a list, not int"),
    (lambda: strategies.tables(codes=[300]), BadInput, "a code of an event is 300; 0 to 255 is allowed"),
])
def test_what_cannot_be_drawn_is_told(make, fault, reason):
    with pytest.raises(fault, match=re.escape(reason)):
        make()


def test_words_and_kinds_may_come_one_by_one():
    def check(calls, line):
        assert calls.word in ("wait", "clock") and line.startswith("tick ")

    search(1, check, 20, calls=strategies.calls(word for word in ("wait", "clock")), line=strategies.inputs(kinds=iter(["tick"])))


def test_a_machine_looks_at_the_boot_and_is_closed():
    class Looks(MoteMachine):
        applications = ["hello"]

        def look(self, entries):
            looked.append(str(entries))

    looked = []
    machine = Looks()
    machine.teardown()
    assert looked == ["4 synch 129 - -> print 68690a\n4 answer done -> wait\n"] and machine.mote.closed


def failure_of(machine, count=1000):
    """What Hypothesis shows of a machine that fails."""
    with pytest.raises(Exception) as caught:
        run_state_machine_as_test(machine, settings=machine_settings(count))
    return caught.value, "\n".join(getattr(caught.value, "__notes__", []))


class NoLineOff(MoteMachine):
    """Fails at a text of its own."""

    applications = ["echo"]
    texts = ("beat", "off")
    found = []
    on_failure = found.append

    def look(self, entries):
        assert b"off" not in entries.printed()


def test_a_machine_shows_the_line_and_the_run():
    NoLineOff.found.clear()
    fault, output = failure_of(NoLineOff)
    assert isinstance(fault, AssertionError) and "state.serial_text(line='off')" in output
    smallest = read_scenarios(NoLineOff.found[-1])[0]
    assert smallest.script == "serial 6f66660a\n" and smallest.carry_out().fault is None
    assert "serial 6f66660a" in output and "5 event" not in output


def raises_on_tick():
    while True:
        stimulus = yield Wait()
        if stimulus == toarmuts.Event(toarmuts.EventCode.SERIAL_LINE, b"a"):
            raise KeyError("a line")


def raises_at_boot():
    yield Print(b"begins")
    raise KeyError("at boot")


def chatty():
    """Makes more calls than a file may have."""
    for _ in range(200):
        yield Clock()
    while True:
        yield Wait()


@pytest.mark.parametrize("application, words", [(raises_on_tick, ["KeyError: 'a line'", "serial 610a"]),
                                                (raises_at_boot, ["KeyError: 'at boot'", "calls print 626567696e73"])])
def test_a_machine_tells_of_an_application_that_raises(application, words):
    class Raises(MoteMachine):
        applications = [application]
        texts = ["a"]
        found = []
        on_failure = found.append

    fault, output = failure_of(Raises)
    assert isinstance(fault, toarmuts.ApplicationError)
    for word in words:
        assert word in Raises.found[-1] and word in output
    assert read_scenarios(Raises.found[-1])[0].transcript == ""


def test_a_machine_keeps_its_fault_where_no_file_tells_the_run():
    class Fails(MoteMachine):
        applications = [chatty]
        found = []
        on_failure = found.append

        def look(self, entries):
            raise AssertionError("this fault")

    fault, _ = failure_of(Fails, 3)
    assert str(fault) == "this fault" and Fails.found[-1].startswith("# no scenario file can have this run: process 4 made 200 calls")


DRAWS = """import sys

sys.path.insert(0, {folder!r})
import same_each_time
from hypothesis.stateful import run_state_machine_as_test
from test_search import FRAMES, Forwards, machine_settings, search, strategies

drawn = []
search(3, lambda **words: drawn.append(words), 40, calls=strategies.call_lists(wild=True), table=strategies.tables(), **FRAMES)


class Notes(Forwards):
    applications = ["relay"]

    def look(self, entries):
        drawn.append(str(entries))


run_state_machine_as_test(Notes, settings=machine_settings(20))
print(drawn)
"""


def test_searches_are_the_same_each_time():
    """In processes that order their sets in other ways, too."""
    words = [sys.executable, "-c", DRAWS.format(folder=str(ROOT / "python/tests"))]
    drawn = {subprocess.run(words, env={**os.environ, "PYTHONHASHSEED": hash_seed}, capture_output=True, check=True).stdout
             for hash_seed in ("0", "1", "2")}
    assert len(drawn) == 1 and len(drawn.pop()) > 1000


def test_names_and_no_lambdas_are_mapped():
    """A lambda's source is looked up at each draw by the Hypothesis of Debian."""
    assert "lambda" not in (ROOT / "python/src/toarmuts/strategies.py").read_text().replace("source of a lambda", "")
