"""A mote in hand, and applications in Python."""
import functools
import inspect
import itertools
import pathlib
import random
import subprocess
import sys
import threading

import pytest
from common import NAMES, Blink, Hello, random_application, random_call, random_script

import toarmuts
from toarmuts import (AllocEvent, ApplicationError, BadInput, CallbackSet, Clock, Event, EventCode, Exit, IsRunning, Kill, MmemAlloc,
                      MmemRead, MmemWrite, Mote, MoteError, Post, Print, Reply, ReplyKind, Script, Start, Table, TimerReset, TimerSet,
                      Transcript, Wait)


def texts(entries):
    return [str(entry) for entry in entries]


def test_each_input_gives_the_entries_that_follow():
    with Mote(["blink", "echo"]) as mote:
        assert texts(mote.booted) == ["4 synch 129 - -> timer-set 0 10", "4 answer done -> wait", "5 synch 129 - -> wait"]
        assert texts(mote.tick(9)) == ["> tick 9"] and mote.clock == 9
        turned = mote.tick()
        assert texts(turned) == ["> tick 1", "4 event 136 0 -> print 6f6e0a", "4 answer done -> timer-reset 0", "4 answer done -> wait"]
        assert [entry.clock for entry in turned] == [10] * 4 and [entry.line for entry in turned] == [5, 6, 7, 8]
        assert turned.turns()[0].reply.ok and turned.printed() == b"on\n"
        assert mote.serial_text("hi").printed(5) == b"hi" and mote.serial(b"a").printed() == b"" and mote.serial(b"b\n").printed() == b"ab"
        assert texts(mote.frame(b"\1")) == ["> frame 01"] and texts(mote.at(10)) == [] and texts(mote.at(12)) == ["> tick 2"]
        assert texts(mote.feed("# nothing")) == [] and texts(mote.feed("tick 1")) == ["> tick 1"]
        whole = mote.transcript.data
    assert mote.transcript == Transcript(whole)
    assert whole == toarmuts.run(["blink", "echo"], mote.so_far().script).transcript.data


def test_inputs_are_refused_and_change_nothing():
    mote = Mote(["blink"])
    before = mote.transcript.data
    for wrong in (lambda: mote.tick(2**32), lambda: mote.serial(b""), lambda: mote.frame(bytes(128)), lambda: mote.feed("tick 01"),
                  lambda: mote.at(-1), lambda: mote.tick("1"), lambda: mote.run("frob\n")):
        with pytest.raises(toarmuts.ToarmutsError):
            wrong()
    assert mote.transcript.data == before and mote.clock == 0
    assert mote.tick(10).printed() == b"on\n"


def test_what_was_printed_and_sent_so_far():
    mote = Mote(["blink", "relay"])
    assert (mote.printed(), mote.sent()) == (b"", [])
    mote.tick(10)
    mote.frame(b"\1\2")
    mote.tick(10)
    assert (mote.printed(), mote.printed(4), mote.printed(5), mote.sent()) == (b"on\noff\n", b"on\noff\n", b"", [b"\1\2"])
    run = mote.so_far()
    assert run.transcript == mote.transcript == mote.entries == run.entries and run.transcript.data.decode() == run.text


def test_at_goes_as_far_as_one_tick():
    mote = Mote()
    mote.at(2**32 - 1)
    mote.at(2**33 - 2)
    assert mote.clock == Script().at(2**32 - 1).at(2**33 - 2).clock == 2**33 - 2


def test_a_script_is_carried_out():
    mote = Mote(["blink"])
    assert mote.run(Script().tick(10).tick(10)).printed() == b"on\noff\n"
    with pytest.raises(toarmuts.BadInput, match="^'frob' is not a line of a script"):
        mote.run("tick 1\nfrob\ntick 1\n")
    assert mote.clock == 21


def test_a_closed_mote():
    mote = Mote(["blink"])
    mote.tick(7)
    mote.close()
    mote.close()
    for use in (lambda: mote.tick(1), lambda: mote.at(7), lambda: mote.submit(Wait()), lambda: mote.run(""), mote.resume):
        with pytest.raises(MoteError, match="the mote is closed"):
            use()
    assert mote.closed and len(mote.transcript) == 3 and "closed" in repr(mote)
    # What stays is all of one time.
    assert mote.clock == mote.transcript[-1].clock == 7 and mote.so_far().script == b"tick 7\n"


def test_a_halted_mote():
    mote = Mote(["clock-watcher"])
    assert mote.halted and mote.transcript[-1].text == "halt" and len(mote.transcript) == 10_001
    for use in (lambda: mote.tick(1), mote.resume):
        with pytest.raises(MoteError, match="the mote was halted"):
            use()
    assert mote.so_far().ended == "halted"


def test_a_mote_that_halts_as_it_resumes_tells_its_entries():
    """The first time; from then on it is a halted one."""
    mote = Mote([lambda: OnceFails()])
    with pytest.raises(ApplicationError):
        mote.serial_text("on")
    assert mote.resume()[-1].text == "halt" and mote.halted
    with pytest.raises(MoteError, match="the mote was halted"):
        mote.resume()


def test_resume_of_a_mote_at_rest_does_nothing():
    mote = Mote(["blink"])
    assert len(mote.resume()) == 0 and mote.tick(10).printed() == b"on\n"


def fails_on(words):
    """An application that raises where it is told these words for the first time."""
    def application():
        stimulus = yield Wait()
        failed = False
        while True:
            if str(stimulus) == words and not failed:
                failed = True
                raise KeyError("no such thing")
            stimulus = yield Print(b"told") if isinstance(stimulus, Event) else Wait()
    return application


class OnceFails:
    """Fails at the first line that comes in, and never waits when it is asked again."""

    def __init__(self):
        self.fails = True

    def turn(self, stimulus):
        if isinstance(stimulus, Event) and stimulus.code == EventCode.INIT:
            return Wait()
        if self.fails:
            self.fails = False
            raise KeyError("once")
        return Clock()


class Fails:
    """Raises, returns no call, and then prints, at each line that comes in."""

    def __init__(self):
        self.turns = 0

    def turn(self, stimulus):
        if not (isinstance(stimulus, Event) and stimulus.code == EventCode.SERIAL_LINE):
            return Wait()
        self.turns += 1
        if self.turns == 1:
            raise KeyError("no such thing")
        return None if self.turns == 2 else Print(b"third")


def test_an_application_that_raises_leaves_the_mote_as_it_was():
    mote = Mote(["hello", Fails])
    with pytest.raises(ApplicationError, match="process 5 received SERIAL_LINE b'on': KeyError: 'no such thing'") as caught:
        mote.serial_text("on")
    fault = caught.value
    assert (fault.process, fault.stimulus) == (5, Event(138, b"on")) and isinstance(fault.__cause__, KeyError)
    assert fault.transcript[-1].text == "> serial 6f6e0a" and mote.transcript == fault.transcript
    assert mote.awaiting == (5, Event(138, b"on"))
    with pytest.raises(MoteError, match="a turn awaits its call"):
        mote.tick(1)
    with pytest.raises(ApplicationError, match="None is not a call"):
        mote.resume()
    assert mote.transcript == fault.transcript and mote.awaiting == (5, Event(138, b"on"))
    assert texts(mote.resume())[0] == "5 event 138 x6f6e -> print 7468697264" and mote.awaiting is None
    assert mote.tick(1)[0].text == "> tick 1" and mote.application(5).turns == 3


def test_a_run_so_far_ends_before_a_turn_that_awaits_its_call():
    # A broadcast goes over the process list, whose head is the process that was started last.
    mote = Mote(["echo", Fails])
    with pytest.raises(ApplicationError):
        mote.serial_text("a")
    so_far = mote.so_far()
    assert so_far.script == b"serial 610a\n"
    assert so_far.text.splitlines() == ["4 synch 129 - -> wait", "5 synch 129 - -> wait", "> serial 610a"]
    mote.submit(Wait())
    assert mote.so_far().text == so_far.text + "5 event 138 x61 -> wait\n4 event 138 x61 -> print 61\n4 answer done -> wait\n"


def test_where_an_application_raises_at_boot_it_is_told_what_came_before():
    def raises():
        raise KeyError("at once")
        yield Wait()

    with pytest.raises(ApplicationError, match="process 5 received INIT: KeyError: 'at once'") as caught:
        Mote(["hello", raises])
    assert str(caught.value.transcript) == "4 synch 129 - -> print 68690a\n4 answer done -> wait\n"


def test_what_an_application_says_can_be_written():
    def raises():
        yield Wait()
        raise ValueError("half a pair: \ud800")

    with pytest.raises(ApplicationError) as caught:
        toarmuts.run([raises], "serial 0a\n")
    assert str(caught.value).endswith("ValueError: half a pair: \\ud800") and caught.value.reason.encode()


def test_a_call_can_be_handed_in_by_hand():
    mote = Mote([Fails])
    with pytest.raises(ApplicationError):
        mote.serial_text("on")
    entries = mote.submit(Print(b"by hand"))
    assert texts(entries) == [f"4 event 138 x6f6e -> print {b'by hand'.hex()}", "4 answer done -> wait"]
    assert mote.transcript.turns()[-2].reply.ok
    with pytest.raises(MoteError, match="no turn awaits a call"):
        mote.submit(Wait())


@pytest.mark.parametrize("call, script, received", [
    (Wait(), "serial 610a\n", "SERIAL_LINE b'a'"), (TimerSet(0, 1), "", "reply done"), (CallbackSet(3, 1), "tick 1\n", "callback 3"),
    (Post(4, 140, 7), "", "event 140 7"), (Post(4, 141), "", "event 141"), (Post(4, EventCode.MSG, b""), "", "MSG b''"),
    (TimerSet(9, 1), "", "reply refused BAD_NAME"), (AllocEvent(), "", "reply num 140"), (Kill(4), "", "reply refused BUSY"),
    (MmemRead(0, 0, 2), "", "reply bytes b'hi'"), (IsRunning(4), "", "reply flag true"),
])
def test_a_run_ends_where_an_application_raises(call, script, received):
    """The message names what the process received."""
    def application():
        yield MmemAlloc(0, 2)
        yield MmemWrite(0, 0, b"hi")
        reply = yield call
        is_late = reply == Reply(ReplyKind.DONE) and not received.startswith("reply")
        stimulus = (yield Wait()) if is_late else reply
        raise KeyError(str(stimulus))

    with pytest.raises(ApplicationError) as caught:
        toarmuts.run([application], script)
    assert caught.value.process == 4 and str(caught.value).startswith(f"process 4 received {received}: KeyError: ")


async def later():
    """What makes a coroutine, as an async turn does."""


class Returns:
    """Returns something that is no call."""

    def __init__(self, value):
        self.value = value

    def turn(self, stimulus):
        return self.value


@pytest.mark.parametrize("value, reason", [
    (None, ": None is not a call"),
    ("wait", "the text 'wait' is not a call: Call.parse makes one"),
    (Wait, "the class Wait is not a call: write Wait(..)"),
    (5, "5 is not a call"),
    ((turns for turns in ()), "a generator is not a call: turn must not yield"),
    (later(), "a coroutine is not a call: write turn without async"),
])
def test_what_is_no_call_is_told(value, reason):
    with pytest.raises(ApplicationError) as caught:
        toarmuts.run([Returns(value)])
    assert reason in str(caught.value) and caught.value.stimulus == Event(EventCode.INIT)


def test_an_application_cannot_use_its_mote():
    made = {}

    class Meddles:
        def turn(self, stimulus):
            if "mote" in made:
                made["mote"].tick(1)
            return Wait()

    made["mote"] = Mote([Meddles])
    with pytest.raises(ApplicationError, match="the mote is at work"):
        made["mote"].serial_text("on")


def test_an_application_cannot_close_its_mote():
    made = {}

    class Closes:
        def turn(self, stimulus):
            if "mote" in made:
                made["mote"].close()
            return Wait()

    mote = made["mote"] = Mote([Closes])
    with pytest.raises(ApplicationError, match="the mote is at work"):
        mote.serial_text("on")
    made.clear()
    assert not mote.closed and texts(mote.resume()) == ["4 event 138 x6f6e -> wait"]
    mote.close()
    assert mote.closed


def test_a_mote_at_work_cannot_be_closed_by_another_thread():
    reached, goes_on = threading.Event(), threading.Event()

    class Dawdles:
        def turn(self, stimulus):
            if stimulus == Event(EventCode.SERIAL_LINE, b"on"):
                reached.set()
                goes_on.wait(60)
            return Wait()

    mote = Mote([Dawdles])
    thread = threading.Thread(target=mote.serial_text, args=("on",))
    thread.start()
    assert reached.wait(60)
    with pytest.raises(MoteError, match="the mote is at work"):
        mote.close()
    goes_on.set()
    thread.join()
    assert mote.transcript[-1].text == "4 event 138 x6f6e -> wait"
    mote.close()


def test_an_interrupt_leaves_the_mote_as_it_was():
    """A generator that was interrupted can't go on, and doesn't exit for that."""
    def interrupted():
        while (yield Wait()) != Event(EventCode.SERIAL_LINE, b"on"):
            pass
        raise KeyboardInterrupt

    mote = Mote([interrupted, "echo"])
    with pytest.raises(KeyboardInterrupt):
        mote.serial_text("on")
    before = mote.transcript.data
    with pytest.raises(ApplicationError, match="RuntimeError: the generator has raised, so it can't go on"):
        mote.resume()
    assert mote.transcript.data == before and mote.awaiting == (4, Event(EventCode.SERIAL_LINE, b"on"))
    assert texts(mote.submit(Wait())) == ["4 event 138 x6f6e -> wait"] and mote.awaiting is None


def test_an_interrupt_behind_the_librarys_work_loses_nothing_of_it(monkeypatch):
    class Prints:
        def turn(self, stimulus):
            return Wait() if isinstance(stimulus, Reply) else Print(b"hi")

    mote = Mote([Prints])
    held = type(mote._stepper.held)
    advance = held.advance

    def interrupted(self, call):
        advance(self, call)
        raise KeyboardInterrupt

    awaited = []
    with monkeypatch.context() as patch:
        patch.setattr(held, "advance", interrupted)
        for work in [lambda: mote.serial_text("a"), *[mote.resume] * 4]:
            with pytest.raises(KeyboardInterrupt):
                work()
            awaited.append(mote.awaiting)
    mote.resume()
    assert (4, Event(EventCode.SERIAL_LINE, b"a")) in awaited and (4, Reply(ReplyKind.DONE)) in awaited
    lines = ["4 synch 129 - -> print 6869", "4 answer done -> wait", "> serial 610a", "4 event 138 x61 -> print 6869",
             "4 answer done -> wait"]
    assert texts(mote.transcript) == lines and mote.awaiting is None


class Counts:
    """Prints 1 2 3 for a line that comes in, 4 5 6 for the next."""

    def __init__(self):
        self.left, self.number = 0, 0

    def turn(self, stimulus):
        self.left += 3 if isinstance(stimulus, Event) and stimulus.code == EventCode.SERIAL_LINE else 0
        if self.left == 0:
            return Wait()
        self.left, self.number = self.left - 1, self.number + 1
        return Print(b"%d " % self.number)


def counts():
    """The same, and ends."""
    assert (yield Wait()) == Event(EventCode.SERIAL_LINE, b"a")
    for number in range(1, 4):
        yield Print(b"%d " % number)


PACKAGE = str(pathlib.Path(toarmuts.__file__).parent)


def is_of_package(frame):
    """Whether the package does this itself, and not within an application."""
    while frame.f_code.co_filename.startswith(PACKAGE) and not frame.f_code.co_flags & inspect.CO_GENERATOR:
        frame = frame.f_back
    return frame.f_code is interrupted.__code__


def interrupt_behind(place, fault):
    """What raises this behind so many calls that the package makes, where the interpreter looks for signals, too."""
    left = itertools.count(-place)

    def profile(frame, what, _):
        if what in ("return", "c_return") and is_of_package(frame) and next(left) == 0:
            sys.setprofile(None)
            raise fault

    return profile


def interrupted(place, fault=KeyboardInterrupt):
    """A mote that takes a line, is interrupted there, and goes on; and whether it was interrupted."""
    mote, is_interrupted = Mote([Counts, counts, "echo"]), False
    sys.setprofile(interrupt_behind(place, fault))
    try:
        mote.serial_text("a")
    except (KeyboardInterrupt, TimeoutError, ApplicationError):
        is_interrupted = True
    finally:
        sys.setprofile(None)
    if mote.awaiting is not None or "work is left" in refused_words(mote):
        mote.resume()
    if mote.so_far().script == b"":
        mote.serial_text("a")
    return mote, is_interrupted


def refused_words(mote):
    """What it says where it can't take an input."""
    try:
        mote.feed("")
    except MoteError as fault:
        return str(fault)
    return ""


@pytest.mark.parametrize("fault", [KeyboardInterrupt, TimeoutError])
def test_an_interrupt_behind_any_call_of_the_package_loses_nothing(fault):
    """At the keyboard, and what another signal's handler raises."""
    wanted, places, is_interrupted = toarmuts.run([Counts, counts, "echo"], "serial 610a\n"), 0, True
    while is_interrupted:
        mote, is_interrupted = interrupted(places, fault)
        places += 1
        assert wanted.difference(mote.transcript) is None, places
        assert mote.so_far().script == wanted.script
    assert places > 100


def test_a_generator_begins_anew_at_each_start():
    def counts():
        for number in range(2):
            yield Print(b"%d" % number)
            yield Wait()

    # It is told EXIT when it is killed, and prints 1 then.
    run = toarmuts.run([counts, [Kill(4), Start(4)]])
    assert run.printed() == b"010"
    assert toarmuts.run([counts], "tick 1\n").transcript.turns()[-1].call == Wait()


def test_a_generator_whose_process_was_killed_ends_at_the_next_start():
    received = []

    def cleans():
        try:
            while True:
                received.append(str((yield Wait())))
        finally:
            received.append("cleaned")

    # 5 was started last, so it is told of a line first: 4 is gone by then, or not yet on the list that the broadcast began with.
    mote = Mote([cleans, ["wait", "kill 4", "wait", "start 4"]])
    mote.serial_text("a")
    assert received == ["131 -"]
    mote.serial_text("b")
    assert received == ["131 -", "cleaned"] and mote.transcript.turns(4)[-1].text == "4 synch 129 - -> wait"


def test_what_makes_a_generator_is_asked_at_each_start():
    numbers = iter(range(9))

    def tells(number):
        yield Print(b"%d" % number)
        while True:
            yield Wait()

    assert toarmuts.run([lambda: tells(next(numbers)), [Kill(4), Start(4)]]).printed() == b"01"


def test_a_generator_that_raised_cannot_go_on():
    mote = Mote([fails_on("138 x6f6e")])
    with pytest.raises(ApplicationError, match="KeyError: 'no such thing'"):
        mote.serial_text("on")
    before = mote.transcript.data
    with pytest.raises(ApplicationError, match="RuntimeError: the generator has raised, so it can't go on until its process is started"):
        mote.resume()
    assert mote.transcript.data == before and mote.awaiting == (4, Event(138, b"on"))


def test_a_generator_that_raised_begins_anew_at_the_next_start():
    def careless():
        yield Print(b"begins")
        while True:
            if (yield Wait()) == Event(EventCode.SERIAL_LINE, b"on"):
                raise KeyError("on")

    mote = Mote([careless, "calls wait, wait, kill 4, start 4"])
    with pytest.raises(ApplicationError, match="KeyError: 'on'"):
        mote.serial_text("on")
    mote.submit(Wait())
    with pytest.raises(ApplicationError, match="the generator has raised"):
        mote.serial_text("off")
    assert mote.awaiting == (4, Event(EventCode.EXIT))
    assert mote.submit(Wait()).printed() == b"begins" and mote.awaiting is None


def test_a_generator_that_returns_exits():
    def once():
        yield Print(b"once")

    run = toarmuts.run([once])
    assert [turn.call for turn in run.transcript.turns()] == [Print(b"once"), Exit()]


def test_answers_and_stimuli_are_sent():
    received = []

    def listens():
        received.append((yield MmemAlloc(0, 4097)))
        received.append((yield MmemAlloc(0, 8)))
        received.append((yield Wait()))

    toarmuts.run([listens], "serial 6869\nserial 0a\n")
    assert [str(received[0]), str(received[1])] == ["refused 12", "done"] and received[2] == Event(EventCode.SERIAL_LINE, b"hi")


def test_tables_and_objects_are_applications():
    table = {EventCode.INIT: [TimerSet(0, 5)], EventCode.TIMER: [Print(b"x"), TimerReset(0)]}
    assert toarmuts.run([Table(table)], "tick 5\ntick 5\n").printed() == b"xx"
    blink = Blink()
    assert toarmuts.run([blink, "hello"], "tick 10\n").printed() == b"hi\non\n" and blink.lit


def test_a_table_has_a_row_for_callbacks_and_none_for_other_events():
    table = Table({EventCode.INIT: [CallbackSet(0, 5), Print(b"a"), Print(b"b")], "callback": [Print(b"c"), CallbackSet(0, 5)]})
    assert toarmuts.run([table], "tick 5\nserial 0a\ntick 5\n").printed() == b"abcc"
    # What is left of a row goes where another one begins.
    table = Table({EventCode.INIT: [CallbackSet(0, 5), Wait(), Print(b"left")], "callback": [Print(b"c")]})
    assert toarmuts.run([table], "tick 5\n").printed() == b"c"
    # It ends within a row; when it is started again it is told INIT, for which it has none.
    table = Table({EventCode.SERIAL_LINE: [Exit(), Print(b"never")]})
    run = toarmuts.run([table, "calls wait, wait, wait, start 4"], "serial 0a\nserial 0a\n")
    assert [str(turn.call) for turn in run.transcript.turns()] == ["wait", "wait", "wait", "exit", "wait", "start 4", "wait", "wait"]


def test_applications_are_called_by_their_functions_names():
    def counts(number):
        yield Print(b"%d" % number)

    run = toarmuts.run([functools.partial(counts, 7), lambda: counts(8)])
    assert run.printed() == b"78" and run.applications == ("counts", "<lambda>")
    assert repr(run) == "<Run of counts, <lambda>: finished, 4 lines>"


def test_a_mote_is_closed_at_the_end_of_its_block():
    with Mote(["blink"]) as mote:
        mote.tick(3)
        assert repr(mote) == "<Mote of blink, clock 3>" and not mote.closed
        for line in "# a\ntick 1", "tick 1\n":
            with pytest.raises(BadInput):
                mote.feed(line)
    assert mote.closed and repr(mote) == "<Mote of blink, closed>" and len(mote.transcript) == 3


def test_a_run_of_python_applications_is_written_as_lists():
    run = toarmuts.run([Blink, "hello"], "tick 10\ntick 25\n")
    again = toarmuts.read_scenarios(run.scenario())[0]
    assert again.carry_out().fault is None and "calls timer-set 0 10" in run.scenario()
    with pytest.raises(toarmuts.BadScenario, match="process 4 made [0-9]+ calls; a list in a file has at most 128"):
        toarmuts.run([Blink], "tick 10\n" * 100).scenario()


def both(applications, script, **sizes):
    """The run by the library, and the one that goes step by step, since it has an application in Python."""
    return (toarmuts.run([*applications, "hello"], script, **sizes), toarmuts.run([*applications, Hello], script, **sizes))


def assert_same(by_library, step_by_step):
    assert step_by_step.difference(by_library) is None
    assert (by_library.status, by_library.line) == (step_by_step.status, step_by_step.line)


@pytest.mark.parametrize("name", [*NAMES, "clock-watcher"])
def test_names_step_by_step_are_those_by_the_library(name):
    """Equal transcripts on random scripts, alone and beside others."""
    # The one that never waits halts each time, after 10,000 turns.
    for seed in range(4 if name == "clock-watcher" else 60):
        chance = random.Random(f"{name}/{seed}")
        others = [random_application(chance) for _ in range(chance.randrange(3))]
        sizes = {"mmem": chance.choice([64, 128, 4096]), "heap": chance.choice([100, 4096])}
        assert_same(*both([name, *others], random_script(chance, 20), **sizes, quiet=seed % 10 == 0))


def test_random_lists_step_by_step_are_those_by_the_library():
    for seed in range(300):
        chance = random.Random(f"lists/{seed}")
        lists = [[random_call(chance) for _ in range(chance.randrange(60))] for _ in range(chance.randrange(1, 5))]
        quota = chance.choice([None, None, 8, 16])
        assert_same(*both(lists, random_script(chance, 20, spoilt=0.05), mmem=chance.choice([128, 512]), heap=200, quota=quota))


def test_ends_step_by_step_are_those_by_the_library():
    comments = "#" * 1023 + "\n"
    for script in ("frob", "tick 1\nfrob\ntick 1\n", "tick 1", "\n\ntick 01\n", "#" * 1024, "#" * 1025, "tick 1\r\n",
                   comments * 16_384 + "tick 5\n", comments * 16_383 + "#" * 1020 + "\n" + "tick 5\n", comments * 16_384, b"\xff\n"):
        assert_same(*both([], script))


def test_motes_on_several_threads():
    """Each thread has motes of its own; runs by the library go on meanwhile."""
    wanted = toarmuts.run(["blink", "echo"], "tick 10\nserial 610a\n" * 20).transcript.data
    faults = []

    def work():
        try:
            for _ in range(20):
                mote = Mote(["blink", "echo"])
                for _ in range(20):
                    mote.tick(10)
                    mote.serial_text("a")
                assert mote.transcript.data == wanted
                assert toarmuts.run(["blink", "echo"], "tick 10\nserial 610a\n" * 20).transcript.data == wanted
        except Exception as fault:
            faults.append(fault)

    threads = [threading.Thread(target=work) for _ in range(8)]
    for thread in threads:
        thread.start()
    for thread in threads:
        thread.join()
    assert faults == []


def test_runs_on_several_threads_have_rooms_of_their_own():
    scripts = ["tick 10\n" * count for count in (1, 50, 5000)]
    wanted = {script: toarmuts.run(["blink"], script).transcript.data for script in scripts}
    faults = []

    def work(script):
        for _ in range(10):
            if toarmuts.run(["blink"], script).transcript.data != wanted[script]:
                faults.append(script[:20])

    threads = [threading.Thread(target=work, args=(script,)) for script in scripts * 3]
    for thread in threads:
        thread.start()
    for thread in threads:
        thread.join()
    assert faults == []


class Mute:
    """Can't be shown."""

    def __repr__(self):
        raise RuntimeError("no repr")


class MuteFault(Exception):
    """Can't be shown, either."""

    def __str__(self):
        raise RuntimeError("no str")


class Misbehaves:
    """Returns or raises these, one at each line that comes in, and then prints."""

    def __init__(self, *values):
        self.values, self.asked = list(values), 0

    def turn(self, stimulus):
        if not (isinstance(stimulus, Event) and stimulus.code == EventCode.SERIAL_LINE):
            return Wait()
        self.asked += 1
        value = self.values.pop(0) if self.values else Print(b"at last")
        if isinstance(value, Exception):
            raise value
        return value


def test_what_cannot_be_shown_is_told_and_asked_anew():
    application = Misbehaves(Mute(), MuteFault(), "x" * 10_000_000, ValueError("y" * 10_000_000))
    mote = Mote([application])
    reasons = []
    for work in (lambda: mote.serial_text("a"), mote.resume, mote.resume, mote.resume):
        with pytest.raises(ApplicationError) as caught:
            work()
        assert (caught.value.process, caught.value.stimulus) == (4, Event(138, b"a")) and len(str(caught.value)) < 1000
        reasons.append(caught.value.reason)
    assert reasons[0] == "a Mute (its repr raises RuntimeError) is not a call"
    assert reasons[1] == "MuteFault, whose str raises RuntimeError"
    assert "(10,000,002 characters)" in reasons[2] and "(10,000,000 characters)" in reasons[3]
    assert mote.resume().printed() == b"at last" and application.asked == 5 and mote.awaiting is None


def test_a_daemon_thread_may_be_at_work_when_the_program_ends():
    code = ("import threading, time, toarmuts\nmote = toarmuts.Mote(['blink'])\ndef work():\n    while True:\n        mote.tick(1)\n"
            "threading.Thread(target=work, daemon=True).start()\ntime.sleep(0.05)\n")
    for _ in range(5):
        done = subprocess.run([sys.executable, "-c", code], capture_output=True, text=True, check=False)
        assert (done.returncode, done.stderr) == (0, "")


def test_lines_before_a_malformed_one_are_kept():
    mote = Mote(["blink"])
    with pytest.raises(BadInput, match=r"'tikc 5' is not a line of a script \(line 2\)"):
        mote.run("tick 10\ntikc 5\n")
    assert mote.transcript.printed() == b"on\n" and mote.clock == 10


def test_a_line_of_126_bytes_is_the_longest_that_comes_in():
    mote = Mote(["echo"])
    assert mote.serial_text("x" * 126).printed() == b"x" * 126 and mote.serial_text("x" * 127).printed() == b""
