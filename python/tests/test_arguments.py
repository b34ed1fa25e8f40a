"""What is wrong with arguments is told: the exception, and which size, application, call or input it is."""
import concurrent.futures
import copy
import dataclasses
import multiprocessing
import pickle
import random
import re

import pytest
from common import Hello, random_call, random_line

import toarmuts
from toarmuts.call import read_calls
from toarmuts.campaign import make_case
from toarmuts.script import has_form
from toarmuts import (BadCall, BadInput, BadScenario, BadSizes, BadTranscript, Call, Callback, Coverage, Event, Mote, NoApplication,
                      Options, Post, Print, Reason, Reply, Script, Table, TimerSet, TooManyApplications, Transcript, Wait, WrongType,
                      coverage_of)


class NoTurn:
    """A class that is no application."""


class NeedsMore:
    """A class whose objects can't be made without more words."""

    def __init__(self, period):
        self.period = period

    def turn(self, stimulus):
        return Wait()


def raiser(fault):
    """A function that raises this."""
    def fail():
        raise fault
    return fail


def waits():
    while True:
        yield Wait()


async def awaits():
    yield Wait()


def read(text):
    return lambda: toarmuts.read_scenarios(text)


def run(*arguments, **options):
    return lambda: toarmuts.run(*arguments, **options)


WRONG = [
    # Sizes.
    (run([], mmem=5), BadSizes, "mmem is 5; a multiple of 4 from 4 to 65,536 is allowed"),
    (run([], mmem=2**32 + 4096), BadSizes, "mmem is 4294971392; a multiple of 4 from 4 to 65,536 is allowed"),
    (run([], mmem=-4), BadSizes, "mmem is -4; a multiple of 4 from 4 to 65,536 is allowed"),
    (run([], heap=16), BadSizes, "heap is 16; a multiple of 4 from 20 to 65,536 is allowed"),
    (run([], header=12), BadSizes, "header is 12; 16 or 8 is allowed"),
    (run([], heap=6, header=6), BadSizes, "heap is 6; a multiple of 4 from 20 to 65,536 is allowed"),
    (run([], quota=0), BadSizes, "quota is 0; a multiple of 4 from 4 to 65,536 is allowed"),
    (run(["hello"], quota=2052), BadSizes, "quota is 2052; 2 of them (1 application and the frames) exceed mmem, which is 4096"),
    (run([], mmem="4096"), WrongType, "mmem must be an int, not str"),
    (run([], mmem=4096.0), WrongType, "mmem must be an int, not float"),
    (run([], heap=True), WrongType, "heap must be an int, not bool"),
    (run([], quota="8"), WrongType, "quota must be an int or None, not str"),
    (run([], quiet=1), WrongType, "quiet must be True or False, not int"),
    (run([], options={"mmem": 64}), WrongType, "options must be an Options, not dict"),
    (run([], check=1), WrongType, "check must be True or False, not int"),
    (run([], options=Options(mmem=64), heap=64), WrongType, "options and single sizes are given: one or the other"),
    # Applications.
    (run("blink"), WrongType, "applications must be a list: ['blink']"),
    (run(b"blink"), WrongType, "applications must be a list: [b'blink']"),
    (run(None), WrongType, "applications must be a list, not NoneType"),
    (run({"blink": 1}), WrongType, "applications must be a list, not dict"),
    (run({"blink", "echo"}), WrongType, "applications must be a list, not set"),
    (run(["hello", "\udc80"]), NoApplication, "application 2 (process 5): a name must be text in UTF-8, which '\\udc80' is not"),
    (run(["hello", awaits]), WrongType, "application 2 is the async function awaits: write a generator function, without async"),
    (run([waits()]), WrongType, "application 1 is a generator: write its generator function, or lambda: f(..)"),
    (run([NeedsMore]), NoApplication, "application 1 (process 4): NeedsMore() raised TypeError: NeedsMore.__init__() missing 1 required"),
    (lambda: Table({256: [Wait()]}), WrongType, "a table's key must be an event code, 0 to 255, or 'callback', not 256"),
    (lambda: Table({"timer": [Wait()]}), WrongType, "a table's key must be an event code, 0 to 255, or 'callback', not 'timer'"),
    (lambda: Table(None), WrongType, "a table must be a dict with a list of calls for each event, not NoneType"),
    (lambda: Table([(129, [Wait()])]), WrongType, "a table must be a dict with a list of calls for each event, not list"),
    (lambda: Table({129: Wait()}), WrongType, "a table's row must be a list of calls, not Wait"),
    (lambda: Table({129: [Wait()], 136: [Wait]}), WrongType, "a table's row must have calls, not the class Wait: write Wait(..)"),
    (run(["hello"] * 17), TooManyApplications, "17 applications; a mote has at most 16"),
    (run(["hello", "frob"]), NoApplication, "application 2 (process 5): no application 'frob'; there are hello, blink,"),
    (run(["hello\nblink"]), NoApplication, "application 1 (process 4): a name must have no line end: 'hello\\nblink'"),
    (run(["hello\r"]), NoApplication, "application 1 (process 4): a name must have no line end: 'hello\\r'"),
    (run(["hello", ""]), NoApplication, "application 2 (process 5): the name is empty"),
    (run([7]), WrongType, "application 1 must be a name, a list of calls, a class with turn(stimulus) or a generator function, not int"),
    (run([NoTurn]), WrongType, "application 1 is the class NoTurn, which has no turn(stimulus)"),
    (run([lambda: 5]), WrongType, "application 1: <lambda>() returned int, which has no turn(stimulus)"),
    (run([Wait()]), WrongType, "application 1 is the call Wait(): write a list of calls, [Wait()]"),
    (run(["hello", [Wait]]), WrongType, "application 2, call 1 must be a Call or its words, not the class Wait: write Wait(..)"),
    (run([["wait", 5]]), WrongType, "application 1, call 2 must be a Call or its words, not int"),
    (run([["wait", "kill"]]), NoApplication, "application 1 (process 4), call 2: 'kill': kill lacks a word"),
    (run(["calls wait, 129 wait"]), NoApplication, "call 2: '129 wait': the count before a call must be 1 to 128"),
    (run(["calls 2 poll x"]), NoApplication, "call 1: '2 poll x': a word is not a number, or out of range: poll takes process (0 to"),
    (lambda: coverage_of(toarmuts.run([])), WrongType, "runs must be a list, not Run"),
    (run(["calls wait, frob 1"]), NoApplication, "application 1 (process 4), call 2: 'frob 1': no call has this name"),
    (run(["calls timer-set 0 05"]), NoApplication, "call 1: 'timer-set 0 05': a word is not a number, or out of range: timer-set "
                                                   "takes timer (0 to 255), interval (0 to 4,294,967,295)"),
    (run(["calls print 0"]), NoApplication, "call 1: 'print 0': a word is not hex, or has too many bytes: print takes data"),
    (run(["calls 2 clock 1"]), NoApplication, "call 1: '2 clock 1': there are more words than the call takes: clock takes none"),
    (run(["calls 128 wait, clock"]), NoApplication, "application 1 (process 4): an application makes at most 128 calls"),
    (run([Hello, "frob"]), NoApplication, "application 2 (process 5): no application 'frob'; there are hello, blink,"),
    (run([Hello, "calls wait, frob 1"]), NoApplication, "application 2 (process 5), call 2: 'frob 1': no call frob"),
    (run([[Wait()] * 129]), NoApplication, "application 1 (process 4): 129 calls; a list has at most 128"),
    # Scripts.
    (run([], 5), WrongType, "script must be a str, bytes or Script, not int"),
    (run([], ["tick 1"]), WrongType, "script must be a str, bytes or Script, not list: Script(lines) makes one of lines"),
    (lambda: Script("tick 1"), WrongType, "the lines of a script must be a list, not str"),
    (lambda: Script([b"tick 1"]), WrongType, "a line of a script must be a str, not bytes"),
    (lambda: Script(["tick 1\n"]), BadInput, "a line of a script must have no line end: 'tick 1\\n'"),
    (lambda: Script(5), WrongType, "the lines of a script must be a list, not int"),
    (lambda: Call("wait"), WrongType, "Call is not a call itself: write one of its classes, as Wait(), or Call.parse('wait')"),
    (lambda: toarmuts.run(["hello"]).scenario(comment=5), WrongType, "a comment must be a str, not int"),
    (lambda: toarmuts.run(["hello"]).page(5), WrongType, "a page's title must be a str, not int"),
    (lambda: Script().tick(-1), BadInput, "tick -1: 0 to 4,294,967,295 is allowed"),
    (lambda: Script().tick(2**32), BadInput, "tick 4294967296: 0 to 4,294,967,295 is allowed"),
    (lambda: Script().tick(1.5), WrongType, "ticks must be an int, not float"),
    (lambda: Script().tick(9).at(8), BadInput, "at 8: the clock is at 9 already"),
    (lambda: Script().serial("on"), WrongType, "serial must be bytes, not str"),
    (lambda: Script().serial(b""), BadInput, "serial of 0 bytes: 1 to 256 are allowed"),
    (lambda: Script().serial_text("x" * 256), BadInput, "text with its line end of 257 bytes: 1 to 256 are allowed"),
    (lambda: Script().comment(5), WrongType, "a comment must be a str, not int"),
    (lambda: Script().comment("x" * 1023), BadInput, "a comment of 1023 bytes: at most 1,022 are allowed"),
    (lambda: Script().comment("\u00e9" * 512), BadInput, "a comment of 1024 bytes: at most 1,022 are allowed"),
    (lambda: Script().frame(bytes(128)), BadInput, "frame of 128 bytes: 1 to 127 are allowed"),
    # Calls.
    (lambda: TimerSet(0, -1), BadCall, "timer-set: interval is -1; 0 to 4,294,967,295 is allowed"),
    (lambda: TimerSet(256, 0), BadCall, "timer-set: timer is 256; 0 to 255 is allowed"),
    (lambda: TimerSet("0", 0), WrongType, "timer-set: timer must be an int, not str"),
    (lambda: TimerSet(True, 0), WrongType, "timer-set: timer must be an int, not bool"),
    (lambda: TimerSet(0), TypeError, "missing 1 required positional argument: 'interval'"),
    (lambda: Print("hi"), WrongType, "print: data must be bytes, not str"),
    (lambda: Print(bytes(65)), BadCall, "print: data has 65 bytes; at most 64 are allowed"),
    (lambda: Post(4, 140, "hi"), WrongType, "post: payload must be None, an int or bytes, not str"),
    (lambda: Post(4, 140, bytes(128)), BadCall, "post: payload has 128 bytes; at most 127 are allowed"),
    (lambda: Post(4, 140, 2**32), BadCall, "post: payload is 4294967296; 0 to 4,294,967,295 is allowed"),
    (lambda: Call(), WrongType, "Call is not a call itself"),
    (lambda: Call.parse(5), WrongType, "the words of a call must be a str, not int"),
    (lambda: Call.parse([]), WrongType, "the words of a call must be a str, not list"),
    (lambda: Call.parse(""), BadCall, "'': no call ''"),
    (lambda: Call.parse("wait\n"), BadCall, "'wait\\n': no call 'wait\\n'"),
    (lambda: Call.parse("print 0"), BadCall, "'print 0': 0 is no hex of at most 64 bytes"),
    (lambda: Call.parse("\ud800"), BadCall, "'\\ud800': no call '\\ud800'"),
    (lambda: Call.parse("wait \ud800"), BadCall, "'wait \\ud800': more words than the call takes: \\ud800"),
    (lambda: Call.parse("post 4 140 x-"), BadCall, "'post 4 140 x-': x- is no number from 0 to 4294967295"),
    (lambda: Call.parse("kill \ud800"), BadCall, "'kill \\ud800': \\ud800 is no number from 0 to 255"),
    (lambda: Call.parse("kill 4 5"), BadCall, "'kill 4 5': more words than the call takes: 5"),
    # Transcripts and scenarios.
    (lambda: Transcript(5), WrongType, "a transcript must be a str or bytes, not int"),
    (lambda: list(Transcript("> tick 1\n4 nowhere 5 -> wait\n")), BadTranscript,
     "line 2 is not a line of a transcript: 4 nowhere 5 -> wait"),
    (read("mmem 8\nmmem 8\n"), BadScenario, "line 2: mmem is given twice"),
    (read("quiet\ntick 1\nquiet\n"), BadScenario, "line 3: quiet is given twice"),
    (read("ends halted\nends halted\n"), BadScenario, "line 2: ends is given twice"),
    (read("== one\ntick 1\n== two\n== one\n"), BadScenario, "line 4: two runs have the name one"),
    (read("== \n"), BadScenario, "line 1: a run has no name"), (read("==\n"), BadScenario, "line 1: a run has no name"),
    (read("app hello\r\n"), BadScenario, "line 1: the line ends with byte 13, as lines of Windows do"),
    (read("\ufeffapp hello\n"), BadScenario, "line 1: the file begins with a byte order mark"),
    (read("app hel\0lo\n"), BadScenario, "line 1: there is a byte 0 in the line"),
    (read("#\n app hello\n"), BadScenario, "line 2: the line begins with a space"),
    (read("app\thello\n"), BadScenario, "line 1: there is a tab in the line"),
    (read("app hello\ntick  1\n"), BadScenario, "line 2: two spaces stand side by side"),
    (read("app hello \n"), BadScenario, "line 1: the line ends with a space"),
    (read("calls wait,wait\n"), BadScenario, "line 1: there is no space after a comma"),
    (read("calls wait , wait\n"), BadScenario, "line 1: there is a space before a comma"),
    (read("calls wait, \n"), BadScenario, "line 1: there is no call after the last comma"),
    (read("at 5\nat 3\n"), BadScenario, "line 2: the clock is at 5 already"),
    (read("at 007\n"), BadScenario, "line 1: 007 is no clock"),
    (read("at 4294967296\n"), BadScenario, "line 1: the clock goes on by at most 4294967295 ticks at once"),
    (read("times 1000001 tick 1\n"), BadScenario, "line 1: 1000001 is no number from 1 to 1000000"),
    (read("at +7\n"), BadScenario, "line 1: +7 is no clock"),
    (lambda: toarmuts.read_scenarios("tock 5\n"), BadScenario, "line 1: unknown word tock"),
    (read("tick 1\n\udc80\n"), BadScenario, "line 2: a text must be text in UTF-8, which '\\udc80' is not"),
    (lambda: toarmuts.read_scenarios(b"tick 5\n"), WrongType, "scenarios are read from the text of a file, a str, not bytes"),
    (lambda: toarmuts.run([]).scenario(name="a\nb"), BadScenario, "a run's name must have no line end: 'a\\nb'"),
    (lambda: toarmuts.run([]).scenario(name=""), BadScenario, "a run's name is empty"),
    (lambda: toarmuts.run([]).scenario(name="\ud800"), BadScenario, "a name or a comment must be text in UTF-8, which '\\ud800'"),
    (lambda: toarmuts.run([]).scenario(comment="\ud800"), BadScenario, "a name or a comment must be text in UTF-8"),
    (lambda: toarmuts.run([]).scenario(name=5), WrongType, "a run's name must be a str or None, not int"),
    (lambda: toarmuts.first_difference("", None), WrongType, "what is compared must be a str, bytes, Transcript or Run, not NoneType"),
    (lambda: toarmuts.run([]).difference(["> tick 1"]), WrongType, "what is compared must be a str, bytes, Transcript or Run, not list"),
    (lambda: Coverage().add("> tick 1"), WrongType, "what is counted must be a Run, Mote or Transcript, not str"),
    (lambda: Script().at(2**32), BadInput, "at 4294967296: the clock is at 0, and goes on by at most 4,294,967,295 ticks at once"),
    # What a member, a place or a count may not be.
    (lambda: Event("INIT"), WrongType, "the code of an event must be an int from 0 to 255, not 'INIT'"),
    (lambda: Event(300), WrongType, "the code of an event must be an int from 0 to 255, not 300"),
    (lambda: Event(True), WrongType, "the code of an event must be an int from 0 to 255, not True"),
    (lambda: Event(140, "on"), WrongType, "the payload of an event must be None, bytes or an int from 0 to 4,294,967,295, not 'on'"),
    (lambda: Reply("done"), WrongType, "the kind of a reply must be a ReplyKind, not 'done'"),
    (lambda: Callback(None), WrongType, "a callback timer must be an int from 0 to 255, not None"),
    (lambda: toarmuts.run(["hello"]).transcript.turns(99), WrongType, "there is no process 99; a mote has 4 to 19"),
    (lambda: toarmuts.run(["hello"]).printed(0), WrongType, "there is no process 0; a mote has 4 to 19"),
    (lambda: Script({"tick 1", "tick 2"}), WrongType, "the lines of a script must be a list, not set"),
    (lambda: Script({"tick 1": 1}), WrongType, "the lines of a script must be a list, not dict"),
    (lambda: Transcript("", lines_before=1.5), WrongType, "lines_before must be an int of at least 0, not 1.5"),
    (lambda: Transcript("", clock_before="x"), WrongType, "clock_before must be an int of at least 0, not 'x'"),
    (lambda: Transcript("", clock_before=-1), WrongType, "clock_before must be an int of at least 0, not -1"),
    # A mote in hand.
    (lambda: Mote().at(2**32), BadInput, "at 4294967296: the clock is at 0, and goes on by at most 4,294,967,295 ticks at once"),
    (lambda: Mote().at("5"), WrongType, "clock must be an int, not str"),
    (lambda: Mote("blink"), WrongType, "applications must be a list: ['blink']"),
    (lambda: Mote([], mmem=2), BadSizes, "mmem is 2; a multiple of 4 from 4 to 65,536 is allowed"),
    (lambda: Mote(["hello"] * 3, quota=2048), BadSizes, "quota is 2048; 4 of them (3 applications and the frames) exceed mmem, which is"),
    (lambda: Mote(options=Options(quiet=True)), toarmuts.MoteError, "a mote in hand is never quiet"),
    (lambda: Mote(["hello"]).application("4"), WrongType, "process must be an int, not str"),
    (lambda: Mote(["hello"]).application(5), WrongType, "there is no process 5; there are 4 to 4"),
    (lambda: Mote().serial_text("\udc80"), BadInput, "a line must be text in UTF-8, which '\\udc80' is not"),
    (lambda: Mote().tick(-1), BadInput, "tick -1: 0 to 4,294,967,295 is allowed"),
    (lambda: Mote().frame(b""), BadInput, "frame of 0 bytes: 1 to 127 are allowed"),
    (lambda: Mote().feed("# \udc80"), BadInput, "a line of a script must be text in UTF-8, which '\\udc80' is not"),
    (lambda: Mote().feed("tick 01"), BadInput, "'tick 01' is not a line of a script"),
    (lambda: Mote().run("tick 1\n\ntikc 5\n"), BadInput, "'tikc 5' is not a line of a script (line 3)"),
    (lambda: toarmuts.run(["hello"]).printed("4"), WrongType, "a process must be an int or None, not str"),
    (lambda: toarmuts.run(["hello"]).transcript.turns(True), WrongType, "a process must be an int or None, not bool"),
    (lambda: copy.copy(Mote()), toarmuts.MoteError, "a mote in hand can't be copied or pickled; its run, `so_far()`, can"),
    (lambda: copy.deepcopy(Mote()), toarmuts.MoteError, "a mote in hand can't be copied or pickled"),
    (lambda: pickle.dumps(Mote()), toarmuts.MoteError, "a mote in hand can't be copied or pickled"),
    (lambda: Mote().submit(Wait()), toarmuts.MoteError, "no turn awaits a call"),
    (lambda: Mote().submit("wait"), WrongType, "submit takes a Call, not str"),
    (lambda: "tick" in toarmuts.run(["hello"]).transcript, WrongType, "a transcript has entries: look for a text in its data"),
    (lambda: b"tick" in Transcript(""), WrongType, "a transcript has entries: look for a text in its data"),
    # Pictures, and cases of campaigns.
    (lambda: toarmuts.run([]).svg(first="5"), WrongType, "first must be an int or None, not str"),
    (lambda: toarmuts.run([]).svg(last=True), WrongType, "last must be an int or None, not bool"),
    (lambda: toarmuts.run([]).svg(first=-1), BadInput, "first is -1; a clock from 0 to 18,446,744,073,709,551,615 is allowed"),
    (lambda: toarmuts.run([]).svg(last=2**64), BadInput, "last is 18446744073709551616; a clock from 0 to"),
    (lambda: make_case("echo"), WrongType, "the applications of a case must be a list, not str"),
    (lambda: make_case(None), WrongType, "the applications of a case must be a list, not NoneType"),
    (lambda: make_case(["echo"], "tick 1"), WrongType, "the lines of a script must be a list, not str"),
    (lambda: make_case(["echo"], b"tick 1"), WrongType, "the lines of a script must be a list, not bytes"),
    (lambda: make_case(["echo"], 5), WrongType, "the lines of a script must be a list, not int"),
]


@pytest.mark.parametrize("use, words", [
    (lambda: toarmuts.Answer, "module 'toarmuts' has no attribute 'Answer': it is now 'Reply'"),
    (lambda: Mote().answer(Wait()), "Mote has no attribute 'answer': it is now 'submit'"),
    (lambda: Mote().text("on"), "Mote has no attribute 'text': it is now 'serial_text'"),
    (lambda: Script().text("on"), "Script has no attribute 'text': it is now 'serial_text'"),
    (lambda: toarmuts.run(["hello"]).transcript[0].answer, "Turn has no attribute 'answer': it is now 'reply'"),
    (lambda: toarmuts.run(["hello"]).transcript[0].answered_in, "Turn has no attribute 'answered_in': it is now 'replied_in'"),
    (lambda: Mote().frob, "Mote has no attribute 'frob'"),
])
def test_names_of_earlier_versions_are_told(use, words):
    with pytest.raises(AttributeError) as caught:
        use()
    assert str(caught.value) == words


def test_an_earlier_name_that_is_imported():
    with pytest.raises(ImportError, match="^module 'toarmuts' has no name 'Answer': it is now 'Reply'$"):
        from toarmuts import Answer  # noqa: F401
    with pytest.raises(ImportError, match="cannot import name 'Frob'"):
        from toarmuts import Frob  # noqa: F401


@pytest.mark.parametrize("make, fault, reason", WRONG, ids=[reason[:60] for _, _, reason in WRONG])
def test_wrong_arguments_are_told(make, fault, reason):
    with pytest.raises(fault, match=re.escape(reason)):
        make()


def test_as_much_as_is_allowed():
    # docs/transcript.md: a line of a script has at most 1,024 bytes.
    longest = Script().comment("x" * 1022).comment("\u00e9" * 511).tick(1)
    assert [len(line.encode()) for line in longest] == [1024, 1024, 6] and toarmuts.run([], longest).text == "> tick 1\n"
    assert make_case(["echo"], Script().tick(1)) == make_case(("echo",), ["tick 1"])
    assert toarmuts.run(["hello"] * 16).finished and toarmuts.run([[Wait()] * 128]).finished
    assert read("at 4294967295\n")()[0].clock == 2**32 - 1 and read("times 1000000 tick 0\n")()[0].clock == 0

    def prints():
        for _ in range(127):
            yield Print(b"a")

    assert "calls 127 print 61, exit\n" in toarmuts.run([prints]).scenario()


def test_faults_are_of_this_package_and_of_pythons_kinds():
    for kind, base in ((BadSizes, ValueError), (NoApplication, ValueError), (BadCall, ValueError), (WrongType, TypeError)):
        assert issubclass(kind, toarmuts.ToarmutsError) and issubclass(kind, base)


def test_which_application_and_call():
    with pytest.raises(NoApplication) as caught:
        toarmuts.run(["hello", "calls wait, wait, kill"])
    assert (caught.value.number, caught.value.process, caught.value.call, caught.value.why) == (2, 5, 3, Reason.FEW_WORDS)


def test_the_first_bad_size_is_told():
    with pytest.raises(BadSizes) as caught:
        toarmuts.run([], heap=6, header=6, quota=8192)
    assert (caught.value.size, caught.value.why) == ("heap", Reason.HEAP)


def reason_of(mmem, heap, header, quota, applications):
    """Why no mote has these sizes, by README.md."""
    if mmem % 4 or not 4 <= mmem <= 65536:
        return Reason.MMEM
    if heap % 4 or not 20 <= heap <= 65536:
        return Reason.HEAP
    if header not in (16, 8):
        return Reason.HEADER
    if quota is not None and (quota % 4 or not 4 <= quota <= 65536):
        return Reason.QUOTA
    return Reason.ALL_QUOTAS if quota is not None and quota * (applications + 1) > mmem else Reason.NONE


def test_sizes_are_refused_for_the_first_reason():
    """For all small sizes, sizes about each bound, and quotas of several applications."""
    from toarmuts.library import BAD_SIZES, library

    def check(options, applications):
        outcome = library().run(options.configuration(), b"hello\n" * applications, b"")
        reason = reason_of(options.mmem, options.heap, options.header, options.quota, applications)
        assert (outcome.why, outcome.status == BAD_SIZES) == ((reason, 0, 0), reason != Reason.NONE), (options, applications)

    for mmem in [*range(0, 30), 65532, 65536, 65540]:
        for quota in (None, 0, 3, 4, 8, 21848, 65536, 65540, 2**31):
            for applications in (0, 1, 2, 16):
                check(Options(mmem=mmem, quota=quota), applications)
    for heap in (0, 16, 19, 20, 21, 24, 65535, 65536, 65540):
        for header in (0, 8, 12, 16, 20):
            check(Options(heap=heap, header=header, quota=8192), 0)


def spoilt(chance, text):
    """A text with a character or two changed, left out or put in."""
    for _ in range(chance.randrange(3)):
        place = chance.randrange(len(text) + 1)
        new = chance.choice(["", "0", "9", " ", ",", ", ", "x", "-", "F", "g", "1234567890"])
        text = text[:place] + new + text[place + chance.randrange(2):]
    return text


# Why a list is none, as its reader in Python tells it.
REASONS = {"no call ": Reason.CALL, "lacks a word": Reason.FEW_WORDS, "more words": Reason.MANY_WORDS, "is no number": Reason.NUMBER,
           "is no hex": Reason.HEX, "at most 128 calls": Reason.MANY_CALLS}


def why_no_list(text):
    """The reason, and the place of the call, by the reader in Python."""
    try:
        read_calls(text)
    except BadCall as fault:
        reason = next(reason for words, reason in REASONS.items() if words in fault.reason)
        return reason, (fault.place or 1) - 1
    return Reason.NONE, 0


def test_lists_are_refused_for_the_first_reason():
    """Lists of random calls as text, with characters spoilt, behind other applications."""
    from toarmuts.library import NO_APPLICATION, library

    usual, refused = Options().configuration(), set()
    for seed in range(3000):
        chance = random.Random(seed)
        text = spoilt(chance, ", ".join(str(random_call(chance)) for _ in range(chance.randrange(1, 4))))
        before = chance.randrange(16)
        outcome = library().run(usual, b"hello\n" * before + f"calls {text}\n".encode(), b"")
        reason, call = why_no_list(text)
        if reason is Reason.NONE:
            assert outcome.status != NO_APPLICATION, text
        else:
            assert (outcome.status, outcome.line, outcome.why) == (NO_APPLICATION, before + 1, (reason, before, call)), text
        refused.add(reason)
    assert refused == {Reason.NONE, *REASONS.values()} - {Reason.MANY_CALLS}


@pytest.mark.parametrize("text, reason, call", [
    ("frob, kill", Reason.CALL, 0), ("wait, kill, frob", Reason.FEW_WORDS, 1), ("wait, wait, kill 4 5", Reason.MANY_WORDS, 2),
    ("exit, 2 poll x", Reason.NUMBER, 1), ("0 wait", Reason.NUMBER, 0), ("129 wait", Reason.NUMBER, 0), ("128 wait", Reason.NONE, 0),
    ("print 6", Reason.HEX, 0), ("wait, ", Reason.CALL, 1), (", wait", Reason.CALL, 0), ("wait,exit", Reason.CALL, 0), ("", Reason.NONE, 0),
    ("128 wait, exit", Reason.MANY_CALLS, 0), ("128 wait, exit, frob", Reason.CALL, 2), ("poll 1, poll 256, poll", Reason.NUMBER, 1),
])
def test_which_part_of_a_list_it_is(text, reason, call):
    from toarmuts.library import library

    outcome = library().run(Options().configuration(), f"blink\ncalls {text}".encode(), b"")
    assert (outcome.status == 17, outcome.why) == (reason != Reason.NONE, (reason, int(reason != Reason.NONE), call))


def test_what_has_no_place():
    """Neither a run, nor one line too many, nor what is no text has a reason besides; a name has no call."""
    from toarmuts.library import library

    usual = Options().configuration()
    rows = ((b"hello", b"", 0, (0, 0, 0)), (b"hello", b"tock\n", 2, (0, 0, 0)), (b"\xff", b"", 16, (0, 0, 0)),
            (b"hello\n" * 17, b"", 18, (0, 16, 0)), (b"hello\nnobody", b"", 17, (6, 1, 0)))
    for applications, script, status, why in rows:
        outcome = library().run(usual, applications, script)
        assert (outcome.status, outcome.why) == (status, why), applications


def test_lines_have_no_form_exactly_where_the_library_finds_none():
    """Lines of scripts, with characters spoilt, and the longest ones."""
    from toarmuts.library import library

    usual, none = Options().configuration(), 0
    lines = [spoilt(random.Random(seed), random_line(random.Random(seed), spoilt=1)) for seed in range(3000)]
    for line in [*lines, "#" * 1024, "#" * 1025, "#\u00e9", "tick 4294967295", "tick 4294967296", "serial 0A", " ", "\r", "tick 1\r"]:
        status = library().run(usual, b"", line.encode() + b"\n").status
        assert (status == 2) == (not has_form(line)), line
        none += status == 2
    assert none > 300


@pytest.mark.parametrize("make", [
    run([], mmem=5), run(["hello", "calls wait, kill"]), run(["hello"] * 17), run(["hello"], 5), run([lambda: (1 // 0 for _ in [0])]),
    lambda: toarmuts.run([], "frob\n").check(), lambda: TimerSet(0, 2**32), lambda: Call.parse("frob"), lambda: Mote().feed("frob"),
    lambda: Mote().submit(Wait()), lambda: toarmuts.read_scenarios("frob"), lambda: list(Transcript("frob")),
    raiser(toarmuts.OutOfMemory("memory was refused")), raiser(toarmuts.LibraryError("the library isn't there")),
    raiser(toarmuts.NoPicture("no program")), raiser(toarmuts.NotInPython("rows")),
])
def test_what_is_raised_can_be_pickled(make):
    """It comes out of a pickle as it was, whatever its class is made of."""
    with pytest.raises(toarmuts.ToarmutsError) as raised:
        make()
    again = pickle.loads(pickle.dumps(raised.value))
    assert (type(again), str(again), again.args) == (type(raised.value), str(raised.value), raised.value.args)
    assert {name: str(member) for name, member in vars(again).items()} == {name: str(member) for name, member in vars(raised.value).items()}


def raises(mmem):
    """What a worker does in another process."""
    return toarmuts.run(["hello"], mmem=mmem).status


def test_what_is_raised_in_another_process_is_told_here():
    # No fork: a thread of pytest's own may hold a lock just then.
    with concurrent.futures.ProcessPoolExecutor(1, multiprocessing.get_context("spawn")) as pool:
        assert pool.submit(raises, 8).result(timeout=300) == 0
        with pytest.raises(BadSizes) as raised:
            pool.submit(raises, 6).result(timeout=300)
    assert (raised.value.size, raised.value.why) == ("mmem", Reason.MMEM)


def test_calls_cannot_be_changed():
    with pytest.raises(AttributeError):
        TimerSet(0, 1).timer = 5


class Number:
    """An int as those of numpy are: no int of Python's, and taken for one."""

    def __init__(self, number):
        self.number = number

    def __index__(self):
        return self.number


def test_numbers_of_other_kinds_are_taken():
    """What has __index__, as Python's own calls take it."""
    five, four = Number(5), Number(4)
    assert Script().tick(five).at(Number(9)).lines == ("tick 5", "tick 4") and Script().tick(five).clock == 5
    assert TimerSet(Number(0), five) == TimerSet(0, 5) and str(Post(four, Number(140), five)) == "post 4 140 5"
    assert Options(mmem=Number(64), quota=four) == Options(mmem=64, quota=4)
    run = toarmuts.run(["hello"], mmem=Number(64))
    assert run.options.mmem == 64 and run.printed(four) == b"hi\n" and len(run.transcript.turns(four)) == 2
    mote = Mote(["hello", Table({Number(129): [Print(b"a")]})])
    assert [str(entry) for entry in mote.tick(five)] == ["> tick 5"] and mote.at(Number(7)).inputs()[0].ticks == 2
    assert mote.application(five) is mote.application(5) and mote.booted.printed(5) == b"a"


class Arrays:
    """What has __index__ and raises, as an array of numpy's."""

    def __index__(self):
        raise TypeError("only size-1 arrays can be converted")


def test_arrays_are_no_numbers():
    with pytest.raises(WrongType, match="ticks must be an int, not Arrays"):
        Script().tick(Arrays())


class Text(toarmuts.Print):
    """A user's print that takes text."""

    def __init__(self, text):
        super().__init__(text.encode())


def test_a_users_class_changes_nothing_for_readers_of_transcripts():
    made = type("Print", (toarmuts.Print,), {"__init__": lambda self, text: toarmuts.Print.__init__(self, text.encode())})
    for kind in (made, Text):
        run = toarmuts.run([[kind("hi")], "hello"])
        assert run.printed(4) == b"hi" and run.transcript[0].call == kind("hi") == Print(b"hi") and type(run.transcript[0].call) is Print
        assert "print (data 'hi')" in run.transcript[0].explain() and type(Call.parse("print 6869")) is Print
        assert (kind.word, kind.kind, kind("hi").packed()) == (Print.word, Print.kind, Print(b"hi").packed())
        assert Call.by_word["print"] is Print
    assert toarmuts.run([lambda: (call for call in [Text("hi")])]).printed() == b"hi"
    twin = copy.deepcopy(pickle.loads(pickle.dumps(Text("hi"))))
    assert type(twin) is Text and twin == Text("hi") and twin.data == b"hi"


def test_a_users_class_may_have_more_members():
    @dataclasses.dataclass(frozen=True, eq=False)
    class Beep(toarmuts.TimerSet):
        loud: bool = True

    beep = Beep(1, 5, loud=False)
    assert str(beep) == "timer-set 1 5" and beep.arguments == (1, 5) and not beep.loud and beep == TimerSet(1, 5)


@pytest.mark.parametrize("name", ["Frob", "Print"])
def test_a_class_of_no_call_is_refused(name):
    with pytest.raises(WrongType, match=f"{name} is not a call's class: make it a subclass of one, as of toarmuts.Print"):
        type(name, (Call,), {})
    assert Call.by_word["print"] is Print


class TurnsLater:
    """Its objects have a turn, and it has none."""

    def __init__(self):
        self.turn = lambda stimulus: Print(b"a") if stimulus == Event(129) else Wait()


def test_a_class_whose_objects_have_a_turn_is_an_application():
    assert toarmuts.run([TurnsLater]).printed() == toarmuts.run([TurnsLater()]).printed() == b"a"


class Mute(Exception):
    """Can't be shown."""

    def __str__(self):
        raise RuntimeError("no str")

    __repr__ = __str__


def test_a_factory_whose_exception_cannot_be_shown_is_told():
    with pytest.raises(NoApplication, match=r"fail\(\) raised Mute, whose str raises RuntimeError"):
        toarmuts.run([raiser(Mute())])
