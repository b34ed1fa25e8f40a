"""A run that is made while another one is under way changes nothing of that: by a signal's handler, a tracer or an application."""
import itertools
import os
import pathlib
import signal
import subprocess
import sys
import time

import pytest

import toarmuts
from toarmuts import ApplicationError, Mote, NoApplication, Print, Reason, TimerReset, TimerSet, Wait
from toarmuts.library import HERE, library

PACKAGE = str(pathlib.Path(toarmuts.__file__).parent)
SCRIPT = "tick 10\n" * 5


def beats():
    yield TimerSet(0, 10)
    while True:
        yield Wait()
        yield Print(b"beat")
        yield TimerReset(0)


def refused():
    """What the library tells of a name that is none."""
    with pytest.raises(NoApplication) as caught:
        toarmuts.run(["hello", "blink", "frob"])
    return str(caught.value), caught.value.number, caught.value.why


def in_hand():
    with Mote(["echo", beats]) as mote:
        mote.serial_text("a")
        mote.tick(10)
        return mote.transcript.data


WORKS = [lambda: toarmuts.run(["blink"], SCRIPT).transcript.data, lambda: toarmuts.run([beats, "echo"], SCRIPT).transcript.data,
         lambda: [str(entry.reply) for entry in toarmuts.run(["relay"], "frame 0102\n").transcript.turns()], refused, in_hand]
IDS = ["by the library", "step by step", "entries", "refused", "in hand"]


def others():
    """What is done in between: runs of other lengths and ends, by the library and step by step."""
    toarmuts.run(["hello"])
    toarmuts.run(["echo"], "frob\n")
    toarmuts.run([beats], "tick 10\n")
    with pytest.raises(toarmuts.BadSizes):
        toarmuts.run(["hello"], mmem=5)


def by_profile(do):
    """Does that at each event of a profiler: before and behind each call."""
    def profile(frame, what, argument):
        do()

    return sys.setprofile, profile


def by_trace(do):
    """Does that before each instruction of the package."""
    def trace(frame, what, argument):
        if not frame.f_code.co_filename.startswith(PACKAGE):
            return None
        frame.f_trace_lines, frame.f_trace_opcodes = False, True
        if what == "opcode":
            do()
        return trace

    return sys.settrace, trace


def watched(work, how, do):
    """What comes of work while that is done at each place."""
    before = sys.gettrace()
    install, function = how(do)
    install(function)
    try:
        return work()
    finally:
        sys.setprofile(None)
        sys.settrace(before)


def once(place):
    """Does other runs at one place."""
    left = itertools.count(-place)

    def do():
        if next(left) == 0:
            install = sys.setprofile if sys.getprofile() else sys.settrace
            install(None)
            others()

    return do


@pytest.mark.parametrize("work", WORKS, ids=IDS)
@pytest.mark.parametrize("how", [by_profile, by_trace])
def test_at_each_place(work, how):
    """Of a work with many places at some 300 of them."""
    wanted, places = work(), itertools.count()
    watched(work, how, lambda: next(places))
    count = next(places)
    assert count > 30
    for place in range(0, count, count // 300 + 1):
        assert watched(work, how, once(place)) == wanted, place


def test_in_a_signals_handler():
    wanted, printed, wrong = toarmuts.run(["blink"], SCRIPT).transcript.data, [], 0

    def handler(*_):
        printed.append(toarmuts.run(["hello"]).printed())
        signal.setitimer(signal.ITIMER_REAL, 0.0005)

    before = signal.signal(signal.SIGALRM, handler)
    try:
        signal.setitimer(signal.ITIMER_REAL, 0.0005)
        ends = time.monotonic() + 300
        while len(printed) < 1000 and time.monotonic() < ends:
            wrong += toarmuts.run(["blink"], SCRIPT).transcript.data != wanted
    finally:
        signal.setitimer(signal.ITIMER_REAL, 0)
        signal.signal(signal.SIGALRM, before)
    assert wrong == 0 and len(printed) >= 1000 and set(printed) == {b"hi\n"}


IMPORTS = """import sys, toarmuts
before = set(sys.modules)
def beats():
    yield toarmuts.Print(b"a")
    yield None
toarmuts.run(["hello", "calls wait"], "tick 10\\n").printed()
for applications in (["frob"], [beats, "blink"]):
    try:
        toarmuts.run(applications)
    except toarmuts.ToarmutsError:
        pass
with toarmuts.Mote(["echo"]) as mote:
    # That one is part of the interpreter; weakref imports it.
    print(mote.serial_text("a").printed().decode(), sorted(set(sys.modules) - before - {"atexit"}))
"""


def test_no_run_imports_anything():
    """Else a run within the first one, as of a signal's handler, would find a module that is half imported."""
    done = subprocess.run([sys.executable, "-c", IMPORTS], capture_output=True, text=True, check=False)
    assert (done.returncode, done.stdout) == (0, "a []\n"), done.stderr


def test_in_an_application():
    def nests(depth):
        def application():
            if depth:
                run = toarmuts.run([nests(depth - 1), "hello"])
                assert run.printed(5) == b"hi\n"
            yield Print(b"%d" % depth)
        return application

    assert toarmuts.run([nests(20)]).printed() == b"20"


def test_what_a_handler_raises_leaves_a_thread_its_runs():
    """An exception in place of a result: the next run has a room of its own."""
    class Gone(Exception):
        pass

    def profile(frame, what, argument):
        if what == "c_return" and frame.f_code.co_filename.startswith(PACKAGE) and next(left) == 0:
            raise Gone

    for place in range(60):
        left = itertools.count(-place)
        sys.setprofile(profile)
        try:
            toarmuts.run(["blink"], SCRIPT)
        except Gone:
            pass
        finally:
            sys.setprofile(None)
        assert toarmuts.run(["hello"]).text == "4 synch 129 - -> print 68690a\n4 answer done -> wait\n"


def test_the_reason_comes_with_its_run():
    """It is no state of the library's."""
    outcome = library().run((4096, 4096, 16, 0, 0, 0), b"hello\nfrob\n", b"")
    toarmuts.run(["hello"])
    assert (outcome.why.reason, outcome.application) == (Reason.NAME, 1) and not hasattr(library(), "why")


def test_an_application_that_fails_in_a_handler_is_that_handlers():
    def fails():
        raise KeyError("here")
        yield Wait()

    def handler(*_):
        with pytest.raises(ApplicationError, match="KeyError: 'here'"):
            toarmuts.run([fails])

    before = signal.signal(signal.SIGUSR1, handler)
    try:
        def signals():
            os.kill(os.getpid(), signal.SIGUSR1)
            yield Print(b"a")

        assert toarmuts.run([signals]).printed() == b"a"
    finally:
        signal.signal(signal.SIGUSR1, before)


@pytest.mark.skipif("TOARMUTS_BACKEND" in os.environ or "TOARMUTS_LIBRARY" in os.environ or library().backend == "ctypes"
                    or not any(HERE.glob("_library*.so")), reason="the package has one way to the library")
def test_the_same_by_ctypes():
    files = [__file__, __file__.replace("nested_runs", "stack")]
    done = subprocess.run([sys.executable, "-m", "pytest", "-q", "-p", "no:cacheprovider", *files],
                          env={**os.environ, "TOARMUTS_BACKEND": "ctypes"}, capture_output=True, text=True, check=False)
    assert done.returncode == 0, done.stdout[-2000:]
