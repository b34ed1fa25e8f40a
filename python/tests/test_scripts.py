"""Scripts that grow call by call, and long files: what they have, and that their cost grows with their lines alone."""
import copy
import gc
import pickle
import threading
import time
import weakref

import pytest

import toarmuts
from toarmuts import BadScenario, BadTranscript, Script, Transcript, read_scenarios


def test_scripts_go_on_from_one_beginning():
    beginning = Script().tick(1).serial_text("a")
    ticks, frames, same = beginning.tick(2), beginning.frame(b"\x01").tick(3), beginning.tick(2)
    assert beginning.lines == ("tick 1", "serial 610a") and len(beginning) == 2 and beginning.clock == 1
    assert ticks.lines == (*beginning.lines, "tick 2") and ticks.clock == 3
    assert frames.lines == (*beginning.lines, "frame 01", "tick 3") and list(frames) == list(frames.lines)
    assert ticks == same != frames and hash(ticks) == hash(same)
    assert beginning.raw("tick 7").comment("end").clock == 8
    for twin in copy.copy(ticks), copy.deepcopy(ticks), pickle.loads(pickle.dumps(ticks)):
        assert twin == ticks and twin.clock == 3 and twin.tick(4).lines == (*ticks.lines, "tick 4")
    assert ticks.lines == (*beginning.lines, "tick 2")


def test_scripts_are_joined_and_have_bytes():
    whole = Script().tick(1) + Script().tick(2).serial_text(b"\xff")
    assert whole.lines == ("tick 1", "tick 2", "serial ff0a") and whole.clock == 3
    assert toarmuts.run([], bytearray(b"tick 1\n")).text == toarmuts.run([], memoryview(b"tick 1\n")).text == "> tick 1\n"
    assert [scenario.script for scenario in read_scenarios("times 3 tick 5\nat 20\n")] == ["tick 5\n" * 4]


def test_threads_may_go_on_from_one_script():
    beginnings = [Script().tick(0) for _ in range(2000)]
    found = []

    def go_on(ticks):
        found.extend(script.tick(ticks).lines == ("tick 0", f"tick {ticks}") for script in beginnings)

    threads = [threading.Thread(target=go_on, args=(ticks,)) for ticks in range(4)]
    for thread in threads:
        thread.start()
    for thread in threads:
        thread.join()
    assert len(found) == 8000 and all(found)


class Line(str):
    """A line that tells whether it is still there."""


def test_a_script_keeps_few_lines_of_one_that_goes_on_from_it():
    """All of its own, and at most 256 of the other's, however long that was."""
    left, own = weakref.WeakSet(), weakref.WeakSet()

    def made(kept, text):
        line = Line(text)
        kept.add(line)
        return line

    for before in (0, 1, 255, 256, 257, 1000):
        left.clear()
        own.clear()
        beginning = Script()
        for number in range(before):
            beginning = beginning.raw(made(own, f"tick {number}"))
        longer = beginning
        for number in range(2000):
            longer = longer.raw(made(left, f"tick {number}"))
        assert len(longer) == before + 2000 and len(left) == 2000
        del longer
        gc.collect()
        assert len(own) == before and len(left) <= 256, before
        assert beginning.lines == tuple(f"tick {number}" for number in range(before)) and len(beginning) == before


def test_scripts_go_on_from_each_place_of_a_long_one():
    """Each goes its own way, and changes none of the others."""
    scripts = [Script(["tick 1", "# a"])]
    for number in range(800):
        scripts.append(scripts[-1].tick(number))
    whole = scripts[-1].lines
    for place in (0, 1, 253, 254, 255, 256, 257, 511, 512, 800):
        others = [scripts[place].frame(bytes([number])).tick(5) for number in range(1, 3)]
        for number, other in enumerate(others, 1):
            assert other.lines == (*whole[:2 + place], f"frame {number:02x}", "tick 5") and len(other) == 4 + place
            assert other.clock == scripts[place].clock + 5 == 6 + sum(range(place))
            assert pickle.loads(pickle.dumps(other)) == other == copy.deepcopy(other)
    assert all(script.lines == whole[:2 + place] for place, script in enumerate(scripts))


def test_long_scripts_and_files():
    # Each would take minutes if a line cost as much as all before it.
    began, script = time.process_time(), Script()
    for _ in range(200_000):
        script = script.tick(1)
    assert (len(script), script.clock, str(script).count("\n")) == (200_000, 200_000, 200_000)
    [scenario] = read_scenarios("app hello\n" + "tick 1\n" * 200_000 + "4 answer done -> wait\n" * 100_000)
    assert (scenario.script, scenario.clock) == (str(script), 200_000)
    assert scenario.transcript == "4 answer done -> wait\n" * 100_000
    assert time.process_time() - began < 30


def test_a_million_lines():
    run = toarmuts.run(["calls"], "tick 1\n" * 1_000_000)
    assert run.finished and len(run.transcript) == 1_000_001 and run.transcript[-1].clock == 1_000_000


def test_a_run_behind_one_that_took_much_room():
    assert len(toarmuts.run([], "tick 1\n" * 1_900_000).transcript.data) == 17_100_000
    assert toarmuts.run(["hello"]).text == "4 synch 129 - -> print 68690a\n4 answer done -> wait\n"


def test_half_a_surrogate_pair_is_told():
    with pytest.raises(BadScenario, match="line 2: a text must be text in UTF-8"):
        read_scenarios("app hello\ntext \udc80\n")
    with pytest.raises(BadTranscript, match="line 1 is not a line of a transcript"):
        list(Transcript("\ud800\n"))
