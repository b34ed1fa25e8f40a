"""All worked runs come out, and files are read and written as docs/scenarios.md has it."""
import pickle
import random
import re
import subprocess

import pytest
from common import ROOT, random_application, random_options, random_script

import toarmuts
from toarmuts import BadScenario, BadSizes, Print, Run, Script, TimerSet, Wait, read_scenarios
from toarmuts.scenario import read_file

FILES = sorted([*(ROOT / "crates/scenario/data").glob("*.scenario"), *(ROOT / "examples").glob("*.scenario")])
RUNS = [pytest.param(scenario, id=f"{path.name}: {scenario.name}") for path in FILES for scenario in read_file(path)]
PROGRAM = ROOT / "crates/mote/out/mote"


@pytest.mark.parametrize("scenario", RUNS)
def test_comes_out_as_told(scenario):
    assert scenario.carry_out().fault is None


def test_there_are_as_many_as_the_pages_say():
    runs = sum(len(read_file(path)) for path in FILES if path.parent.name == "data")
    assert f"all {runs} worked runs" in (ROOT / "docs/tested.md").read_text()


@pytest.mark.parametrize("scenario", RUNS)
def test_is_the_same_once_written(scenario):
    try:
        found = scenario.run()
    except (BadSizes, toarmuts.TooManyApplications):
        return
    if len(found.transcript.data) > 100_000:
        return
    try:
        text = found.scenario(name="again", comment="once more")
    except BadScenario as fault:
        assert "not text" in str(fault)
        return
    again = read_scenarios(text)[0]
    assert again.carry_out().fault is None and again.run().transcript == found.transcript


def reasons():
    """Malformed lines and their reasons, as tests/test_scenario.py has them for the program."""
    text = (ROOT / "tests/tables/scenario_malformed.txt").read_text()
    table = re.search(r"^=== lines\n(.*?)^(?:===|\Z)", text, re.M | re.S)[1]
    return [tuple(line.replace("LONG", " " * 256).split("|")) for line in table.splitlines()]


@pytest.mark.parametrize("line, reason", reasons())
def test_has_the_programs_reasons(line, reason):
    with pytest.raises(BadScenario) as caught:
        read_scenarios(f"tick 7\n{line}\n")
    assert str(caught.value) == f"line 2: {reason}"


def test_more_reasons():
    for text, reason in (("last tick 1\ntick 2\n", "line 2: the script has ended with its last line"),
                         ("# above\ntick 1\n\n== one\n", "line 2: a line above the first run"),
                         ("# above\n\n== one\ntick 1\n== two\n\ntock\n", "line 7: unknown word tock")):
        with pytest.raises(BadScenario, match=re.escape(reason)):
            read_scenarios(text)


def test_the_difference_is_told():
    text = "app hello\ntick 1\ntick 2\n4 synch 129 - -> print 68690a\n4 answer done -> wait\n> tick 1\n> tick 4\n"
    fault = read_scenarios(text)[0].carry_out().fault
    assert fault is not None
    assert fault.split("\n")[:5] == ["line 4 of the transcript differs, at clock 1", "          4 synch 129 - -> print 68690a",
                                     "          4 answer done -> wait", "          > tick 1", "wanted:   > tick 4"]
    assert "found:    > tick 2" in fault and "the clock goes on by 2" in fault


def test_the_lines_before_a_difference_and_its_clock_are_told():
    ticks = [f"> tick {number}" for number in range(1, 6)]
    for place in range(5):
        wanted = "\n".join([*ticks[:place], "> tick 9", *ticks[place + 1:]])
        difference = toarmuts.first_difference(wanted, "\n".join(ticks))
        assert (difference.line, difference.clock) == (place + 1, sum(range(place + 1)))
        assert difference.before == tuple(ticks[max(0, place - 3):place])
    run = toarmuts.run(["hello"])
    difference = run.difference("4 synch 129 - -> wait\n")
    assert (difference.wanted, difference.found) == ("4 synch 129 - -> wait", "4 synch 129 - -> print 68690a")


def test_what_is_written_of_a_run(tmp_path):
    def waits():
        yield Print(b"a")
        for _ in range(3):
            yield Wait()
        yield Print(b"b")

    text = toarmuts.run([waits], "\ntick 1\n" + "serial 0a\n" * 3 + "last", heap=40).scenario(comment="one\n\ntwo", transcript=False)
    assert text == ("# one\n#\n# two\nheap 40\ncalls print 61, 3 wait, print 62, exit\n"
                    "script \ntick 1\nserial 0a\nserial 0a\nserial 0a\nlast last\n")
    assert toarmuts.run([]).scenario() == "ends finished\n"
    (tmp_path / "no.scenario").write_bytes(b"\xff")
    with pytest.raises(BadScenario, match="no.scenario: not text"):
        read_file(tmp_path / "no.scenario")
    assert read_scenarios("mmem 5\nends halted\n")[0].carry_out().fault.startswith("bad sizes: mmem is 5")
    assert read_scenarios("mmem 5\nends bad sizes\n")[0].carry_out().fault is None


def test_another_end_is_told():
    assert read_scenarios("ends halted\n")[0].carry_out().fault == "ended with: finished, and not: halted"


def test_an_end_of_the_transcript_is_told():
    difference = str(toarmuts.first_difference("> tick 1\n", "> tick 1\n> tick 2\n"))
    assert "wanted:   the transcript ends" in difference and "found:    > tick 2" in difference
    assert toarmuts.first_difference("> tick 1\n", b"> tick 1\n") is None


def test_forms_of_scripts_and_applications_are_the_same():
    wanted = toarmuts.run(["calls timer-set 0 5, wait, print 6869"], "tick 5\n").transcript
    for application in ([TimerSet(0, 5), Wait(), Print(b"hi")], ("timer-set 0 5", "wait", "print 6869")):
        for script in ("tick 5\n", b"tick 5\n", "tick 5", Script().tick(5), Script().at(5)):
            assert toarmuts.run([application], script).transcript == wanted


def test_ends():
    ends = [(toarmuts.run([], "tick 1\n"), "finished", None), (toarmuts.run([], "tick 1\nfrob\n"), "bad line 2", 2),
            (toarmuts.run(["clock-watcher"]), "halted", None), (toarmuts.run([], "#" * 1024 + "\n" + "\n" * 16_777_216), "too long", None)]
    for found, end, line in ends:
        assert (found.ended, found.line) == (end, line)
        assert found.end.value == end.split(" 2")[0] and found.status.name == found.end.name


def test_a_run_that_ended_otherwise_can_be_refused():
    assert toarmuts.run([]).check().finished
    with pytest.raises(toarmuts.RunEnded, match="the run ended with: bad line 1, 'frob'") as caught:
        toarmuts.run([], "frob").check()
    assert isinstance(caught.value.run, Run) and caught.value.run.text == "bad line 1\n"
    for script, words in (("tick 1\r\n", r"bad line 1, 'tick 1\\r'"), (b"\ntick 1\n\xff", "bad line 3, '\ufffd'")):
        with pytest.raises(toarmuts.RunEnded, match=words):
            toarmuts.run([], script).check()
    with pytest.raises(toarmuts.RunEnded, match="the run ended with: halted$"):
        toarmuts.run(["clock-watcher"]).check()


def test_a_run_can_be_refused_as_it_is_made():
    """A slip in a script would pass the test of what is printed."""
    assert toarmuts.run(["echo"], "serial 0a\n", check=True).finished
    for applications in (["echo"], [lambda: (Wait() for _ in range(9))]):
        with pytest.raises(toarmuts.RunEnded, match="the run ended with: bad line 2, 'serail 0a'") as caught:
            toarmuts.run(applications, "serial 6869\nserail 0a\n", check=True)
        assert caught.value.run.line == 2 and caught.value.run.transcript[-1].text == "bad line 2"
    with pytest.raises(toarmuts.RunEnded, match="halted"):
        toarmuts.run(["clock-watcher"], check=True)


def echo():
    """An application with a name of the mote's own."""
    yield Print(b"mine")


def test_an_application_in_python_is_never_taken_for_a_name():
    run = toarmuts.run([echo, "hello", [Wait()], Echoes], "serial 610a\n")
    assert run.applications == ("echo (in Python)", "hello", "calls wait", "Echoes") and repr(run).startswith("<Run of echo, hello")
    with pytest.raises(toarmuts.NoApplication, match="no application 'echo .in Python.'"):
        toarmuts.run(run.applications, run.script)


class Echoes:
    """Counts lines."""

    def __init__(self):
        self.lines = 0

    def turn(self, stimulus):
        self.lines += isinstance(stimulus, toarmuts.Event) and stimulus.code == toarmuts.EventCode.SERIAL_LINE
        return Print(b"%d" % self.lines) if isinstance(stimulus, toarmuts.Event) else Wait()


def test_a_run_can_be_made_again():
    for applications in ([echo, Echoes, "blink"], ["blink", [Print(b"a")]]):
        run = toarmuts.run(applications, "tick 10\nserial 610a\n", mmem=64)
        assert run.again().transcript == run.transcript and run.again().options == run.options
        assert run.again("tick 5").transcript == toarmuts.run(applications, "tick 5", mmem=64).transcript
        assert run.again(options=toarmuts.Options(mmem=8)).options.mmem == 8
    with pytest.raises(toarmuts.NoApplication, match="echo is an application in Python, which a pickle of its run leaves out"):
        pickle.loads(pickle.dumps(toarmuts.run([echo]))).again()


def test_a_transcript_longer_than_the_first_room():
    run = toarmuts.run(["blink"], "tick 10\n" * 20_000)
    assert run.transcript.data.count(b"\n") == 2 + 20_000 * 4 and run.text.endswith("wait\n")


@pytest.mark.skipif(not PROGRAM.exists(), reason="the program mote isn't built")
@pytest.mark.parametrize("seeds", [range(first, first + 100) for first in range(0, 1000, 100)], ids=str)
def test_random_runs_are_those_of_the_program(seeds):
    for seed in seeds:
        chance = random.Random(f"program/{seed}")
        names = [name for name in (random_application(chance) for _ in range(chance.randrange(6))) if isinstance(name, str)]
        script, options = random_script(chance), random_options(chance)
        try:
            run = toarmuts.run(names, script, options=options)
            wanted = run.status, run.transcript.data
        except BadSizes:
            wanted = 64, b""
        program = subprocess.run([PROGRAM, *options.words(), *names], input=script.encode(), capture_output=True, check=False)
        assert (program.returncode, program.stdout) == wanted, seed
