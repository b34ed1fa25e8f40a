"""Scenario files with networks: worked ones, malformed lines, and pytest."""
import pytest
from common import ROOT
from networks import stored_networks
from test_plugin import run_pytest

from toarmuts import BadScenario, NetworkRun, read_scenarios
from toarmuts.errors import NotInPython
from toarmuts.scenario import is_line, read_file

WORKED = [case for case in stored_networks() if not case.words and not case.status]
MOTE = "mote N WORD.. sets up the next motes, N or N..M, as mote does with these words"
LINK = "link A B delay D is for two motes that there are, and D is at least 1"
RULE = ("links are between motes that there are, with a delay of at least 1; "
        "every N takes at least 1, lot C seed S at most 65536 for C")
DIFFERS = "== one\nnetwork\nmote 1 hello\ntick 3\n1 4 synch 129 - -> print 68690a\n1 4 answer done -> wait\n= 4\n== two\nnetwork\nmote 1\n"


@pytest.mark.parametrize("name", ["lost", "rules"])
def test_examples(name):
    """The worked examples come out as they are written."""
    for scenario in read_file(ROOT / f"examples/networks/{name}.scenario"):
        outcome = scenario.carry_out()
        assert outcome.fault is None and isinstance(outcome.run, NetworkRun), outcome.fault


@pytest.mark.parametrize("case", WORKED, ids=lambda case: case.name)
def test_worked_networks(case):
    """Worked networks of the program `network` have the same transcripts from a file that is read here."""
    scenario, = read_scenarios(f"network\n{case.script}{case.transcript}")
    assert scenario.transcript == case.transcript and scenario.carry_out().fault is None


def test_lines():
    """Inputs and lines that are repeated, `at`, and how the run ends."""
    text = "# a network\nnetwork\nrounds 5\nmote 1..2\ntimes 2 link 1 2 delay 4\ntimes 3 tick 2\nat 9\nat 9\n1 frame 61\n"
    scenario, = read_scenarios(text + "= 2\ntimes 1 = 4\n= 6\n= 9\n1 > tick 9\n1 > frame 61\nends finished\n")
    assert scenario.script == "tick 2\ntick 2\ntick 2\ntick 3\n1 frame 61\n" and len(scenario.network.setup.links) == 2
    assert scenario.network.setup.rounds == 5 and scenario.carry_out().fault is None
    halted, = read_scenarios("network\nrounds 0\nmote 1\ntick 1\nhalt\n")
    assert halted.wanted_end == "halted" and halted.carry_out().fault is None


@pytest.mark.parametrize("line, reason", [
    ("network", "network is the first line of a run, or none"), ("app hello", "unknown word app"), ("mmem 8", "unknown word mmem"),
    ("text hi", "unknown word text"), ("walk 1..2 delay 1", "unknown word walk"), ("tick", "tick is no line of a script"),
    ("1 serial", "1 serial is no line of a script"), ("1 frame 0", "1 frame 0 is no line of a script"),
    ("3 serial 61", "there is no mote 3"), ("0 frame 61", "there is no mote 0"),
    ("mote 2 hello", MOTE), ("mote 3  hello", "two spaces stand side by side"), ("mote 3 hello --mmem 6", MOTE),
    ("mote 3 hello --mmem", MOTE), ("mote 3 hello --size 8", MOTE), ("mote 3..2", MOTE), ("mote 3 calls ", "the line ends with a space"),
    ("mote 3 nobody", "no application nobody"), ("mote 3 calls kill", "kill lacks a word"),
    ("mote 3 calls wait,clock", "there is no space after a comma"), ("link 1 3 delay 1", LINK), ("link 1 2 delay 0", LINK),
    ("link 1 2 delay 01", LINK), ("link 1 2 delay 1 every 0", RULE), ("link 1 2 delay 1 lot 5", RULE),
    ("ring 1..2 delay 1", "ring N..M delay D is for three motes or more that there are, and D is at least 1"),
    ("grid 1..2 delay 1", "grid N..M width W delay D is for motes that there are, and W and D are at least 1"),
    ("rounds many", "room and rounds take a number up to 4294967295"),
    ("mote 3 calls " + ", ".join(["memb-write 0 0 0 00"] * 50), "a line of a network's script has at most 1024 bytes"),
    ("ends early", "no end of a run: early")])
def test_malformed_lines(line, reason):
    """The number and the reason are those of the program `scenario`."""
    with pytest.raises(BadScenario) as caught:
        read_scenarios(f"== net\nnetwork\nmote 1..2 hello\n{line}\n")
    assert str(caught.value) == f"line 4: {reason}"


@pytest.mark.parametrize("text, reason", [
    ("network\nmote 1\ntick 1\nlink 1 1 delay 1\n", "line 4: link sets a network up, and is below an input"),
    ("tick 1\nnetwork\n", "line 2: network is the first line of a run, or none"), ("network please\n", "line 1: network takes no word"),
    ("app hello\nmote 1 hello\n", "line 2: a run with a line mote begins with a line network")])
def test_malformed_runs(text, reason):
    """Lines that can't be there."""
    with pytest.raises(BadScenario) as caught:
        read_scenarios(text)
    assert str(caught.value) == reason


@pytest.mark.parametrize("line", ["quiet", "script tick 1", "last tick 1", "...", '1 serial "a"', "1 4 synch INIT - -> wait",
                                  'mote 1 calls print "a"'])
def test_what_the_program_alone_reads(line):
    """It is refused as that."""
    with pytest.raises(NotInPython):
        read_scenarios(f"network\n{line}\n")


def test_pytest_takes_networks(tmp_path):
    """The difference is told, and a page of the network is written."""
    (tmp_path / "a.scenario").write_text(DIFFERS)
    done = run_pytest(tmp_path, "--toarmuts-coverage", "--toarmuts-pages", tmp_path / "pages")
    assert done.returncode == 1 and "1 failed, 1 skipped" in done.stdout, done.stdout
    page, = (tmp_path / "pages").iterdir()
    assert "<h2>Motes</h2>" in page.read_text() and str(page) in done.stdout
    for words in ("line 3 of the transcript differs", "wanted:   = 4", "found:    = 3"):
        assert words in done.stdout
    (tmp_path / "a.scenario").write_text(DIFFERS.replace("= 4", "= 3").replace("mote 1\n", "mote 1\nends finished\n"))
    assert run_pytest(tmp_path).returncode == 0
    assert is_line("network") and not is_line("network 1")
