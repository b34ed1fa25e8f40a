"""Campaigns: the same files and figures by 1, 2 and 4 processes and by Dask, failures that come out as told, wrong words."""
import io
import os
import re
import signal
import subprocess
import sys

import pytest
from common import ROOT

import toarmuts
from toarmuts.coverage import Cell, Coverage, cells, coverage_of
from toarmuts.scenario import read_file
from toarmuts import campaign as campaigns
from toarmuts import shrinking
from toarmuts.shrinking import make_case, shrink

TARGET = ROOT / "examples/python/target.py"
SCENARIO = ROOT / "crates/scenario/out/scenario"


def campaign(folder, *words):
    """Carries a campaign out; status, standard output without the folder, and the files."""
    command = [sys.executable, "-m", "toarmuts.campaign", *map(str, words), "--found", str(folder)]
    done = subprocess.run(command, capture_output=True, text=True, check=False, cwd=ROOT / "examples/python")
    assert done.returncode in (0, 1), done.stderr
    files = {path.name: path.read_text() for path in sorted(folder.glob("*"))} if folder.exists() else {}
    return done.returncode, done.stdout.replace(str(folder), ""), files


@pytest.mark.parametrize("name", ["Lists", "Supervised"])
def test_processes_change_nothing(tmp_path, name):
    words = ("target.py:" + name, "--seeds", "0:6", "--count", "30", "--coverage")
    found = [campaign(tmp_path / str(jobs), *words, "--jobs", jobs) for jobs in (1, 2, 4)]
    assert found[0] == found[1] == found[2]
    status, output, files = found[0]
    assert status == 1 and len(files) == 1 and "6 seeds, 180 runs" in output and f"of {len(cells())} cells were reached" in output
    path = next((tmp_path / "1").glob("*.scenario"))
    assert [scenario.carry_out().fault for scenario in read_file(path)] == [None]
    if SCENARIO.exists():
        done = subprocess.run([SCENARIO, path.name], cwd=path.parent, capture_output=True, text=True, check=False)
        assert (done.returncode, done.stdout) == (0, f"{path.name}: 1 of 1 runs as told\n")


def test_a_seed_alone_is_the_same(tmp_path):
    _, _, all_files = campaign(tmp_path / "all", "target.py:Lists", "--seeds", "0:6", "--count", "30", "--jobs", "1")
    (text,) = all_files.values()
    number = int(re.search(r"seed (\d+)", text)[1])
    _, _, files = campaign(tmp_path / "one", "target.py:Lists", "--seeds", f"{number}:{number + 1}", "--count", "30", "--jobs", "1")
    assert files == all_files


def test_nothing_is_found_where_nothing_is_wrong(tmp_path):
    status, output, files = campaign(tmp_path / "none", "target.py:Repaired", "--seeds", "0:2", "--count", "30", "--jobs", "1")
    assert status == 0 and files == {} and "0 faults" in output


def test_no_more_processes_are_started_than_there_are_seeds(tmp_path):
    status, output, _ = campaign(tmp_path / "few", "target.py:Repaired", "--seeds", "0:2", "--count", "1", "--jobs", "99999")
    assert status == 0 and "2 seeds" in output


def test_dask_changes_nothing(tmp_path):
    pytest.importorskip("distributed")
    words = ("target.py:Lists", "--seeds", "0:6", "--count", "30", "--jobs", "2")
    assert campaign(tmp_path / "dask", *words, "--dask", "local") == campaign(tmp_path / "here", *words)


@pytest.mark.parametrize("address, reason", [("127.0.0.1:1", "no scheduler is reached there: "), (":", "no scheduler is reached there: "),
                                             ("frob://x", "unknown address scheme 'frob'"), ("", "takes a scheduler's address, or local")])
def test_a_scheduler_that_is_not_there_is_told_soon(tmp_path, address, reason):
    pytest.importorskip("distributed")
    command = [sys.executable, "-m", "toarmuts.campaign", f"{TARGET}:Lists", "--dask", address]
    done = subprocess.run(command, capture_output=True, text=True, check=False, cwd=tmp_path, timeout=300)
    assert done.returncode == 2 and reason in done.stderr and "Traceback" not in done.stderr, done.stderr
    assert done.stderr.startswith("toarmuts-campaign: --dask") and not os.listdir(tmp_path)


def test_an_application_that_raises_is_a_fault(tmp_path):
    (tmp_path / "raising.py").write_text(
        "from toarmuts.campaign import make_case\n\n\ndef raises():\n    yield\n\n\nclass Target:\n    def draw(self, chance):\n"
        "        return make_case([raises], ['tick 1'] * chance.randrange(3))\n\n    def check(self, run):\n        return None\n")
    status, output, files = campaign(tmp_path / "found", tmp_path / "raising.py:Target", "--seeds", "0:2", "--count", "3", "--jobs", "1")
    assert status == 1 and "process 4 fails: None is not a call" in output
    assert list(files) == ["process-4-fails-None-is-not-a-call.txt"]
    lines = files["process-4-fails-None-is-not-a-call.txt"].splitlines()
    assert lines[0] == "# process 4 fails: None is not a call" and "made smaller by" in lines[1]
    assert lines[2] == "process 4 received INIT: None is not a call"


def test_faults_have_files_of_their_own(tmp_path):
    """Also where their names are alike, or none is left of one."""
    (tmp_path / "several.py").write_text("from toarmuts.campaign import make_case\n\n\nclass Target:\n    def draw(self, chance):\n"
                                         "        return make_case(['hello'], ['tick 1'] * chance.randrange(1, 4))\n\n"
                                         "    def check(self, run):\n"
                                         "        return ['a b', 'a-b', '?!'][len(run.transcript.inputs()) - 1]\n")
    words = ("several:Target", "--seeds", "0:3", "--count", "9", "--found", "found", "--jobs", "1")
    # A module is looked for in the folder that the program is run in, wherever else Python looks.
    code = "import sys; from toarmuts.campaign import main; sys.path[0] = '/none'; sys.exit(main())"
    done = subprocess.run([sys.executable, "-c", code, *words], capture_output=True, text=True, check=False, cwd=tmp_path)
    names = ["a-b-2.scenario", "a-b.scenario", "fault.scenario"]
    assert done.returncode == 1 and sorted(os.listdir(tmp_path / "found")) == names, done.stderr
    assert "3 seeds, 27 runs, " in done.stdout and "3 faults" in done.stdout
    # Where nothing can be printed, the files are there all the same.
    with open("/dev/full", "wb") as full:
        unprinted = subprocess.run([sys.executable, "-u", "-c", code, *words, "--found", "more"], stdout=full, stderr=subprocess.PIPE,
                                   check=False, cwd=tmp_path)
    assert unprinted.returncode == 2 and b"No space left" in unprinted.stderr and sorted(os.listdir(tmp_path / "more")) == names


INTERRUPTED = """import os
import signal

from toarmuts.campaign import make_case

drawn = []


class Target:
    def draw(self, chance):
        drawn.append(None)
        if len(drawn) == 7:
            os.kill(os.getpid(), signal.SIGINT)
        return make_case(["hello"])

    def check(self, run):
        return "it says hi"
"""


def test_an_interrupt_keeps_what_was_found(tmp_path):
    (tmp_path / "interrupted.py").write_text(INTERRUPTED)
    words = ("interrupted.py:Target", "--seeds", "0:9", "--count", "2", "--jobs", "1", "--found", "found")
    # Where the tests run in the background, a command that is begun would pass over interrupts.
    before = signal.signal(signal.SIGINT, signal.default_int_handler)
    done = subprocess.run([sys.executable, "-m", "toarmuts.campaign", *words], capture_output=True, text=True, check=False, cwd=tmp_path)
    signal.signal(signal.SIGINT, before)
    assert done.returncode == 130 and "toarmuts-campaign: interrupted, after 3 of 9 seeds\n" in done.stderr
    assert "found by 3 of 3 seeds" in done.stdout and "3 seeds, 6 runs, 12 lines, 1 faults" in done.stdout
    assert "Traceback" not in done.stderr
    assert [path.name for path in (tmp_path / "found").iterdir()] == ["it-says-hi.scenario"]


INTERRUPTS_ALL = """import os
import signal

from toarmuts.campaign import make_case


class Target:
    def draw(self, chance):
        if chance.random() < 0.2:
            try:
                os.close(os.open("interrupted", os.O_CREAT | os.O_EXCL))
                os.killpg(0, signal.SIGINT)
            except FileExistsError:
                pass
        return make_case(["hello"])

    def check(self, run):
        return "it says hi"
"""


@pytest.mark.parametrize("words", [("--jobs", "2"), ("--jobs", "2", "--dask", "local")], ids=["processes", "dask"])
def test_an_interrupt_of_all_processes_shows_no_tracebacks(tmp_path, words):
    """A terminal sends it to each of them. This one is sent by the first process that draws a small number."""
    if "--dask" in words:
        pytest.importorskip("distributed")
    (tmp_path / "interrupts.py").write_text(INTERRUPTS_ALL)
    command = [sys.executable, "-m", "toarmuts.campaign", "interrupts.py:Target", "--seeds", "0:2000", "--count", "2", *words]
    before = signal.signal(signal.SIGINT, signal.default_int_handler)
    done = subprocess.run(command, capture_output=True, text=True, check=False, cwd=tmp_path, start_new_session=True)
    signal.signal(signal.SIGINT, before)
    assert done.returncode == 130 and (tmp_path / "interrupted").exists(), done.stderr
    assert "toarmuts-campaign: interrupted, after " in done.stderr and "Traceback" not in done.stderr
    assert all("seeds" in line or " runs a second, " in line for line in done.stderr.splitlines()), done.stderr


def test_progress_tells_runs_and_what_is_left(monkeypatch, capsys):
    """Every ten seconds, whether a seed was carried out or not."""
    clock = [0.0]
    monkeypatch.setattr(campaigns.time, "monotonic", lambda: clock[0])
    progress = campaigns._Progress(2, 100)

    def shown(seconds, runs):
        clock[0], progress.runs = seconds, runs
        progress.tell()
        return capsys.readouterr().err

    assert shown(9.9, 1) == "" and shown(10, 0) == "0 of 2 seeds, 0 of 200 runs, 0 faults, 10.0 s\n"
    assert shown(19, 50) == "" and shown(20, 50) == "0 of 2 seeds, 50 of 200 runs, 0 faults, 20.0 s, about 60 s left\n"
    assert shown(100, 50) == "0 of 2 seeds, 50 of 200 runs, 0 faults, 100.0 s, about 5 min left\n"
    assert shown(7200, 50) == "0 of 2 seeds, 50 of 200 runs, 0 faults, 7200.0 s, about 6 h left\n"
    progress.add(campaigns.Unit(0, runs=100))
    clock[0] = 7201
    progress.add(campaigns.Unit(1, runs=100))
    assert capsys.readouterr().err == "2 of 2 seeds, 200 of 200 runs, 0 faults, 7201.0 s\n"
    progress.end()
    assert capsys.readouterr().err == ""


def test_progress_on_a_terminal_is_one_line(monkeypatch):
    class Terminal(io.StringIO):
        def isatty(self):
            return True

    clock, terminal = [0.0], Terminal()
    monkeypatch.setattr(campaigns.time, "monotonic", lambda: clock[0])
    monkeypatch.setattr(sys, "stderr", terminal)
    progress = campaigns._Progress(1, 1000)
    for seconds, runs in ((0.1, 1), (0.2, 1), (0.3, 2), (0.5, 500)):
        clock[0] = seconds
        progress.count_run(runs - progress.runs)
    progress.end()
    first = "0 of 1 seeds, 1 of 1,000 runs, 0 faults, 0.2 s, about 3 min left"
    second = "0 of 1 seeds, 500 of 1,000 runs, 0 faults, 0.5 s, about 0 s left"
    assert terminal.getvalue() == f"{first}\r{second.ljust(len(first))}\r\n"


WAITING = """import pathlib
import time

from toarmuts.campaign import make_case

drawn = []


class Target:
    def draw(self, chance):
        drawn.append(None)
        ends = time.monotonic() + 60
        while len(drawn) == 2 and not pathlib.Path("told").exists() and time.monotonic() < ends:
            time.sleep(0.01)
        return make_case(["hello"])

    def check(self, run):
        return None
"""


def told_line_by_line(folder, begin, *words):
    """A campaign that tells its progress without a pause, and the lines of that; from a line that begins so on there is a file `told`."""
    code = "import sys; from toarmuts import campaign; campaign.PAUSE = 0; sys.exit(campaign.main())"
    lines = []
    with subprocess.Popen([sys.executable, "-c", code, *words], stdout=subprocess.DEVNULL, stderr=subprocess.PIPE, text=True,
                          cwd=folder) as process:
        for line in process.stderr:
            lines.append(line)
            if line.startswith(begin):
                (folder / "told").touch()
    return process, lines


@pytest.mark.parametrize("words", [("--jobs", "1"), ("--jobs", "2"), ("--jobs", "1", "--dask", "local")],
                         ids=["here", "processes", "dask"])
def test_progress_is_told_within_a_seed(tmp_path, words):
    """The second case waits until the run of the first is reported."""
    if "--dask" in words:
        pytest.importorskip("distributed")
    (tmp_path / "waiting.py").write_text(WAITING)
    begin = "0 of 1 seeds, 1 of 2 runs, 0 faults, "
    process, lines = told_line_by_line(tmp_path, begin, "waiting.py:Target", "--seeds", "0:1", "--count", "2", *words)
    assert process.returncode == 0 and (tmp_path / "told").exists(), lines
    assert lines[-2].startswith("1 of 1 seeds, 2 of 2 runs, 0 faults, ") and "left" not in lines[-2]


def test_the_file_of_a_fault():
    """The shortest that `./scenario` runs, or else the shortest; of equal ones that of the first seed."""
    def unit(seed, text, is_scenario):
        return campaigns.Unit(seed, found={"wrong": campaigns.Found("wrong", seed, text, is_scenario)})

    units = [unit(0, "a", False), unit(1, "abcd", True), unit(2, "abc", True), unit(3, "abd", True)]
    assert [(found.text, seeds) for found, seeds in campaigns.smallest(units)] == [("abc", 4)]
    assert [(found.text, seeds) for found, seeds in campaigns.smallest([unit(0, "ab", False), unit(1, "b", False)])] == [("b", 2)]


DYING = """import os
import pathlib
import time

from toarmuts.campaign import make_case


class Target:
    def draw(self, chance):
        try:
            os.close(os.open("first", os.O_CREAT | os.O_EXCL))
        except FileExistsError:
            return make_case(["hello"])
        ends = time.monotonic() + 60
        while not pathlib.Path("told").exists() and time.monotonic() < ends:
            time.sleep(0.01)
        os._exit(3)

    def check(self, run):
        return "it says hi"
"""


def test_a_process_that_dies_is_told_and_the_rest_is_kept(tmp_path):
    """The first one to draw dies once a seed of the other is told."""
    (tmp_path / "dying.py").write_text(DYING)
    process, lines = told_line_by_line(tmp_path, "1 of 8 seeds", "dying.py:Target", "--seeds", "0:8", "--count", "1", "--jobs", "2")
    output = "".join(lines)
    assert process.returncode == 2 and "toarmuts-campaign: a process has died" in output and "Traceback" not in output, output
    assert [path.name for path in (tmp_path / "found").iterdir()] == ["it-says-hi.scenario"]


FAILING = """from toarmuts.campaign import make_case


class Target:
    def draw(self, chance):
        return make_case(["hello"])

    def check(self, run):
        return None


class DrawsNone(Target):
    def draw(self, chance):
        return ["hello"], "tick 1"


class ChecksFalse(Target):
    def check(self, run):
        return False


class Raises(Target):
    def check(self, run):
        return run.transcript[99]


class DrawsNobody(Target):
    def draw(self, chance):
        return make_case(["nobody"])


class NeedsMore(Target):
    def __init__(self, words):
        self.words = words
"""


@pytest.mark.parametrize("jobs", ["1", "2"])
@pytest.mark.parametrize("name, reason", [
    ("DrawsNone", "seed 3, case 0: draw(chance) returned a tuple, not a Case: make_case makes one"),
    ("ChecksFalse", "seed 3, case 0: check(run) returned False: it must return a str, or None"),
    ("Raises", "seed 3, case 0: the target fails itself"),
    ("DrawsNobody", "seed 3, case 0: application 1 (process 4): no application 'nobody'"),
    ("NeedsMore", "NeedsMore: the target can't be made"),
])
def test_a_target_that_fails_itself_is_told(tmp_path, name, reason, jobs):
    (tmp_path / "failing.py").write_text(FAILING)
    command = [sys.executable, "-m", "toarmuts.campaign", f"failing.py:{name}", "--seeds", "3:4", "--jobs", jobs]
    done = subprocess.run(command, capture_output=True, text=True, check=False, cwd=tmp_path)
    assert done.returncode == 2 and reason in done.stderr and not (tmp_path / "found").exists(), done.stderr


@pytest.mark.parametrize("words, reason", [
    (["nothing"], "nothing names no target: write module:name or file.py:name"),
    (["no_such_module:name"], "no_such_module:name names no target: No module named 'no_such_module'"),
    (["missing.py:name"], "missing.py:name names no target: no such file: missing.py"),
    ([f"{TARGET}:nobody"], "has no attribute 'nobody'"),
    ([f"{TARGET}:WORDS"], "is not a target: it has no draw(chance) and check(run)"),
    ([f"{TARGET}:Lists", "--seeds", "5:5"], "5:5 is not a range of seeds, as 0:100 is"),
    ([f"{TARGET}:Lists", "--seeds", "0:9223372036854775808"], "0:9223372036854775808 is not a range of seeds, as 0:100 is"),
    ([f"{TARGET}:Lists", "--jobs", "0"], "0 is not a positive number"),
    ([f"{TARGET}:Lists", "--count", "-1"], "-1"),
])
def test_wrong_words(tmp_path, words, reason):
    done = subprocess.run([sys.executable, "-m", "toarmuts.campaign", *words], capture_output=True, text=True, check=False, cwd=tmp_path)
    assert done.returncode == 2 and reason in done.stderr and not os.listdir(tmp_path)


def test_what_fails_is_made_small():
    case = make_case([["clock"] * 5 + ["memb-alloc 0", "list-add 0 0", "memb-free 0 0"], "hello"], ["tick 1"] * 20)
    small, tries = shrink(case, lambda smaller: b"refused 14" in smaller.run().transcript.data)
    assert small.applications == (("memb-alloc 0", "list-add 0 0", "memb-free 0 0"),) and small.script == () and tries < 100


def test_no_more_is_tried_than_that(monkeypatch):
    monkeypatch.setattr(shrinking, "MOST_TRIES", 5)
    tried = []
    small, _ = shrink(make_case(["hello"], ["tick 1"] * 99), tried.append)
    assert len(tried) == 5 and len(small.script) == 99


def test_what_is_left_out_last():
    """A line alone, and an application behind the one that fails; what is left fails with nothing less."""
    small, _ = shrink(make_case(["hello", "blink", "echo"], ["tick 1"]), lambda smaller: "hello" in smaller.applications)
    assert small.applications == ("hello",) and small.script == ()
    # A second look finds what the first could not leave out.
    small, _ = shrink(make_case(["hello", "blink"], ["tick 1"] * 3),
                      lambda smaller: len(smaller.applications) == 1 or len(smaller.script) == 3)
    assert small.applications == ("hello",) and small.script == ()


def test_coverage_of_worked_runs():
    """All but what tests/cells names as out of reach."""
    runs = [scenario.run() for path in sorted((ROOT / "crates/scenario/data").glob("*.scenario")) for scenario in read_file(path)
            if scenario.end != "bad sizes"]
    runs += [scenario.run() for path in sorted((ROOT / "examples").glob("*.scenario")) for scenario in read_file(path)]
    coverage = coverage_of(runs)
    assert coverage.missing() == [Cell("timer-reset", "range"), Cell("end", "too long")] and coverage.unexpected() == []
    assert coverage.table().endswith(f"{len(cells()) - 2} of {len(cells())} cells were reached")


def test_coverages_add_up():
    runs = [toarmuts.run(["blink", "relay"], "tick 10\nframe 01\n"), toarmuts.run([["timer-stop 9", "mmem-alloc 0 5000"]])]
    several = Coverage()
    for run in runs:
        several.update(Coverage().add(run))
    assert several == coverage_of(runs) and several[Cell("mmem-alloc", "no-room")] == 1 and several[Cell("note", "sent")] == 1
    assert Coverage().add(toarmuts.run(["hello"], quiet=True)) == {}
    added = sum((Coverage().add(run) for run in runs), Coverage())
    assert type(added) is Coverage and added == several and added.table() == several.table()


SUPERVISED = """
import sys

sys.path.insert(0, {folder!r})
from target import Repaired, Supervised
from toarmuts.campaign import make_case


def fails():
    yield from ()
    raise KeyError("always")


class Chatty:
    # It makes more calls than a file can tell.
    def __init__(self, count):
        self.count = count

    def turn(self, stimulus):
        from toarmuts import Clock, Wait
        self.count -= 1
        return Clock() if self.count > 0 else Wait()


class Raises:
    applications = [fails]

    def draw(self, chance):
        return make_case([*self.applications, ["wait", "clock"]], ["tick 1", "frob"], toarmuts.Options(mmem=64))

    def check(self, run):
        return "many" if len(run.transcript) > 300 else None


class Many(Raises):
    applications = [lambda: Chatty(400)]


class Mended(Raises):
    applications = [lambda: Chatty(4)]
"""


@pytest.fixture
def targets(tmp_path):
    (tmp_path / "targets.py").write_text("import toarmuts\n" + SUPERVISED.format(folder=str(ROOT / "examples/python")))
    return tmp_path


def run_again(folder, *words):
    done = subprocess.run([sys.executable, "-m", "toarmuts.campaign", *words], capture_output=True, text=True, check=False, cwd=folder)
    return done.returncode, done.stdout, done.stderr


def test_what_was_found_is_run_again_with_the_repaired_application(targets):
    """The file has the calls of the application as it was; what is run is the application as it is."""
    status, _, files = campaign(targets / "found", targets / "targets.py:Supervised", "--seeds", "0:4", "--count", "30", "--jobs", "1")
    (name,) = files
    assert status == 1 and name.endswith(".scenario")
    assert run_again(targets, "targets.py:Supervised", "--again", f"found/{name}") == (1, f"found/{name}: the journal ends itself\n", "")
    assert run_again(targets, "targets.py:Repaired", "--again", f"found/{name}") == (0, f"found/{name}: nothing is wrong any more\n", "")
    assert campaigns.again(f"{targets}/targets.py:Supervised", files[name]) == "the journal ends itself"
    assert campaigns.again(f"{targets}/targets.py:Repaired", files[name]) is None


@pytest.mark.parametrize("target, fault", [("Raises", "process 4 fails: KeyError: 'always'"), ("Many", "many")])
def test_what_no_scenario_tells_is_run_again_too(targets, target, fault):
    status, _, files = campaign(targets / "found", f"{targets}/targets.py:{target}", "--seeds", "0:1", "--count", "1", "--jobs", "1")
    ((name, text),) = files.items()
    assert status == 1 and name.endswith(".txt") and "\n# what was run:\nmmem 64\n" in text
    assert run_again(targets, f"targets.py:{target}", "--again", f"found/{name}") == (1, f"found/{name}: {fault}\n", "")
    assert run_again(targets, "targets.py:Mended", "--again", f"found/{name}")[0] == 0


def test_what_cannot_be_run_again_is_told(targets):
    (targets / "other.scenario").write_text("tick 1\n")
    status, output, reason = run_again(targets, "targets.py:Raises", "--again", "other.scenario")
    assert (status, output) == (2, "") and "other.scenario: not a file that a campaign wrote" in reason
    assert run_again(targets, "targets.py:Raises", "--again", "none.scenario")[0] == 2
    text = "# a\n# target, seed 1, case 2, made smaller by 3 runs\ncalls\ncalls\ncalls\n"
    with pytest.raises(campaigns.CampaignError, match="the target draws another case than the file's, which has 3 applications"):
        campaigns.again(f"{targets}/targets.py:Raises", text)


def test_the_version_is_told(tmp_path):
    assert run_again(tmp_path, "--version") == (0, f"toarmuts {toarmuts.__version__}\n", "")


def test_what_is_no_cell_is_told():
    coverage = Coverage().add(toarmuts.run(["hello"]))
    assert coverage[Cell("print", "done")] == 1 and coverage[Cell("timer-set", "bad-name")] == 0
    for wrong in (Cell("timer-set", "bad_name"), "timer-set", ("frob", "done")):
        with pytest.raises(toarmuts.WrongType, match="there is no cell "):
            coverage[wrong]
