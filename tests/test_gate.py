"""The gate itself, with stand-ins for what it runs: what it counts, reports and notes; and which packages are installed for it."""

import os
import re
import shutil
import subprocess
import sys
from pathlib import Path

import pytest

from small_tree import wait_until
from tools import AS_NOBODY, ROOT, can_be_nobody, needs, run, succeed, write_program

LIBRARIES = "modules_c toarmuts"
# Each stand-in tells in the file `begun` that it began.
STAND_INS = {
    "tests/packages": 'echo "packages $*" >>"$BEGUN"\nexit 1\n',
    "prove": 'echo "prove $*" >>"$BEGUN"\neval "${WHILE_PROVING:-}"\n',
    "scripts/for-aarch64": 'echo "for-aarch64 $*" >>"$BEGUN"\n',
    "scripts/for-web": 'echo "for-web $*" >>"$BEGUN"\nexit 1\n',
    "tests/proofs": """echo proofs >>"$BEGUN"
read -r line && echo "standard input has $line"
eval "${MEANWHILE:-}"
printf '%b' "${SAYS:-a remark\\n7 passed, 0 failed\\n}"
[[ ${STATUS:-0} != killed ]] || kill -KILL $$
exit "${STATUS:-0}"
""",
}
FILES = {
    "tests/test_first.py": '"""The first tests."""\ndef test_one(): pass\ndef test_two(): pass\n',
    "tests/test_first_more.py": '"""More of the first."""\ndef test_three(): pass\n',
    "tests/test_second.py": '"""The second test."""\nimport os, pathlib\ndef test_four():\n'
    '    pathlib.Path(os.environ["BEGUN"]).open("a").write(f"four {os.environ.get(\'TOARMUTS_TESTS_PROVE\')}\\n")\n',
    "lacks/pytest/pytest.py": "raise ImportError\n",
    "lacks/xdist/xdist.py": "raise ImportError\n",
}
ALL_PASS = "11 passed, 0 failed"
COMMIT = "git -c user.name=N -c user.email=E commit -q --allow-empty -m a"


class Gate:
    """A tree with the gate and stand-ins, of which all passes."""

    def __init__(self, room: Path) -> None:
        self.tree, self.temporary, self.settings = room / "a gate", room / "temporary", {"BEGUN": str(room / "begun")}
        for folder in ("lacks/pytest", "lacks/xdist", "tests", "../temporary"):
            (self.tree / folder).mkdir(parents=True)
        for name in ("tests/all", "scripts/schedule.py", "pytest.ini", ".gitignore"):
            (self.tree / name).parent.mkdir(exist_ok=True)
            shutil.copy2(ROOT / name, self.tree / name)
        for name, text in STAND_INS.items():
            write_program(self.tree / name, f"#!/bin/bash\n{text}")
        succeed("git", "init", "-q", cwd=self.tree)
        self.add(FILES)

    def add(self, files: dict[str, str]) -> None:
        for name, text in files.items():
            (self.tree / name).write_text(text, encoding="utf-8")
        succeed("bash", "-c", f"git add . && {COMMIT}", cwd=self.tree)

    def __call__(self, *words: str, **settings: str) -> tuple[int, list[str]]:
        """The gate's status, and the lines that it writes."""
        ran = run(self.tree / "tests/all", *words, stdin=b"a line\n", cwd=self.tree,
                  settings={**self.settings, "TMPDIR": str(self.temporary), **settings})
        assert not list(self.temporary.iterdir()), "files are left"
        return ran.returncode, (ran.stdout if ran.returncode != 64 else ran.stderr).decode().splitlines()

    def begun(self) -> list[str]:
        file = Path(self.settings["BEGUN"])
        return file.read_text(encoding="utf-8").splitlines() if file.exists() else []

    def notes(self) -> str:
        """What is noted for a release of this commit."""
        file = self.tree / ".git/gate"
        commit = succeed("git", "rev-parse", "HEAD", cwd=self.tree).stdout.decode().strip()
        return file.read_text(encoding="utf-8").removeprefix(commit).strip() if file.exists() else ""


@pytest.fixture
def gate(tmp_path: Path, monkeypatch: pytest.MonkeyPatch) -> Gate:
    for name in [name for name in os.environ if name.startswith(("PYTEST_", "TOARMUTS_"))]:
        monkeypatch.delenv(name)
    # One process is enough for most.
    monkeypatch.setenv("PYTEST_XDIST_AUTO_NUM_WORKERS", "0")
    return Gate(tmp_path)


def test_order(gate: Gate) -> None:
    """The proofs come first and the other tests next, with what they take built beside them. Where the page's modules can't be built,
    that is for its tests to tell."""
    status, lines = gate()
    assert (status, lines[-1]) == (0, ALL_PASS), lines
    assert "a remark\n7 passed, 0 failed\n" in "\n".join(lines) and "standard input has a line" not in lines
    assert gate.begun()[:2] == ["packages ", "proofs"]
    assert sorted(gate.begun()[2:]) == [f"for-aarch64 {LIBRARIES}", "for-web --modules --anew", "four 1", f"prove {LIBRARIES}"]


def test_help(gate: Gate) -> None:
    names = re.findall(r"^  (\w+)  +(\S.*)$", "\n".join(gate("--help")[1]).partition("Names:\n")[2], re.M)
    assert names == [("proofs", "Every proof from nothing, the must-fail edits, tests and programs, by `rt ci`."),
                     ("first", "The first tests."), ("first_more", "More of the first."), ("second", "The second test.")]
    assert not gate.begun()


@pytest.mark.parametrize(("words", "last", "begun"), [
    (["first"], "3 passed, 0 failed", ["packages first"]),
    (["first_more"], "1 passed, 0 failed", ["packages first_more"]),
    (["second", "first", "second"], "4 passed, 0 failed", ["packages second first", "four 1"]),
    (["proofs"], "7 passed, 0 failed", ["packages proofs", "proofs"]),
    (["proofs", "second"], "8 passed, 0 failed", ["packages proofs second", "proofs", "four 1"]),
    (["first", "-k", "two"], "1 passed, 0 failed", ["packages first"]),
    (["-k", "two or three"], "2 passed, 0 failed", ["packages "]),
])
def test_some_tests(gate: Gate, words: list[str], last: str, begun: list[str]) -> None:
    """What is named runs once, with the files whose names begin so; nothing is noted."""
    status, lines = gate(*words)
    assert (status, lines[-1], gate.begun(), gate.notes()) == (0, last, begun, ""), lines


def test_no_git(gate: Gate, tmp_path: Path) -> None:
    """Without git the tests run, and nothing is noted."""
    tools = tmp_path / "bin"
    tools.mkdir()
    for it in (it for folder in ("/usr/bin", "/bin") for it in Path(folder).iterdir()):
        if it.name != "git" and not (tools / it.name).exists():
            (tools / it.name).symlink_to(it)
    status, lines = gate("first", PATH=str(tools))
    assert (status, lines[-1], gate.notes()) == (0, "3 passed, 0 failed", ""), lines


def test_test_that_cannot_begin(gate: Gate) -> None:
    """One whose fixture fails counts as failed alone."""
    gate.add({"tests/test_third.py": "import pytest\n@pytest.fixture\ndef broken(): raise OSError\ndef test_five(broken): pass\n"
              "def test_six(): pass\n"})
    status, lines = gate("third")
    assert (status, lines[-1]) == (1, "1 passed, 1 failed"), lines


def test_no_such_name(gate: Gate) -> None:
    for words, why in ((["first", "nothing"], "there are no tests nothing"),
                       (["--quick", "first"], "--quick has its own tests: leave out the names")):
        status, lines = gate(*words)
        assert (status, lines[0], gate.begun()) == (64, f"tests/all: {why}", [])


def test_quick(gate: Gate) -> None:
    """Some tests run, and nothing is proved. What they skip is counted."""
    gate.add({"tests/test_style.py": "import os\ndef test_it(): assert 'TOARMUTS_TESTS_PROVE' not in os.environ\n",
              "tests/test_program.py": "import os, pytest\n@pytest.mark.skipif('TOARMUTS_TESTS_QUICK' in os.environ, reason='not built')\n"
              "def test_it(): pass\ndef test_more(): pass\n"})
    status, lines = gate("--quick", TOARMUTS_TESTS_PROVE="1")
    assert (status, lines[-2:]) == (0, ["1 skipped, for the reasons above", "2 passed, 0 failed"]), lines
    assert any("not built" in line for line in lines) and gate.notes() == ""
    assert len(gate.begun()) == 1 and {"style", "program"} <= set(gate.begun()[0].split())
    assert gate("--quick", "-k", "more")[1][-1] == "1 passed, 0 failed"


ALL_TAKE = "all proofs, 4 at a time, and all tests take about 37 minutes with 4 processors"


@pytest.mark.parametrize(("words", "load", "printed"), [
    ([], 0, f"{ALL_TAKE}; what this kit proved before isn't proved again"),
    ([], 4, f"{ALL_TAKE}, and about 74 while the machine is as busy as now; what this kit proved before isn't proved again"),
    (["--quick"], 0, "this takes about 3 minutes with 4 processors"), (["first"], 0, ""),
    (["--quick", "-x"], 1, "this takes about 3 minutes with 4 processors"),
])
def test_forecast(gate: Gate, words: list[str], load: int, printed: str) -> None:
    """How long it will take is printed first, for as many processors as there are and as busy as they are."""
    code = ("import os, runpy, sys\nos.sched_getaffinity = lambda _: range(4)\n"
            f"os.getloadavg = lambda: ({load}, 0, 0)\nsys.argv = ['all', *{words}]\n"
            f"runpy.run_path({str(gate.tree / 'tests/all')!r}, run_name='__main__')\n")
    ran = run(sys.executable, "-c", code, settings={**gate.settings, "RT_JOBS": "4"}, cwd=gate.tree)
    first = ran.stderr.decode().partition("\n")[0]
    assert first == (f"tests/all: {printed}" if printed else "") or not printed and not first.startswith("tests/all: ")


def test_times_of_parts(gate: Gate) -> None:
    """The whole gate says how long its two parts took, also one that fails; a part of it doesn't."""
    def told(*words: str, **settings: str) -> list[str]:
        ran = run(gate.tree / "tests/all", *words, settings={**gate.settings, **settings}, cwd=gate.tree)
        return [re.sub(r"\d+\.\d", "N", line) for line in ran.stderr.decode().splitlines() if " took " in line]

    both = ["tests/all: all proofs took N minutes, and N of a processor",
            "tests/all: all tests, with what they need built, took N minutes, and N of a processor"]
    assert told() == both and told(STATUS="1") == both and told("first") == []


@pytest.mark.parametrize(("settings", "status", "last", "notes"), [
    ({}, 0, [ALL_PASS], "11 passed, 0 skipped"),
    ({"SAYS": "3 passed, 2 failed\\n", "STATUS": "1"}, 1, ["proofs: 2 failed", "7 passed, 2 failed"], ""),
    ({"SAYS": "3 passed, 2 failed\\n"}, 1, ["proofs: 2 failed", "7 passed, 2 failed"], ""),
    *(({"STATUS": status}, 1, ["proofs: 1 failed", "11 passed, 1 failed"], "") for status in ("1", "killed")),
    *(({"SAYS": says}, 1, ["proofs: 1 failed", "4 passed, 1 failed"], "")
      for says in (r"7 passed\n", r"7 passed, 0 failed.\n", r"all: 7 passed, 0 failed\n", r"7 passed, 0 failed\nmore", r"\n",
                   r"0 passed, 0 failed\n")),
    ({"WHILE_PROVING": "exit 1"}, 1, ["the libraries for C: 1 failed", "11 passed, 1 failed"], ""),
    ({"PYTHONPATH": "lacks/pytest"}, 1, ["no Python here has pytest (Debian: python3-pytest, python3-pytest-xdist): 1 failed",
                                         "7 passed, 1 failed"], ""),
    ({"PYTHONPATH": "lacks/xdist"}, 0, [ALL_PASS], "11 passed, 0 skipped"),
    # What the environment has for other uses of pytest changes nothing.
    ({"PYTEST_ADDOPTS": "--collect-only", "PYTEST_PLUGINS": "no_such_plugin"}, 0, [ALL_PASS], "11 passed, 0 skipped"),
    # Of sources that aren't those that the gate began with nothing is noted.
    ({"MEANWHILE": COMMIT}, 0, [ALL_PASS], ""),
], ids=lambda value: str(value) if isinstance(value, dict) else "")
def test_whole_gate(gate: Gate, settings: dict[str, str], status: int, last: list[str], notes: str) -> None:
    """The last lines, the status, and what is noted for a release. Proofs that fail, or don't say that they pass, count as failed."""
    told, lines = gate(**settings)
    assert (told, lines[-len(last):], gate.notes()) == (status, last, notes), lines


def test_uncommitted_file(gate: Gate) -> None:
    (gate.tree / "new").touch()
    assert (gate()[0], gate.notes()) == (0, "")


def test_skipped(gate: Gate) -> None:
    gate.add({"tests/test_third.py": "import pytest\n@pytest.mark.skip(reason='no such tool')\ndef test_it(): pass\n"})
    status, lines = gate()
    assert (status, lines[-2:], gate.notes()) == (0, ["1 skipped, for the reasons above", ALL_PASS], "11 passed, 1 skipped"), lines
    assert any("no such tool" in line for line in lines)


FAULTS = {
    "assertion": "def test_it(): assert 1 == 2\n",
    "fixture": "import pytest\n@pytest.fixture\ndef it(): raise OSError\ndef test_it(it): pass\n",
    "no fixture": "def test_it(it): pass\n",
    "no Python": "def test_it(:\n",
    "no module": "import no_such_module\n",
    "no case": "import pytest\n@pytest.mark.parametrize('it', [])\ndef test_it(it): pass\n",
    "no mark": "import pytest\n@pytest.mark.no_such_mark\ndef test_it(): pass\n",
    "passes against its mark": "import pytest\n@pytest.mark.xfail\ndef test_it(): pass\n",
    "exit": "import os\ndef test_it(): os._exit(0)\n",
    "crash": "import os, signal\ndef test_it(): os.kill(os.getpid(), signal.SIGKILL)\n",
    "killed": "import os, signal\ndef test_it(): os.kill(os.getppid(), signal.SIGKILL)\n",
}


@pytest.mark.parametrize(("fault", "workers"), [
    *((fault, "0") for fault in FAULTS if fault != "killed"), *((fault, "2") for fault in ("no Python", "exit", "crash", "killed"))])
def test_tests_that_fail(gate: Gate, fault: str, workers: str) -> None:
    """A test that fails, a file that can't be read, a crash, and a run that is ended by force count as failed."""
    gate.add({"tests/test_third.py": FAULTS[fault]})
    status, lines = gate(PYTEST_XDIST_AUTO_NUM_WORKERS=workers)
    assert (status, gate.notes()) == (1, "")
    assert re.fullmatch(r"pytest: [1-9]\d* failed\n\d+ passed, [1-9]\d* failed", "\n".join(lines[-2:]))


def test_nothing_is_chosen(gate: Gate) -> None:
    status, lines = gate("first", "-k", "nothing")
    assert (status, lines[-2:]) == (1, ["pytest: 1 failed", "0 passed, 1 failed"])


@needs("setsid", "pgrep")
@pytest.mark.parametrize("words", [["third"], []], ids=["a test", "all"])
def test_gate_that_is_ended(gate: Gate, words: list[str]) -> None:
    """A gate that is ended prints no counts, and leaves no process running, also none of the builds beside the tests."""
    gate.add({"tests/test_third.py": "import os, pathlib, time\ndef test_it():\n"
              "    pathlib.Path(os.environ['BEGUN']).open('a').write('third\\n')\n    time.sleep(600)\n"})
    wanted = {"third"} if words else {"third", f"prove {LIBRARIES}"}
    with subprocess.Popen([gate.tree / "tests/all", *words], stdout=subprocess.PIPE, start_new_session=True,
                          env={**os.environ, **gate.settings, "WHILE_PROVING": "sleep 600"}) as ran:
        wait_until(lambda: wanted <= set(gate.begun()), 600)
        ran.terminate()
        assert b"passed" not in ran.communicate()[0].replace(b"7 passed, 0 failed\n", b"")
    assert ran.returncode == 143
    wait_until(lambda: run("pgrep", "--session", ran.pid).returncode != 0)


def test_ci_runs_the_gate() -> None:
    assert (ROOT / ".ci/run").read_text(encoding="utf-8").splitlines()[-1] == "tests/all"


# ---- Packages ----

ALWAYS = "python3-pytest python3-pytest-xdist"
MAKE = "install -qq -y --no-install-recommends make"
as_root = pytest.mark.skipif(os.geteuid() != 0, reason="only root can install packages")
as_nobody = pytest.mark.skipif(not can_be_nobody(), reason="no command can be begun as nobody, who can write to /dev/null")


@pytest.fixture
def room(tmp_path: Path) -> Path:
    """A folder that everyone may read, with tests/packages and stand-ins for Debian's commands: dpkg-query, to which the packages of $HAVE
    are installed, and apt-get, which can install none where $APT is `fails`, and none before its lists were brought up to date."""
    write_program(tmp_path / "dpkg-query", '#!/bin/bash\n[[ " $HAVE " == *" ${*: -1} "* ]] && echo "install ok installed"\n')
    write_program(tmp_path / "apt-get", '#!/bin/bash\necho "$*" >>"$ASKED"\n[[ $APT != fails ]] && grep -q update "$ASKED"\n')
    shutil.copy2(ROOT / "tests/packages", tmp_path)
    for folder in (tmp_path, *list(tmp_path.parents)[:3]):
        if folder.owner() != "root" or folder.stat().st_mode & 0o005 != 0o005:
            folder.chmod(folder.stat().st_mode | 0o055)
    return tmp_path


@pytest.mark.parametrize(("have", "apt", "by", "status", "told", "asked"), [
    ("make gcc", "works", (), 0, "", []),
    pytest.param("gcc", "works", (), 0, "installing make", [MAKE, "update -qq", MAKE], marks=as_root),
    pytest.param("gcc", "fails", (), 1, "they can't all be installed", [MAKE, "update -qq"], marks=as_root),
    pytest.param("gcc", "works", AS_NOBODY, 1, "these Debian packages are missing: apt-get install make", [], marks=as_nobody),
], ids=["there", "lacking", "can't be installed", "nobody may install"])
def test_packages(room: Path, have: str, apt: str, by: tuple[str, ...], status: int, told: str, asked: list[str]) -> None:
    """What is lacking is installed, once more after the lists are brought up to date, or named."""
    settings = {"PATH": f"{room}:{os.environ['PATH']}", "HAVE": f"{ALWAYS} {have}", "APT": apt, "ASKED": str(room / "asked")}
    ran = run(*by, room / "packages", "launch", "cells", settings=settings)
    assert ran.returncode == status and ran.stderr.decode().splitlines()[-1:] == [f"tests/packages: {told}"] * bool(told)
    assert ((room / "asked").read_text(encoding="utf-8").splitlines() if (room / "asked").exists() else []) == asked


@as_root
def test_all_packages(room: Path) -> None:
    """Without a name all are wanted."""
    settings = {"PATH": f"{room}:{os.environ['PATH']}", "HAVE": "", "APT": "fails", "ASKED": str(room / "asked")}
    ran = run(room / "packages", settings=settings)
    wanted = {"chromium", "clang", "flake8", "gdb", "lintian", "make", "mypy", "shellcheck", *ALWAYS.split()}
    assert wanted <= set(ran.stderr.decode().partition("installing ")[2].split())
