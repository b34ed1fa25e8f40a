"""pytest runs scenarios: each run of a ``*.scenario`` or ``*.runs`` file that expects a result is a test.

    python -m pytest examples crates/scenario/data
    python -m pytest --toarmuts-pages FOLDER ..        also writes a page in HTML of each run that fails
    python -m pytest --toarmuts-coverage ..            also shows at the end which calls, refusals and events were reached

The ini option ``toarmuts_files`` has the patterns of the files (default: ``*.scenario *.runs``). A file without a line of a scenario is
another program's: it is ignored, unless it is named on the command line.

This module is apart from the package, so that pytest loads the package only for such a file.
"""
from __future__ import annotations

import fnmatch
import itertools
import pathlib
import re
from typing import TYPE_CHECKING, Any, Iterator, Optional, Union

import pytest

if TYPE_CHECKING:
    from toarmuts.coverage import Coverage
    from toarmuts.network_runs import NetworkRun
    from toarmuts.runs import Run
    from toarmuts.scenario import Scenario

PATTERNS = ("*.scenario", "*.runs")
MOST_LINES_LOOKED_AT = 1000
_COVERAGE = "--toarmuts-coverage"
_PAGES = "--toarmuts-pages"
_FILES = "toarmuts_files"
# Under this name a worker of pytest-xdist returns what it reached.
_OF_WORKER = "toarmuts_coverage"


def pytest_addoption(parser: pytest.Parser) -> None:
    """The options."""
    group = parser.getgroup("toarmuts", "scenarios of Toarmuts")
    group.addoption(_COVERAGE, action="store_true", help="show which calls, refusals and events the scenarios reached")
    group.addoption(_PAGES, metavar="FOLDER", help="write a page of each scenario that fails")
    parser.addini(_FILES, type="args", default=list(PATTERNS), help="patterns of files with scenarios of Toarmuts")


def pytest_collect_file(parent: pytest.Collector, file_path: pathlib.Path) -> Optional[pytest.Collector]:
    """Files of scenarios."""
    if not any(fnmatch.fnmatch(file_path.name, pattern) for pattern in parent.config.getini(_FILES)):
        return None
    if not parent.session.isinitpath(file_path) and not _is_ours(file_path):
        return None
    made: pytest.Collector = ScenarioFile.from_parent(parent, path=file_path)
    return made


def _is_ours(path: pathlib.Path) -> bool:
    """Whether one of a file's first lines is that of a scenario. Other programs have files of these names, too."""
    from toarmuts.errors import ToarmutsError
    from toarmuts.scenario import is_line

    try:
        with path.open(encoding="utf-8", newline="\n") as lines:
            return any(is_line(line.rstrip("\r\n")) for line in itertools.islice(lines, MOST_LINES_LOOKED_AT))
    except (OSError, UnicodeDecodeError):
        return False
    except ToarmutsError:
        # The library is missing: that is reported where the file is run.
        return True


class ComesOutOtherwise(Exception):
    """A run has another result than its file expects."""

    def __init__(self, fault: str, run: "Run | None") -> None:
        super().__init__(fault)
        self.run = run


class ScenarioFile(pytest.File):
    """A file of scenarios."""

    def collect(self) -> Iterator[pytest.Item]:
        """Its runs."""
        from toarmuts.errors import BadScenario, NotInPython
        from toarmuts.scenario import read_scenarios

        try:
            scenarios = read_scenarios(self.path.read_bytes().decode("utf-8"))
        except NotInPython as fault:
            pytest.skip(f"{self.path.name}: {fault}", allow_module_level=True)
        except (BadScenario, UnicodeDecodeError) as fault:
            raise self.CollectError(f"{self.path}: {fault}") from None
        for scenario in scenarios:
            yield ScenarioItem.from_parent(self, name=scenario.name or self.path.stem, scenario=scenario)


class ScenarioItem(pytest.Item):
    """A run of a file."""

    def __init__(self, *, scenario: "Scenario", **others: Any) -> None:
        super().__init__(**others)
        self.scenario = scenario

    def runtest(self) -> None:
        """Runs it, and compares."""
        outcome = self.scenario.carry_out()
        coverage = _coverage_of(self.config)
        if coverage is not None and outcome.run is not None:
            coverage.add(outcome.run.transcript)
        if outcome.fault is not None:
            raise ComesOutOtherwise(outcome.fault, outcome.run)
        if not self.scenario.is_told:
            pytest.skip("its file doesn't say what the run must write")

    def repr_failure(self, excinfo: "pytest.ExceptionInfo[BaseException]", style: Any = None) -> Any:
        """The difference, and where the page is."""
        from toarmuts.errors import ToarmutsError

        fault = excinfo.value
        if isinstance(fault, ComesOutOtherwise):
            return f"{fault}{self._page_words(fault.run)}"
        if isinstance(fault, ToarmutsError):
            return f"{type(fault).__name__}: {fault}"
        return super().repr_failure(excinfo, style)

    def _page_words(self, run: "Run | NetworkRun | None") -> str:
        folder = self.config.getoption(_PAGES)
        if not folder or run is None:
            return ""
        place = pathlib.Path(folder) / (re.sub(r"[^A-Za-z0-9]+", "-", f"{self.path.stem}-{self.name}")[:80] + ".html")
        place.parent.mkdir(parents=True, exist_ok=True)
        place.write_text(run.page(f"{self.path.name}: {self.name}"), encoding="utf-8")
        return f"\nthe run: {place}"

    def reportinfo(self) -> tuple[Union[str, pathlib.Path], Optional[int], str]:
        """Its file and line."""
        return self.path, self.scenario.first_line - 1, f"{self.path.name}: {self.name}"


_KEY: "pytest.StashKey[Coverage]" = pytest.StashKey()
_LOST: "pytest.StashKey[list[str]]" = pytest.StashKey()


def _coverage_of(config: pytest.Config) -> "Coverage | None":
    """What the scenarios of this session reached, where that was asked for."""
    if not config.getoption(_COVERAGE):
        return None
    if _KEY not in config.stash:
        from toarmuts.coverage import Coverage

        config.stash[_KEY] = Coverage()
    return config.stash[_KEY]


def pytest_sessionfinish(session: pytest.Session) -> None:
    """A worker of pytest-xdist returns what it reached, in plain lists."""
    coverage, handed_over = _coverage_of(session.config), getattr(session.config, "workeroutput", None)
    if coverage is not None and handed_over is not None:
        handed_over[_OF_WORKER] = [[cell.what, cell.how, count] for cell, count in coverage.items()]


def pytest_configure(config: pytest.Config) -> None:
    """Where pytest-xdist is, what its workers reached is added up."""
    if config.pluginmanager.hasplugin("xdist") and config.getoption(_COVERAGE):
        config.pluginmanager.register(_WorkersCoverage(), "toarmuts_workers")


class _WorkersCoverage:
    """Adds up what workers reached."""

    def pytest_testnodedown(self, node: Any, error: Any) -> None:
        """A worker has ended, by itself or by a fault."""
        from toarmuts.coverage import Cell

        coverage = _coverage_of(node.config)
        assert coverage is not None
        for what, how, count in getattr(node, "workeroutput", {}).get(_OF_WORKER, ()):
            coverage.update({Cell(what, how): count})
        if error:
            node.config.stash.setdefault(_LOST, []).append(node.gateway.id)


def pytest_terminal_summary(terminalreporter: Any, exitstatus: int, config: pytest.Config) -> None:
    """The table of what was reached."""
    coverage = _coverage_of(config)
    if coverage is not None:
        terminalreporter.section("what the scenarios reached")
        terminalreporter.write_line(coverage.table())
        for worker in config.stash.get(_LOST, []):
            terminalreporter.write_line(f"what {worker} reached is missing: that worker has died")
