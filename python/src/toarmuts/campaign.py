"""Campaigns: many random runs of a target, seed by seed, over processes of this machine or over Dask.

    toarmuts-campaign TARGET --seeds 0:400 --jobs 4 --found found
    toarmuts-campaign TARGET --seeds 17:18               one seed again
    toarmuts-campaign TARGET --again found/FILE ..       stored failures again, with the applications as they are now

TARGET is ``module:name`` or ``file.py:name``: an object or a class with ``draw(chance)``, which makes a ``Case`` from a
``random.Random``, or a ``NetworkCase`` of a network, and ``check(run)``, which returns what is wrong with a run, or None. A seed makes
the same runs everywhere: files and figures don't depend on the number of processes. What fails is made smaller, and stored as a file for
``./scenario`` or ``./network``. Such a file has the calls that applications in Python made at that time; ``--again``, and ``again`` in a
test, run the applications themselves over its script.
"""
from __future__ import annotations

import argparse
import asyncio
import contextlib
import importlib
import importlib.util
import logging
import multiprocessing
import os
import pathlib
import random
import re
import signal
import sys
import threading
import time
import traceback
import uuid
from collections.abc import Callable, Generator, Iterable, Iterator
from dataclasses import dataclass, field
from typing import Any, Protocol, Union

from .coverage import Cell, Coverage
from .errors import ApplicationError, BadScenario, ToarmutsError, WrongType, shown
from .network_cases import NetworkCase, make_network_case
from .network_runs import NetworkRun
from .runs import Run
from .scenario import read_scenarios
from .shrinking import Case, make_case

PATIENCE = 10
"""The seconds that a scheduler has to reply."""
PAUSE, PAUSE_ON_TERMINAL = 10.0, 0.2
"""The seconds from one line of the progress to the next."""
PAUSE_OF_WORKERS = 0.5
"""The seconds after which a worker of Dask reports its runs again."""

# What begins the inputs in a file that is not a scenario itself.
_INPUTS = "# what was run:"
_WHERE = re.compile(r"^(?:# )?(?P<name>.+), seed (?P<seed>[0-9]+), case (?P<number>[0-9]+), made smaller by [0-9]+ runs$", re.M)

__all__ = ["Case", "Found", "NetworkCase", "Target", "Unit", "again", "carry_out_seed", "main", "make_case", "make_network_case"]

AnyCase = Union[Case, NetworkCase]


class Target(Protocol):
    """What a campaign searches."""

    def draw(self, chance: random.Random) -> AnyCase:
        """A case, made only from this generator of random numbers."""

    def check(self, run: Any) -> str | None:
        """What is wrong with a run, in the same words for the same fault; or None."""


@dataclass(frozen=True)
class Found:
    """A fault that a seed found: the text of the smallest file, and whether that can be run by ``./scenario``, or of a network by
    ``./network``."""

    fault: str
    seed: int
    text: str
    is_scenario: bool
    ending: str = ".scenario"


@dataclass
class Unit:
    """The result of a seed."""

    seed: int
    runs: int = 0
    lines: int = 0
    processor_seconds: float = 0.0
    found: dict[str, Found] = field(default_factory=dict)
    coverage: dict[Cell, int] = field(default_factory=dict)


class CampaignError(ToarmutsError):
    """Arguments that name no target, or a target that fails itself."""


def load_target(name: str) -> Target:
    """The target that ``module:name`` or ``file.py:name`` names."""
    module_name, _, attribute = name.rpartition(":")
    if not module_name:
        raise CampaignError(f"{name} names no target: write module:name or file.py:name")
    try:
        module = _load_file(module_name) if module_name.endswith(".py") else _load_module(module_name)
        made = getattr(module, attribute)
        target: Any = made() if isinstance(made, type) else made
    except (ImportError, FileNotFoundError, AttributeError) as fault:
        raise CampaignError(f"{name} names no target: {fault}") from fault
    except Exception:
        raise CampaignError(f"{name}: the target can't be made\n{traceback.format_exc()}") from None
    if not callable(getattr(target, "draw", None)) or not callable(getattr(target, "check", None)):
        raise CampaignError(f"{name} is not a target: it has no draw(chance) and check(run)")
    checked: Target = target
    return checked


def _load_module(name: str) -> Any:
    if os.getcwd() not in sys.path:
        sys.path.insert(0, os.getcwd())
    return importlib.import_module(name)


def _load_file(path: str) -> Any:
    place = pathlib.Path(path).resolve()
    name = f"toarmuts_target_{place.stem}"
    if name in sys.modules and sys.modules[name].__file__ == str(place):
        return sys.modules[name]
    spec = importlib.util.spec_from_file_location(name, place)
    if spec is None or spec.loader is None or not place.exists():
        raise FileNotFoundError(f"no such file: {path}")
    module = importlib.util.module_from_spec(spec)
    sys.modules[name] = module
    spec.loader.exec_module(module)
    return module


def fault_of(target: Target, case: AnyCase) -> tuple[str | None, Run | NetworkRun | None]:
    """What is wrong with a case's run, and the run. An application that raises is a fault."""
    try:
        run = case.run()
    except ApplicationError as fault:
        where = f"process {fault.process}" if fault.mote is None else f"mote {fault.mote}, process {fault.process}"
        return f"{where} fails: {fault.reason}", None
    found: object = target.check(run)
    if found is not None and not isinstance(found, str):
        raise WrongType(f"check(run) returned {found!r}: it must return a str, or None")
    return None if found is None else shown(found), run


def _draw(target: Target, seed: int, number: int) -> AnyCase:
    """The case of this number of a seed. Each has its own generator, so none depends on those before it."""
    case: object = target.draw(random.Random(f"{seed}/{number}"))
    if not isinstance(case, (Case, NetworkCase)):
        raise WrongType(f"draw(chance) returned a {type(case).__name__}, not a Case: make_case makes one")
    return case


def _tell_nobody(runs: int) -> None:
    """For callers that show no progress."""


def carry_out_seed(name: str, seed: int, count: int, cover: bool, tell: Callable[[int], None] = _tell_nobody) -> Unit:
    """Runs this number of cases of a seed. ``tell(1)`` is called after each, ``tell(0)`` after each run that makes one smaller."""
    target = load_target(name)
    unit, coverage = Unit(seed), Coverage()
    began = time.process_time()
    for number in range(count):
        where = f"{name}, seed {seed}, case {number}"
        try:
            case = _draw(target, seed, number)
            fault, run = fault_of(target, case)
        except ToarmutsError as reason:
            raise CampaignError(f"{where}: {reason}") from None
        except Exception:
            raise CampaignError(f"{where}: the target fails itself\n{traceback.format_exc()}") from None
        unit.runs += 1
        tell(1)
        if run is not None:
            unit.lines += run.transcript.data.count(b"\n")
            if cover:
                coverage.add(run.transcript)
        if fault is not None and fault not in unit.found:
            unit.found[fault] = _keep(target, case, fault, where, seed, tell)
    unit.processor_seconds, unit.coverage = time.process_time() - began, dict(coverage)
    return unit


def _keep(target: Target, case: AnyCase, fault: str, where: str, seed: int, tell: Callable[[int], None]) -> Found:
    """Makes a failing case smaller, and writes it as a file."""
    def fails(smaller: AnyCase) -> bool:
        tell(0)
        return _fails(target, smaller, fault)

    small: AnyCase
    small, tries = case.shrink(fails)
    comment = f"{fault}\n{where}, made smaller by {tries} runs"
    # For `again`.
    inputs = f"\n{_INPUTS}\n{small.inputs_alone()}"
    try:
        run = small.run()
    except ApplicationError as raised:
        return Found(fault, seed, f"# {comment}\n{raised}\n{raised.transcript}{inputs}", False)
    try:
        if isinstance(run, NetworkRun):
            return Found(fault, seed, run.script(comment=comment), True, ".net")
        return Found(fault, seed, run.scenario(comment=comment), True)
    except BadScenario as reason:
        return Found(fault, seed, f"# {comment}\n# no scenario file can have this run: {reason}\n{run.text}{inputs}", False)


def again(target: "Target | str", text: str) -> str | None:
    """Runs what a campaign stored, with the target's applications as they are now; returns what is wrong, or None. ``text`` is that of the
    file, which has script and sizes; ``target`` is a target or its name.

    A test that stays after the repair: ``assert again("target.py:Supervised", pathlib.Path(file).read_text()) is None``.
    """
    found = _WHERE.search(text) if isinstance(text, str) else None
    if found is None:
        raise CampaignError("not a file that a campaign wrote: it has no line with a target, a seed and a case")
    made = load_target(target) if isinstance(target, str) else target
    drawn = _draw(made, int(found["seed"]), int(found["number"]))
    inputs = text.partition(_INPUTS)[2] or text
    return fault_of(made, drawn.with_file(inputs) if isinstance(drawn, NetworkCase) else _with_file(drawn, inputs, found[0]))[0]


def _with_file(drawn: Case, text: str, where: str) -> Case:
    """The case of a file, with the applications in Python that were drawn now."""
    scenario = read_scenarios(text)[0]
    of_file = scenario.applications
    if len(drawn.applications) < len(of_file):
        raise CampaignError(f"the target draws another case than the file's, which has {len(of_file)} applications: {where}")
    # Names and lists are those of the file, where the lists were made smaller.
    applications = [by_file if isinstance(now, (str, list, tuple)) else now for by_file, now in zip(of_file, drawn.applications)]
    lines = scenario.script.split("\n")
    return make_case(applications, lines if lines[-1] else lines[:-1], scenario.options)


def _fails(target: Target, case: AnyCase, fault: str) -> bool:
    try:
        return fault_of(target, case)[0] == fault
    except ToarmutsError:
        return False


@dataclass(frozen=True)
class _Work:
    """The work on a seed, in one object that can be sent."""

    name: str
    count: int
    cover: bool

    def __call__(self, seed: int) -> Unit:
        return carry_out_seed(self.name, seed, self.count, self.cover, _count_run)


@dataclass(frozen=True)
class _WorkOfDask:
    """The same for a worker of Dask, which reports its runs by events of this topic."""

    work: _Work
    topic: str

    def __call__(self, seed: int) -> Unit:
        worker: Any = importlib.import_module("distributed").get_worker()
        runs, reported = 0, -PAUSE_OF_WORKERS

        def report(more: int) -> None:
            nonlocal runs, reported
            runs += more
            if more and time.monotonic() - reported >= PAUSE_OF_WORKERS:
                reported = time.monotonic()
                worker.log_event(self.topic, (seed, runs))

        return carry_out_seed(self.work.name, seed, self.work.count, self.work.cover, report)


class _RunsOfWorkers:
    """The number of runs of each seed, as far as Dask's workers have reported it."""

    def __init__(self) -> None:
        self.topic = f"toarmuts-campaign-{uuid.uuid4()}"
        self._runs: dict[int, int] = {}

    def note(self, event: tuple[Any, tuple[int, int]]) -> None:
        """In Dask's own thread: a worker reports its runs. A seed that is carried out again is counted once."""
        seed, runs = event[1]
        self._runs[seed] = max(self._runs.get(seed, 0), runs)

    def count(self) -> int:
        """The runs of all seeds."""
        return sum(list(self._runs.values()))


# In a process that a campaign has started: where all processes count their runs.
_counter: Any = None


def _begin_process(counter: Any) -> None:
    """Ignores interrupts at the keyboard: the process that started this one ends it."""
    global _counter
    signal.signal(signal.SIGINT, signal.SIG_IGN)
    _counter = counter


def _count_run(runs: int) -> None:
    if runs and _counter is not None:
        with _counter.get_lock():
            _counter.value += runs


@contextlib.contextmanager
def _ignoring_interrupts() -> Iterator[None]:
    """Processes that are started meanwhile ignore interrupts at the keyboard: else each would print a traceback."""
    if threading.current_thread() is not threading.main_thread():
        yield
        return
    before = signal.signal(signal.SIGINT, signal.SIG_IGN)
    try:
        yield
    finally:
        signal.signal(signal.SIGINT, before if before is not None else signal.SIG_DFL)


class _Progress:
    """Prints on standard error how far it is, and how long it will take: on a terminal in one line, elsewhere every ten seconds."""

    def __init__(self, seeds: int, count: int) -> None:
        self._seeds, self._all_runs = seeds, seeds * count
        self._began = self._shown_at = time.monotonic()
        self._is_terminal = sys.stderr.isatty()
        self._width = 0
        self.units: list[Unit] = []
        self._runs_of_units = 0
        self.runs = 0
        """The number of runs so far, also of seeds that are under way."""

    def count_run(self, runs: int) -> None:
        """After a run in this process."""
        self.runs += runs
        self.tell()

    def add(self, unit: Unit) -> None:
        """After a seed."""
        self.units.append(unit)
        self._runs_of_units += unit.runs
        self.runs = max(self.runs, self._runs_of_units)
        self.tell()

    def tell(self) -> None:
        """Prints how far it is, where it is time to, and at the end."""
        now = time.monotonic()
        is_done = len(self.units) == self._seeds
        if now - self._shown_at < (PAUSE_ON_TERMINAL if self._is_terminal else PAUSE) and not is_done:
            return
        self._shown_at = now
        found = len({fault for unit in self.units for fault in unit.found})
        words = f"{len(self.units)} of {self._seeds} seeds, {self.runs:,} of {self._all_runs:,} runs, {found} faults, "
        words += f"{now - self._began:.1f} s{'' if is_done else self._left(now - self._began)}"
        self._write(words, is_open=self._is_terminal and not is_done)

    def _left(self, seconds: float) -> str:
        """About how long it still takes; empty before the first run."""
        if not self.runs:
            return ""
        left = seconds * max(self._all_runs - self.runs, 0) / self.runs
        if left < 100:
            return f", about {left:.0f} s left"
        return f", about {left / 60:.0f} min left" if left < 6000 else f", about {left / 3600:.0f} h left"

    def _write(self, words: str, is_open: bool) -> None:
        """A line over the one before, where that is open."""
        print(words.ljust(self._width), end="\r" if is_open else "\n", file=sys.stderr, flush=True)
        self._width = len(words) if is_open else 0

    def end(self) -> None:
        """Leaves an open line as it is."""
        if self._width:
            print(file=sys.stderr, flush=True)
            self._width = 0


Units = Generator[Union[Unit, None], None, None]
"""The result of each seed, and None while there is nothing new."""


def _by_processes(work: _Work, seeds: range, jobs: int, progress: _Progress) -> Units:
    if jobs == 1:
        for seed in seeds:
            yield carry_out_seed(work.name, seed, work.count, work.cover, progress.count_run)
        return
    context = multiprocessing.get_context("forkserver")
    counter = context.Value("Q", 0)
    with _ignoring_interrupts():
        pool = context.Pool(min(jobs, len(seeds)), _begin_process, (counter,))
    with pool:
        begun, units = set(multiprocessing.active_children()), pool.imap_unordered(work, seeds)
        while True:
            # Not by its lock, which a process that has died may hold.
            progress.runs = counter.get_obj().value
            try:
                yield units.next(timeout=0.2)
            except StopIteration:
                return
            except multiprocessing.TimeoutError:
                # A pool waits without end for one that has died.
                if not begun <= set(multiprocessing.active_children()):
                    raise CampaignError("a process has died, of the target or for lack of memory; --jobs 1 shows which") from None
                yield None


def _by_dask(work: _Work, seeds: range, address: str, jobs: int, progress: _Progress) -> Units:
    try:
        distributed: Any = importlib.import_module("distributed")
    except ImportError:
        raise CampaignError("the module distributed is missing: apt-get install python3-distributed") from None
    if not address:
        raise CampaignError("--dask takes a scheduler's address, or local")
    cluster = _local_cluster(distributed, jobs) if address == "local" else None
    try:
        client = distributed.Client(cluster if cluster is not None else address, timeout=PATIENCE)
    except (OSError, ValueError) as fault:
        raise CampaignError(f"--dask {address}: no scheduler is reached there: {fault}") from None
    runs = _RunsOfWorkers()
    client.subscribe_topic(runs.topic, runs.note)
    try:
        futures = distributed.as_completed(client.map(_WorkOfDask(work, runs.topic), seeds, pure=False))
        while not futures.is_empty():
            progress.runs = max(progress.runs, runs.count())
            if not futures.has_ready():
                time.sleep(0.1)
                yield None
                continue
            yield _result_of(next(futures), address)
    finally:
        client.unsubscribe_topic(runs.topic)
        client.close()
        if cluster is not None:
            cluster.close()


def _local_cluster(distributed: Any, jobs: int) -> Any:
    """Workers of Dask on this machine. They log nothing: what fails is raised here, and an interrupt ends them amid their work."""
    with _ignoring_interrupts():
        return distributed.LocalCluster(n_workers=jobs, threads_per_worker=1, dashboard_address=None,
                                        silence_logs=logging.CRITICAL + 1)


def _result_of(future: Any, address: str) -> Unit:
    """What a worker of Dask returned."""
    try:
        unit: Unit = future.result()
        return unit
    except ToarmutsError:
        raise
    except (Exception, asyncio.CancelledError) as fault:
        raise CampaignError(f"--dask {address}: {type(fault).__name__}: {fault}") from None


def carry_out(units: Iterable[Unit | None], progress: _Progress) -> tuple[list[Unit], BaseException | None]:
    """All results in the order of their seeds, or those up to an interrupt at the keyboard or a fault of the target; and that."""
    end: BaseException | None = None
    try:
        for unit in units:
            if unit is not None:
                progress.add(unit)
            else:
                progress.tell()
    except (KeyboardInterrupt, CampaignError) as fault:
        end = fault
    finally:
        progress.end()
    return sorted(progress.units, key=lambda unit: unit.seed), end


def smallest(units: list[Unit]) -> list[tuple[Found, int]]:
    """For each fault its smallest file, and the number of seeds that found it."""
    by_fault: dict[str, list[Found]] = {}
    for unit in units:
        for fault, found in unit.found.items():
            by_fault.setdefault(fault, []).append(found)
    return [(min(several, key=lambda found: (not found.is_scenario, len(found.text), found.seed)), len(several))
            for _, several in sorted(by_fault.items())]


def write_found(found: Found, folder: pathlib.Path, taken: set[str]) -> pathlib.Path:
    """Writes a file under a name that no other fault has."""
    stem = name = re.sub(r"[^A-Za-z0-9]+", "-", found.fault).strip("-")[:60] or "fault"
    number = 1
    while name in taken:
        number += 1
        name = f"{stem}-{number}"
    taken.add(name)
    folder.mkdir(parents=True, exist_ok=True)
    place = folder / (name + (found.ending if found.is_scenario else ".txt"))
    place.write_text(found.text, encoding="utf-8")
    return place


def _seeds(word: str) -> range:
    found = re.fullmatch(r"(\d+):(\d+)", word)
    if found is None or not int(found[1]) < int(found[2]) <= sys.maxsize:
        raise argparse.ArgumentTypeError(f"{word} is not a range of seeds, as 0:100 is")
    return range(int(found[1]), int(found[2]))


def _positive(word: str) -> int:
    if not word.isdigit() or int(word) == 0:
        raise argparse.ArgumentTypeError(f"{word} is not a positive number")
    return int(word)


def _parser() -> argparse.ArgumentParser:
    assert __doc__ is not None
    words = argparse.ArgumentParser(prog="toarmuts-campaign", description=__doc__, formatter_class=argparse.RawDescriptionHelpFormatter)
    words.add_argument("target", metavar="TARGET", help="module:name or file.py:name")
    words.add_argument("--seeds", type=_seeds, default=range(100), metavar="A:B", help="from A to B, without B (default: 0:100)")
    words.add_argument("--count", type=_positive, default=100, metavar="N", help="runs for each seed (default: 100)")
    words.add_argument("--jobs", type=_positive, default=os.cpu_count() or 1, metavar="N", help="processes (default: all processors)")
    words.add_argument("--found", type=pathlib.Path, default=pathlib.Path("found"), metavar="FOLDER", help="for files (default: found)")
    words.add_argument("--dask", metavar="ADDRESS", help="address of a Dask scheduler, or `local`")
    words.add_argument("--coverage", action="store_true", help="show which calls, refusals and events were reached")
    words.add_argument("--again", type=pathlib.Path, nargs="+", metavar="FILE", help="run these files again, and search nothing")
    words.add_argument("--version", action="version", version=f"toarmuts {_version()}")
    return words


def _version() -> str:
    from . import __version__

    return __version__


def _run_again(asked: argparse.Namespace) -> int:
    """Prints what is still wrong with stored failures; returns the status."""
    target, status = load_target(asked.target), 0
    for place in asked.again:
        try:
            fault = again(target, place.read_text(encoding="utf-8"))
        except (ToarmutsError, UnicodeDecodeError) as reason:
            raise CampaignError(f"{place}: {reason}") from None
        except OSError:
            raise
        except Exception:
            raise CampaignError(f"{place}: the target fails itself\n{traceback.format_exc()}") from None
        print(f"{place}: {fault if fault is not None else 'nothing is wrong any more'}")
        status = status if fault is None else 1
    return status


def _report(units: list[Unit], asked: argparse.Namespace, seconds: float) -> int:
    """Prints what was found, and how fast; returns the status."""
    faults = smallest(units)
    taken: set[str] = set()
    # All are stored before any is printed, which may fail.
    places = [write_found(found, asked.found, taken) for found, _ in faults]
    for (found, seeds), place in zip(faults, places):
        print(f"{found.fault}: found by {seeds} of {len(units)} seeds; the smallest, of seed {found.seed}: {place}")
    if asked.coverage:
        coverage = Coverage()
        for unit in units:
            coverage.update(unit.coverage)
        print(coverage.table())
    runs, lines = sum(unit.runs for unit in units), sum(unit.lines for unit in units)
    processor = sum(unit.processor_seconds for unit in units)
    print(f"{len(units)} seeds, {runs:,} runs, {lines:,} lines, {len(faults)} faults")
    each = processor / max(runs, 1) * 1e6
    print(f"{seconds:.1f} s, {runs / seconds:,.0f} runs a second, {each:,.0f} us of a processor for each", file=sys.stderr)
    return 1 if faults else 0


def main(words: list[str] | None = None) -> int:
    """The program ``toarmuts-campaign``. Status 0: nothing was found, or nothing is wrong any more; 1: something was; 2: invalid
    arguments, a target that fails itself, a process that died, a missing scheduler or folder; 130: an interrupt. What was found up to
    then is printed and stored."""
    asked = _parser().parse_args(words)
    work = _Work(asked.target, asked.count, asked.coverage)
    began = time.monotonic()
    try:
        if asked.again is not None:
            return _run_again(asked)
        load_target(asked.target)
        progress = _Progress(len(asked.seeds), asked.count)
        units = (_by_processes(work, asked.seeds, asked.jobs, progress) if asked.dask is None
                 else _by_dask(work, asked.seeds, asked.dask, asked.jobs, progress))
        with contextlib.closing(units):
            made, end = carry_out(units, progress)
        if isinstance(end, CampaignError) and not made:
            raise end
        if end is not None:
            why = "interrupted" if isinstance(end, KeyboardInterrupt) else str(end)
            print(f"toarmuts-campaign: {why}, after {len(made)} of {len(asked.seeds)} seeds", file=sys.stderr)
        status = _report(made, asked, time.monotonic() - began)
    except (CampaignError, OSError) as fault:
        print(f"toarmuts-campaign: {fault}", file=sys.stderr)
        return 2
    return status if end is None else 2 if isinstance(end, CampaignError) else 130


if __name__ == "__main__":
    sys.exit(main())
