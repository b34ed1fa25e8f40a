"""Makes a failing case smaller: leaves out lines of the script, calls and applications as long as it fails in the same way."""
from __future__ import annotations

from collections.abc import Callable, Iterable
from dataclasses import dataclass, field, replace
from typing import Any, TypeVar

from .applications import ApplicationLike
from .errors import WrongType
from .options import Options
from .runs import Run, run
from .script import Script

MOST_TRIES = 3000
Part = TypeVar("Part")


@dataclass(frozen=True)
class Case:
    """What is run: applications, a script as lines, and sizes."""

    applications: tuple[ApplicationLike, ...]
    script: tuple[str, ...] = ()
    options: Options = field(default_factory=Options)

    def run(self) -> Run:
        """Runs it."""
        return run(self.applications, Script(self.script), options=self.options)

    def shrink(self, fails: "Callable[[Case], bool]") -> "tuple[Case, int]":
        """A case from which nothing can be left out, and the number of runs that this took."""
        return shrink(self, fails)

    def inputs_alone(self) -> str:
        """Its sizes, script, names and lists as a scenario without a transcript."""
        lists = [application if isinstance(application, (list, tuple, str)) else [] for application in self.applications]
        return run(lists, Script(self.script), options=self.options).scenario(transcript=False)


def make_case(applications: Any, script: Any = (), options: Options | None = None) -> Case:
    """A case of a list of applications and a Script or a list of lines."""
    if isinstance(applications, (str, bytes)) or not isinstance(applications, Iterable):
        raise WrongType(f"the applications of a case must be a list, not {type(applications).__name__}")
    lines = script if isinstance(script, Script) else Script(script)
    return Case(tuple(applications), lines.lines, options if options is not None else Options())


class Tries:
    """Counts tries, and returns False once there were too many."""

    def __init__(self, fails: Callable[[Any], bool]) -> None:
        self._fails, self.count = fails, 0

    def __call__(self, case: Any) -> bool:
        self.count += 1
        return self.count <= MOST_TRIES and self._fails(case)


def thinner(parts: tuple[Part, ...], fails: Callable[[tuple[Part, ...]], bool]) -> tuple[Part, ...]:
    """Leaves out parts, halves first, as long as it fails."""
    step = max(1, len(parts) // 2)
    while step:
        place = 0
        while place < len(parts):
            fewer = parts[:place] + parts[place + step:]
            if fails(fewer):
                parts = fewer
            else:
                place += step
        step //= 2
    return parts


def _with_application(case: Case, place: int, calls: tuple[Any, ...]) -> Case:
    made = (*case.applications[:place], calls, *case.applications[place + 1:])
    return replace(case, applications=made)


def _shrink_once(case: Case, fails: Callable[[Case], bool]) -> Case:
    case = replace(case, script=thinner(case.script, lambda lines: fails(replace(case, script=lines))))
    for place, application in enumerate(case.applications):
        if isinstance(application, (list, tuple)):
            whole = case
            calls = thinner(tuple(application), lambda calls: fails(_with_application(whole, place, calls)))
            case = _with_application(case, place, calls)
    # Only the last application can be left out: the others' numbers would change.
    while len(case.applications) > 1 and fails(replace(case, applications=case.applications[:-1])):
        case = replace(case, applications=case.applications[:-1])
    return case


def shrink(case: Case, fails: Callable[[Case], bool]) -> tuple[Case, int]:
    """A case from which nothing can be left out, and the number of runs that this took.

    >>> small, _ = shrink(make_case(["hello"], ["tick 1", "tick 2", "tick 3"]), lambda case: "tick 2" in case.script)
    >>> small.script
    ('tick 2',)
    """
    tries = Tries(fails)
    before: Case | None = None
    while before is None or (before.script, before.applications) != (case.script, case.applications):
        before, case = case, _shrink_once(case, tries)
    return case, tries.count
