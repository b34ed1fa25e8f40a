"""Advances a mote or a network until something holds."""
from __future__ import annotations

from collections.abc import Callable
from typing import Any, Protocol, TypeVar

from .errors import BadInput, NotReached, WrongType
from .script import MOST_TICKS
from .values import index_of


class HasClock(Protocol):
    """A mote, or a network."""

    @property
    def clock(self) -> int:
        """The ticks since boot."""

    def tick(self, ticks: int = 1) -> Any:
        """Advances the clock."""


Worked = TypeVar("Worked", bound=HasClock)


def advance_until(worked: Worked, predicate: Callable[[Worked], object], next_moment: Callable[[], int | None], most: int) -> None:
    """Advances the clock from one moment at which something happens to the next, until the predicate holds; by at most this number of ticks
    in all. Raises NotReached where it doesn't hold then."""
    __tracebackhide__ = True
    if not callable(predicate):
        raise WrongType(f"until takes a function of the mote or network, not {type(predicate).__name__}")
    end = worked.clock + _check_most(most)
    while not predicate(worked):
        now = worked.clock
        if now >= end:
            raise NotReached(f"what was awaited doesn't hold after {most:,} ticks, at clock {now:,}")
        moment = next_moment()
        worked.tick(min(end if moment is None else max(moment, now + 1), end) - now)


def _check_most(most: object) -> int:
    """The most ticks."""
    number = index_of(most)
    if number is None:
        raise WrongType(f"most must be an int, not {type(most).__name__}")
    if not 0 <= number <= MOST_TICKS:
        raise BadInput(f"most is {number}; 0 to {MOST_TICKS:,} is allowed")
    return number
