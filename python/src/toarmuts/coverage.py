"""Which rules of the mote a set of runs reached: each call by each possible reply, each event by its origin.

>>> coverage = Coverage()
>>> _ = coverage.add(Transcript("4 synch 129 - -> timer-stop 9\\n4 answer refused 7 -> wait\\n"))
>>> coverage[Cell("timer-stop", "bad-name")], coverage[Cell("from synch", "init")]
(1, 1)
"""
from __future__ import annotations

from collections import Counter
from functools import lru_cache
from operator import attrgetter
from typing import Iterable, NamedTuple, Union

from .difference import HasTranscript
from .errors import WrongType, repr_of
from .network_transcript import NetworkTranscript
from .numbers import Origin, ReplyKind
from .rules import RULES
from .transcript import BAD_LINE, HALT, INPUT, NOTE, TURN, Transcript


class Cell(NamedTuple):
    """A rule: a call and its reply, an origin and an event, or the kind of another line and what it says."""

    what: str
    how: str


OWN, LOW = "own", "low"
FIRST_KERNEL_EVENT = 128
_LOST = (1, 12, 18)
_WORDS = {rule.kind: rule.name for rule in RULES.calls.values()}
_EVENTS = {code: rule.name for code, rule in RULES.events.items()}


def _replies(name: str) -> list[str]:
    """The replies that a call may have, refusals last."""
    rule = RULES.calls[name]
    replies = ["true", "false"] if rule.reply == "flag" else [rule.reply or "made"]
    return replies + [RULES.refusals[number].name for number in rule.refusals]


@lru_cache(maxsize=None)
def cells() -> tuple[Cell, ...]:
    """All cells, in the order of the table."""
    made = [Cell(name, reply) for name in RULES.calls for reply in _replies(name)]
    made += [Cell(f"from {origin}", rule.name) for rule in RULES.events.values() for origin in rule.origins]
    made += [Cell(f"from {origin}", codes) for origin in ("event", "synch") for codes in (LOW, OWN)]
    made += [Cell("from callback", "expired")]
    made += [Cell("input", kind) for kind in ("tick", "serial", "frame")]
    made += [Cell("note", "sent"), *(Cell("lost", RULES.refusals[number].name) for number in _LOST)]
    return tuple(made + [Cell("end", "halted"), Cell("end", "bad line"), Cell("end", "too long")])


@lru_cache(maxsize=None)
def _known() -> frozenset[Cell]:
    return frozenset(cells())


def _reply_cell(asked: int, reply: int, refusal: int) -> Cell:
    kind = ReplyKind(reply)
    if kind is ReplyKind.REFUSED:
        how = RULES.refusals[refusal].name if refusal in RULES.refusals else str(refusal)
    else:
        how = ("true" if refusal else "false") if kind is ReplyKind.FLAG else kind.name.lower()
    return Cell(_WORDS[asked], how)


def _told_cell(origin: int, event: int) -> Cell:
    if origin == Origin.CALLBACK:
        return Cell("from callback", "expired")
    return Cell(f"from {Origin(origin).name.lower()}", _EVENTS.get(event, LOW if event < FIRST_KERNEL_EVENT else OWN))


def _other_cell(kind: int, detail: int, refusal: int) -> Cell:
    if kind == INPUT:
        return Cell("input", ("tick", "serial", "frame")[detail])
    if kind == NOTE:
        return Cell("note", "sent") if detail else Cell("lost", RULES.refusals[refusal].name)
    return Cell("end", "halted" if kind == HALT else "bad line" if kind == BAD_LINE else "too long")


_numbers = attrgetter("_kind", "_detail", "_event", "_reply", "_refusal", "_asked_kind", "_call_kind")


@lru_cache(maxsize=8192)
def _cells_of(kind: int, detail: int, event: int, reply: int, refusal: int, asked: int, call: int) -> tuple[Cell, ...]:
    """The cells that a row with these numbers reaches."""
    if kind != TURN:
        return (_other_cell(kind, detail, refusal),)
    ends = RULES.calls[_WORDS[call]].reply is None
    made = (Cell(_WORDS[call], "made"),) if ends else ()
    if detail != Origin.ANSWER:
        return (*made, _told_cell(detail, event))
    return (*made, _reply_cell(asked, reply, refusal)) if asked else made


Counted = Union[Transcript, NetworkTranscript, HasTranscript]


class Coverage(Counter[Cell]):
    """How often each cell was reached. Several add up, also those of other processes. ``coverage[..]`` raises for what isn't a cell."""

    def __missing__(self, cell: object) -> int:
        if cell not in _known():
            raise WrongType(f"there is no cell {repr_of(cell)}; Coverage().missing() lists all")
        return 0

    def add(self, run: "Counted") -> "Coverage":
        """Counts the entries of a run or transcript; of a network those of all motes. A quiet one counts for nothing, since it doesn't
        show replies."""
        transcript = run if isinstance(run, (Transcript, NetworkTranscript)) else getattr(run, "transcript", None)
        if isinstance(transcript, NetworkTranscript):
            for mote in transcript.motes:
                self.add(transcript.mote(mote))
            return self
        if not isinstance(transcript, Transcript):
            raise WrongType(f"what is counted must be a Run, Mote or Transcript, not {type(run).__name__}")
        if not transcript.quiet:
            for numbers, count in Counter(map(_numbers, transcript)).items():
                for cell in _cells_of(*numbers):
                    self[cell] = self.get(cell, 0) + count
        return self

    def __add__(self, other: "Counter[Cell]") -> "Coverage":  # type: ignore[override]  # of cells alone
        """What both reached."""
        if not isinstance(other, Counter):
            return NotImplemented
        made = Coverage(self)
        made.update(other)
        return made

    def reached(self) -> list[Cell]:
        """The cells that were reached."""
        return [cell for cell in cells() if self[cell]]

    def missing(self) -> list[Cell]:
        """The cells that were not."""
        return [cell for cell in cells() if not self[cell]]

    def unexpected(self) -> list[Cell]:
        """What was reached though the rules have no such cell: then rules.json or the mote is wrong."""
        return [cell for cell, count in self.items() if count and cell not in _known()]

    def table(self) -> str:
        """A row for each call and each origin: how often each cell was reached, a dash for never."""
        rows: dict[str, list[str]] = {}
        for cell in cells():
            rows.setdefault(cell.what, []).append(f"{cell.how} {self[cell] or '-'}")
        width = max(map(len, rows)) + 2
        lines = [f"{what:{width}}{', '.join(names)}" for what, names in rows.items()]
        return "\n".join([*lines, f"{len(self.reached())} of {len(cells())} cells were reached"])


def coverage_of(runs: "Iterable[Counted]") -> Coverage:
    """What runs reached."""
    if not isinstance(runs, Iterable):
        raise WrongType(f"runs must be a list, not {type(runs).__name__}")
    coverage = Coverage()
    for run in runs:
        coverage.add(run)
    return coverage


__all__ = ["Cell", "Coverage", "cells", "coverage_of"]
