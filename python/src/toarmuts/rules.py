"""The rules of calls, refusals and events, as ``rules.json`` has them.

Only that file has them, ``interface/rules.json`` of the repository: ``scripts/make-calls`` writes the classes of
:mod:`toarmuts.calls` and :mod:`toarmuts.numbers` from it, and the gate compares it with all other tables.

>>> RULES.calls["timer-set"].arguments
('timer', 'interval')
>>> RULES.calls["mmem-alloc"].refusals
(7, 8, 11, 12, 18)
"""
from __future__ import annotations

import json
import pathlib
from dataclasses import dataclass
from typing import Any, Mapping

PLACE = pathlib.Path(__file__).with_name("rules.json")


@dataclass(frozen=True)
class ArgumentRule:
    """An argument of calls: its name, its letter in docs/profile.md, and the largest number where it is a number."""

    name: str
    profile: str
    most: int | None
    about: str


@dataclass(frozen=True)
class CallRule:
    """A call: its word and number, its arguments, the refusals in the order of their checks, and the kind of its reply."""

    name: str
    kind: int
    arguments: tuple[str, ...]
    refusals: tuple[int, ...]
    reply: str | None
    about: str


@dataclass(frozen=True)
class RefusalRule:
    """A refusal: its number in a transcript, a name, and what it means."""

    number: int
    name: str
    about: str


@dataclass(frozen=True)
class EventRule:
    """An event of the kernel: whether it is reserved, so that no application may post it, and the origins with which it is received."""

    name: str
    code: int
    reserved: bool
    origins: tuple[str, ...]
    about: str


@dataclass(frozen=True)
class SizeRule:
    """A size of a mote, in bytes."""

    name: str
    least: int
    most: int
    multiple_of: int
    one_of: tuple[int, ...]
    default: int | None

    @property
    def allowed(self) -> str:
        """Which sizes a mote may have.

        >>> RULES.sizes["mmem"].allowed
        'a multiple of 4 from 4 to 65,536'
        """
        if self.one_of:
            return " or ".join(map(str, self.one_of))
        return f"a multiple of {self.multiple_of} from {self.least:,} to {self.most:,}"


@dataclass(frozen=True)
class LossRule:
    """Which frames of a link are lost: how a line says it, its first words, and the bounds of its numbers."""

    form: str
    words: tuple[str, ...]
    bounds: str
    about: str


@dataclass(frozen=True)
class Rules:
    """All rules of the file. The applications that aren't of the program mote are made here; the library has the others."""

    applications: tuple[str, ...]
    not_of_mote: tuple[str, ...]
    limits: Mapping[str, int]
    sizes: Mapping[str, SizeRule]
    arguments: Mapping[str, ArgumentRule]
    calls: Mapping[str, CallRule]
    replies: tuple[str, ...]
    refusals: Mapping[int, RefusalRule]
    origins: tuple[str, ...]
    events: Mapping[int, EventRule]
    losses: tuple[LossRule, ...]
    setup: Mapping[str, str]
    """What a line that sets a network up should be, by its first word."""


def _call(kind: int, row: dict[str, Any]) -> CallRule:
    return CallRule(row["name"], kind, tuple(row["arguments"]), tuple(row["refusals"]), row["reply"], row["about"])


def _event(row: dict[str, Any]) -> EventRule:
    return EventRule(row["name"], row["code"], row["reserved"], tuple(row["origins"]), row["about"])


def _loss(row: dict[str, Any]) -> LossRule:
    return LossRule(row["form"], tuple(row["words"]), row["bounds"], row["about"])


def _size(row: dict[str, Any]) -> SizeRule:
    one_of = tuple(row.get("one_of", ()))
    return SizeRule(row["name"], row.get("least", 0), row.get("most", 0), row.get("multiple_of", 1), one_of, row["default"])


def read_rules(place: pathlib.Path = PLACE) -> Rules:
    """Reads the file."""
    content = json.loads(place.read_text(encoding="utf-8"))
    return Rules(
        applications=tuple(content["applications"]),
        not_of_mote=tuple(content["not_of_mote"]),
        limits=content["limits"],
        sizes={row["name"]: _size(row) for row in content["sizes"]},
        arguments={row["name"]: ArgumentRule(**row) for row in content["arguments"]},
        calls={row["name"]: _call(kind, row) for kind, row in enumerate(content["calls"], 1)},
        replies=tuple(content["replies"]),
        refusals={row["number"]: RefusalRule(**row) for row in content["refusals"]},
        origins=tuple(content["origins"]),
        events={row["code"]: _event(row) for row in content["events"]},
        losses=tuple(_loss(row) for row in content["losses"]),
        setup={word: row["form"] for row in content["setup"] for word in row["words"]},
    )


RULES = read_rules()
FIRST_PROCESS = RULES.limits["first_process"]
MOST_APPLICATIONS = RULES.limits["applications"]
BUNDLED = tuple(name for name in RULES.applications if name not in RULES.not_of_mote)
