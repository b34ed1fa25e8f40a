"""Runs of networks in scenario files (docs/scenarios.md describes them).

What `./scenario` alone reads of them, beside rows, `...`, names and quotes: `quiet`, and any line of a script by `script` or `last`.
"""
from __future__ import annotations

import re
from collections.abc import Callable
from dataclasses import dataclass, field, replace
from typing import Any

from .applications import ApplicationLike
from .call import read_calls
from .errors import BadCall, BadInput, BadNetwork, BadScenario, BadSizes, NoApplication, NotInPython, TooManyApplications, WrongType
from .links import MOST_NUMBER
from .network import Network
from .network_runs import NetworkRun, run_setup
from .network_setup import read_input
from .options import Options
from .rules import RULES
from .scenario import Scenario, read_only_by_program
from .script import MOST_SCRIPT_LINE, encoded
from .values import read_number

_OF_TRANSCRIPT = re.compile(r"(?:=|lost|full|missed|halt|bad|too)(?: |\Z)|[0-9](?!\S* (?:serial|frame)(?: |\Z))")
_SPAN = re.compile(r"([1-9][0-9]{0,9})(?:\.\.([1-9][0-9]{0,9}))?")
_LINKS = re.compile(r"(?:link (?P<sender>\S+) (?P<receiver>\S+)|(?P<shape>line|ring|mesh) (?P<motes>\S+)"
                    r"|grid (?P<cells>\S+) width (?P<width>\S+)) delay (?P<delay>\S+)"
                    r"(?: every (?P<every>\S+)| lot (?P<lot>\S+) seed (?P<seed>\S+))?")
_FORM_WITH_LOSSES = ("links are between motes that there are, with a delay of at least 1; "
                     + ", ".join(rule.bounds for rule in RULES.losses))
_LOSSES = tuple(f" {word} " for rule in RULES.losses for word in rule.words)


def _span(word: str) -> range:
    """The numbers of motes that a word has."""
    found = _SPAN.fullmatch(word)
    first = int(found[1]) if found is not None else 1
    last = int(found[2] or found[1]) if found is not None else 0
    if not first <= last <= MOST_NUMBER:
        raise BadNetwork(f"{word} is not a number of motes")
    return range(first, last + 1)


def _add_motes(network: Network, text: str) -> None:
    """``N WORD..`` of a line ``mote``."""
    words, calls, listed = text.partition(" calls")
    if calls and listed and (not listed.startswith(" ") or listed == " "):
        raise BadNetwork("no list of calls")
    span, *given = words.split(" ")
    motes = _span(span)
    if motes[0] != len(network.setup.motes) + 1:
        raise BadNetwork(f"mote {motes[0]} is not the next one")
    applications: list[ApplicationLike] = []
    sizes: dict[str, int] = {}
    rest = iter(given)
    for word in rest:
        name = word.removeprefix("--")
        if name == word:
            if word not in RULES.applications:
                raise BadNetwork(f"no application {word}" if word[:1].isalpha() else "not an application")
            applications.append(word)
        elif name in RULES.sizes:
            sizes[name] = _size(next(rest, ""))
        else:
            raise BadNetwork(f"no size {name}")
    network.add(*applications, *([read_calls(listed[1:])] if calls else []), count=len(motes), options=replace(Options(), **sizes))


def _size(word: str) -> int:
    """The number of a size."""
    try:
        return read_number(word, MOST_NUMBER)
    except BadCall as fault:
        raise BadNetwork(fault.reason) from None


def _add_links(network: Network, line: str) -> None:
    """A line with links."""
    found = _LINKS.fullmatch(line)
    if found is None:
        raise BadNetwork("no line with links")
    numbers = {name: read_number(found[name], MOST_NUMBER) for name in ("delay", "every", "lot", "seed") if found[name] is not None}
    if found["sender"] is not None:
        network.link(read_number(found["sender"], MOST_NUMBER), read_number(found["receiver"], MOST_NUMBER), **numbers)
    elif found["shape"] is not None:
        shapes: dict[str, Callable[..., Network]] = {"line": network.line, "ring": network.ring, "mesh": network.mesh}
        shapes[found["shape"]](_span(found["motes"]), **numbers)
    else:
        network.grid(read_number(found["width"], MOST_NUMBER, 1), _span(found["cells"]), **numbers)


def _form_of(word: str, line: str) -> str:
    """What a malformed line of this first word should be."""
    says_losses = word in ("link", "line", "mesh", "ring", "grid") and any(each in line for each in _LOSSES)
    return _FORM_WITH_LOSSES if says_losses else RULES.setup[word]


def _set_up(network: Network, word: str, line: str) -> None:
    """Does what a line says before the first input."""
    rest = line.partition(" ")[2]
    if word == "mote":
        _add_motes(network, rest)
    elif word in ("room", "rounds"):
        network._limit(**{word: read_number(rest, MOST_NUMBER)})
    else:
        _add_links(network, line)


@dataclass
class NetworkScenario(Scenario):
    """A run of a network in a file, and the result that the file expects."""

    network: Network = field(default_factory=Network)
    """Its motes and links. A run makes them anew."""
    has_input: bool = False
    """Whether there is an input: after it no line sets anything up."""
    _is_begun: bool = field(default=False, repr=False, compare=False)

    def run(self) -> Any:
        """Runs it: a :class:`toarmuts.NetworkRun`."""
        made: NetworkRun = run_setup(self.network.setup, self.script)
        return made

    def _read_line(self, line: str) -> None:
        if line == "network" and not self._is_begun:
            self._is_begun = True
            return
        word = line.partition(" ")[0]
        if word in ("quiet", "script", "last"):
            raise NotInPython(f"`{word}` of a network is read by ./scenario alone")
        if word in ("app", "calls", "text", *RULES.sizes):
            raise BadScenario(f"unknown word {word}")
        super()._read_line(line)

    def _append(self, count: int, line: str) -> None:
        word = line.partition(" ")[0]
        if _OF_TRANSCRIPT.match(line):
            self._entries.append(f"{line}\n" * count)
        elif word in RULES.setup:
            for _ in range(count):
                self._take_setup(word, line)
        else:
            self._take_input(word, line)
            self._push(count, line)

    def _take_setup(self, word: str, line: str) -> None:
        if self.has_input:
            raise BadScenario(f"{word} sets a network up, and is below an input")
        if len(encoded(line, "a line")) > MOST_SCRIPT_LINE:
            raise BadScenario(f"a line of a network's script has at most {MOST_SCRIPT_LINE} bytes")
        try:
            _set_up(self.network, word, line)
        except BadCall as fault:
            raise BadScenario(fault.reason if word == "mote" else _form_of(word, line)) from None
        except (BadNetwork, BadSizes, NoApplication, TooManyApplications, WrongType) as fault:
            raise BadScenario(str(fault) if str(fault).startswith("no application") else _form_of(word, line)) from None

    def _take_input(self, word: str, line: str) -> None:
        read_only_by_program(line)
        try:
            words = read_input(line, len(self.network.setup.motes))
        except BadInput:
            words = None
        if words is None:
            number = int(word) if re.fullmatch("[0-9]{1,10}", word) else None
            if number is not None and not 1 <= number <= len(self.network.setup.motes):
                raise BadScenario(f"there is no mote {number}")
            raise BadScenario(f"{line} is no line of a script" if word == "tick" or number is not None else f"unknown word {word}")
        self.has_input = True
