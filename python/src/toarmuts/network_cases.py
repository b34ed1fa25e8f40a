"""The cases of a campaign with a network, and how they are made smaller."""
from __future__ import annotations

import re
from collections.abc import Callable, Sequence
from dataclasses import dataclass, replace

from .errors import BadScenario, WrongType
from .links import Link, Loss
from .network import Network
from .network_runs import NetworkRun, run_setup
from .network_setup import MoteSetup, NetworkSetup
from .network_transcript import NetworkTranscript
from .shrinking import Tries, thinner
from .values import Status

_LINK = re.compile(r"link ([0-9]+) ([0-9]+) delay ([0-9]+)(?: every ([0-9]+)| lot ([0-9]+) seed ([0-9]+))?")
_MOTES = re.compile(r"mote ([0-9]+)(?:\.\.([0-9]+))?(?: .*)?")
_SETS_UP = ("link ", "mote ", "room ", "rounds ")


@dataclass(frozen=True)
class NetworkCase:
    """A case: motes with their links, and the lines of a script."""

    setup: NetworkSetup
    script: tuple[str, ...] = ()

    def run(self) -> NetworkRun:
        """Runs it."""
        return run_setup(self.setup, self.script)

    def shrink(self, fails: "Callable[[NetworkCase], bool]") -> "tuple[NetworkCase, int]":
        """A case from which no line, no link, no loss and no last mote can be left out, and the number of runs that this took."""
        tries = Tries(fails)
        case, before = self, None
        while case != before:
            before, case = case, _shrink_once(case, tries)
        return case, tries.count

    def inputs_alone(self) -> str:
        """Its motes, links and script as a file without a transcript; applications in Python are left out."""
        motes = tuple(replace(mote, named=tuple(named for named in mote.named if named.line is not None)) for mote in self.setup.motes)
        setup = replace(self.setup, motes=motes)
        return NetworkRun(setup, self.script, Status.FINISHED, None, NetworkTranscript("")).script()

    def with_file(self, text: str) -> "NetworkCase":
        """The same motes with the links and the script of a file, which may have fewer motes."""
        # A line may have any other byte, and is malformed then: str.splitlines would end it there.
        lines = text.split("\n")
        count = max((int(found[2] or found[1]) for found in map(_MOTES.fullmatch, lines) if found is not None), default=0)
        if count > len(self.setup.motes):
            raise BadScenario(f"the target draws another case than the file's, which has {count} motes")
        links = tuple(_link_of(found) for found in map(_LINK.fullmatch, lines) if found is not None)
        script = tuple(line for line in lines if line and not line.startswith(("#", *_SETS_UP)))
        return NetworkCase(replace(self.setup, motes=self.setup.motes[:count], links=links), script)


def make_network_case(network: Network, script: Sequence[str] = ()) -> NetworkCase:
    """A case of a network, which is started again for each run, and a list of lines."""
    if not isinstance(network, Network):
        raise WrongType(f"the network of a case must be a Network, not {type(network).__name__}")
    if isinstance(script, (str, bytes)) or not isinstance(script, Sequence) or not all(isinstance(line, str) for line in script):
        raise WrongType("the script of a network's case must be a list of lines")
    return NetworkCase(network.setup, tuple(script))


def _link_of(found: "re.Match[str]") -> Link:
    """The link of a line of a file."""
    sender, receiver, delay, every, lot, seed = (None if word is None else int(word) for word in found.groups())
    assert sender is not None and receiver is not None and delay is not None
    return Link(sender, receiver, delay, Loss(every, lot, seed or 0))


def _with_links(case: NetworkCase, links: Sequence[Link]) -> NetworkCase:
    return replace(case, setup=case.setup.with_links(links))


def _without_losses(case: NetworkCase, fails: Callable[[NetworkCase], bool]) -> NetworkCase:
    """The same with fewer links that lose frames."""
    for place, link in enumerate(case.setup.links):
        links = case.setup.links
        smaller = _with_links(case, (*links[:place], replace(link, loss=Loss()), *links[place + 1:]))
        if link.loss != Loss() and fails(smaller):
            case = smaller
    return case


def _without_last(case: NetworkCase) -> NetworkCase | None:
    """The same without the last mote; None where it is the only one, or a line is for it."""
    last = len(case.setup.motes)
    if last <= 1 or any(line.startswith(f"{last} ") for line in case.script):
        return None
    motes: tuple[MoteSetup, ...] = case.setup.motes[:-1]
    links = tuple(link for link in case.setup.links if last not in (link.sender, link.receiver))
    return replace(case, setup=replace(case.setup, motes=motes, links=links))


def _shrink_once(case: NetworkCase, fails: Callable[[NetworkCase], bool]) -> NetworkCase:
    case = replace(case, script=thinner(case.script, lambda lines: fails(replace(case, script=lines))))
    whole = case
    case = _with_links(case, thinner(case.setup.links, lambda links: fails(_with_links(whole, links))))
    case = _without_losses(case, fails)
    smaller = _without_last(case)
    while smaller is not None and fails(smaller):
        case, smaller = smaller, _without_last(smaller)
    return case
