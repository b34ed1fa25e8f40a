"""Radio links between the motes of a network, and the shapes that they make (docs/network.md)."""
from __future__ import annotations

import itertools
import math
import numbers
import struct
from collections.abc import Callable, Iterable, Iterator, Mapping, Sequence, Set
from dataclasses import dataclass, replace
from typing import Any, Union

from .errors import BadNetwork, WrongType, repr_of
from .values import index_of

MOST_NUMBER = 2**32 - 1
# Of toarmuts.h. A script, and so the program `network`, has seeds and rounds up to MOST_NUMBER.
MOST_SEED = MOST_ROUNDS = 2**64 - 1
MOST_LOT = 65536

# struct toarmuts_link of toarmuts.h.
_PACKED = struct.Struct("=5I4xQ")
_NONE, _EVERY, _LOT = range(3)

Delay = Union[int, Callable[[float], int]]
"""Ticks, or a function that makes them of a distance."""


def check_number(what: str, value: object, least: int, most: int) -> int:
    """The int that a value is; raises WrongType or BadNetwork where it isn't one from the least to the most."""
    number = index_of(value)
    if number is None:
        raise WrongType(f"{what} must be an int, not {type(value).__name__}")
    if not least <= number <= most:
        raise BadNetwork(f"{what} is {number}; {least} to {most:,} is allowed")
    return number


@dataclass(frozen=True)
class Loss:
    """Which frames of a link are lost: none; the n-th, the 2n-th and so on (``every``); or about ``lot`` of 65,536, by the generator of
    docs/network.md, which begins with ``seed``.

    >>> str(Loss(every=3)), str(Loss(lot=6554, seed=7)), str(Loss())
    ('every 3', 'lot 6554 seed 7', '')
    """

    every: int | None = None
    lot: int | None = None
    seed: int = 0

    def __post_init__(self) -> None:
        if self.every is not None and self.lot is not None:
            raise BadNetwork("a link has one rule for losses: every or lot")
        if self.every is not None:
            object.__setattr__(self, "every", check_number("every", self.every, 1, MOST_NUMBER))
        if self.lot is not None:
            object.__setattr__(self, "lot", check_number("lot", self.lot, 0, MOST_LOT))
        object.__setattr__(self, "seed", check_number("seed", self.seed, 0, MOST_SEED))
        if self.seed and self.lot is None:
            raise BadNetwork(f"seed is {self.seed}, and there is no lot that it is for")

    def next(self) -> "Loss":
        """That of the next link of a shape: a lot has the next seed, and 0 after the largest."""
        return self if self.lot is None else replace(self, seed=(self.seed + 1) % (MOST_SEED + 1))

    def __str__(self) -> str:
        if self.every is not None:
            return f"every {self.every}"
        return "" if self.lot is None else f"lot {self.lot} seed {self.seed}"


@dataclass(frozen=True)
class Link:
    """What mote ``sender`` sends, mote ``receiver`` hears ``delay`` ticks later, unless it is lost.

    >>> print(Link(1, 2, 3, Loss(every=2)))
    link 1 2 delay 3 every 2
    """

    sender: int
    receiver: int
    delay: int = 1
    loss: Loss = Loss()

    def __post_init__(self) -> None:
        for name in ("sender", "receiver", "delay"):
            object.__setattr__(self, name, check_number(f"a link's {name}", getattr(self, name), 1, MOST_NUMBER))
        if not isinstance(self.loss, Loss):
            raise WrongType(f"a link's loss must be a Loss, not {type(self.loss).__name__}")

    def packed(self) -> bytes:
        """The bytes of ``struct toarmuts_link``."""
        loss = self.loss
        kind = _EVERY if loss.every is not None else _LOT if loss.lot is not None else _NONE
        return _PACKED.pack(self.sender, self.receiver, self.delay, kind, loss.every or loss.lot or 0, loss.seed)

    def __str__(self) -> str:
        return f"link {self.sender} {self.receiver} delay {self.delay} {self.loss}".rstrip()


def loss_of(every: int | None, lot: int | None, seed: int | None) -> Loss:
    """The rule for these arguments; a seed but 0, which a rule without a lot has, must be for a lot."""
    if seed is not None and index_of(seed) != 0 and lot is None:
        raise BadNetwork("seed is given, and there is no lot that it is for")
    return Loss(every, lot, 0 if seed is None else seed)


def list_of(what: str, given: object) -> list[Any]:
    """The members of a list, of an array, or of another iterable that has an order."""
    if isinstance(given, (str, bytes, Mapping, Set)) or not isinstance(given, Iterable):
        raise WrongType(f"{what} must be a list, not {type(given).__name__}")
    return list(given)


Pair = tuple[int, int]


def both_ways(pairs: Iterable[Pair], delay: int, loss: Loss) -> Iterator[Link]:
    """Links both ways between each pair. Each further link has the next seed. A delay is refused also where there is no pair."""
    check_number("a link's delay", delay, 1, MOST_NUMBER)
    for one, other in pairs:
        for sender, receiver in ((one, other), (other, one)):
            yield Link(sender, receiver, delay, loss)
            loss = loss.next()


def line_of(motes: Sequence[int]) -> list[Pair]:
    """Each mote and the next."""
    return list(zip(motes, motes[1:]))


def ring_of(motes: Sequence[int]) -> list[Pair]:
    """The same, and the last and the first."""
    if len(motes) < 3:
        raise BadNetwork(f"a ring of {len(motes)} motes; at least 3 are needed")
    return [*line_of(motes), (motes[-1], motes[0])]


def mesh_of(motes: Sequence[int]) -> list[Pair]:
    """Each two motes."""
    return [(one, other) for place, one in enumerate(motes) for other in motes[place + 1:]]


def grid_of(motes: Sequence[int], width: int) -> list[Pair]:
    """Neighbours in rows of ``width`` motes."""
    pairs = []
    for place, mote in enumerate(motes):
        if (place + 1) % width and place + 1 < len(motes):
            pairs.append((mote, motes[place + 1]))
        if place + width < len(motes):
            pairs.append((mote, motes[place + width]))
    return pairs


Position = tuple[float, ...]


def check_positions(positions: object, motes: Sequence[int]) -> dict[int, Position]:
    """The position of each mote: of a list or an array in the order of the motes, or of a dict, whose keys are as the nodes of a graph."""
    if isinstance(positions, Mapping):
        known = numbers_of("a position of mote {}, which there isn't", list(positions), motes)
        given = {known[key]: position for key, position in positions.items()}
    elif isinstance(positions, (str, bytes, Set)) or not isinstance(positions, Iterable):
        raise WrongType(f"positions must be a list or a dict, not {type(positions).__name__}")
    else:
        listed = list(positions)
        if len(listed) != len(motes):
            raise BadNetwork(f"{len(listed)} positions for {len(motes)} motes")
        given = dict(zip(motes, listed))
    made = {mote: _position_of(mote, position) for mote, position in given.items()}
    sizes = {mote: len(position) for mote, position in made.items()}
    other = next((mote for mote in sizes if sizes[mote] != sizes[next(iter(sizes))]), None)
    if other is not None:
        one = next(iter(sizes))
        raise BadNetwork(f"the position of mote {one} has {sizes[one]} coordinates, that of mote {other} has {sizes[other]}")
    return made


def _position_of(mote: int, position: object) -> Position:
    """The coordinates of a mote."""
    parts = [] if isinstance(position, (str, bytes, Mapping, Set)) or not isinstance(position, Iterable) else list(position)
    if not parts or not all(isinstance(part, numbers.Real) and not isinstance(part, bool) for part in parts):
        raise WrongType(f"the position of mote {mote} must be a list of numbers, not {repr_of(position)}")
    return tuple(finite(f"a coordinate of mote {mote}", part) for part in parts)


def finite(what: str, number: Any) -> float:
    """A number as a float; raises BadNetwork where it is none, infinite or too large."""
    try:
        made = float(number)
    except OverflowError:
        made = math.inf
    if not math.isfinite(made):
        raise BadNetwork(f"{what} is {repr_of(number)}; it must be finite")
    return made


def check_range(reach: object) -> float:
    """How far motes hear each other."""
    if isinstance(reach, bool) or not isinstance(reach, numbers.Real):
        raise WrongType(f"range must be a number, not {type(reach).__name__}")
    try:
        made = float(reach)
    except OverflowError:
        made = math.inf
    if not made >= 0:
        raise BadNetwork(f"range is {reach}; it must be at least 0")
    return made


def _near(positions: Mapping[int, Position], reach: float) -> Iterator[Pair]:
    """The pairs of motes that may be this far from each other, in the order of a mesh: those of neighbouring cells, a bit larger than the
    reach, by their first coordinates."""
    motes = sorted(positions)
    size = reach * 1.001
    most = max((abs(part) for position in positions.values() for part in position[:_CELL_SIDES]), default=0)
    if not 0 < size < math.inf or most / size > 2**50:
        yield from mesh_of(motes)
        return
    cells: dict[tuple[int, ...], list[int]] = {}
    places = {mote: tuple(math.floor(part / size) for part in positions[mote][:_CELL_SIDES]) for mote in motes}
    for mote in motes:
        cells.setdefault(places[mote], []).append(mote)
    for one in motes:
        around = itertools.product(*((side - 1, side, side + 1) for side in places[one]))
        yield from ((one, other) for other in sorted(other for cell in around for other in cells.get(cell, ()) if other > one))


# A cell has this number of sides, and 9 neighbours with itself.
_CELL_SIDES = 2


def disk_links(positions: Mapping[int, Position], reach: float, delay: Delay, loss: Loss) -> Iterator[Link]:
    """Links both ways between motes that are at most this far from each other."""
    for one, other in _near(positions, reach):
        distance = math.dist(positions[one], positions[other])
        if not distance <= reach:
            continue
        ticks = delay(distance) if callable(delay) else delay
        for sender, receiver in ((one, other), (other, one)):
            yield Link(sender, receiver, ticks, loss)
            loss = loss.next()


def graph_links(graph: Any, motes: Sequence[int], delay: int, loss: Loss) -> Iterator[Link]:
    """A link for each edge of a graph of networkx; of an undirected one both ways. An edge may have ``delay``, ``every``, ``lot`` and
    ``seed`` of its own. Each further link by lot has the next seed."""
    if not all(callable(getattr(graph, name, None)) for name in ("nodes", "edges", "is_directed")):
        raise WrongType(f"a graph must be one of networkx, not {type(graph).__name__}")
    known = numbers_of("a node {}, which is the number of no mote", list(graph.nodes()), motes)
    for one, other, about in graph.edges(data=True):
        pair, own = (known[one], known[other]), _own_loss(about, loss)
        for sender, receiver in (pair,) if graph.is_directed() or one == other else (pair, pair[::-1]):
            yield Link(sender, receiver, about.get("delay", delay), loss if own is None else own)
            if own is None:
                loss = loss.next()
            else:
                own = own.next()


def _own_loss(about: Mapping[str, Any], loss: Loss) -> Loss | None:
    """The rule that an edge has of its own. A seed may be for the lot of all edges."""
    own = {name: about[name] for name in ("every", "lot", "seed") if name in about}
    if not own:
        return None
    every, lot = own.get("every"), own.get("lot")
    return loss_of(every, loss.lot if every is None and lot is None else lot, own.get("seed"))


def numbers_of(fault: str, nodes: Sequence[Any], motes: Sequence[int]) -> dict[Any, int]:
    """The mote of each node. Nodes that are numbers of motes stand for these. Of the nodes 0, 1, .. each stands for the next number. Nodes
    that are no numbers stand for the motes 1, 2, .. in their order."""
    known = range(1, len(motes) + 1)
    given = [index_of(node) for node in nodes]
    if all(number in known for number in given):
        return {node: int(node) for node in nodes}
    if len(nodes) > len(motes):
        raise BadNetwork(f"a graph of {len(nodes)} nodes for {len(motes)} motes")
    if set(given) == set(range(len(nodes))):
        return {node: int(node) + 1 for node in nodes}
    wrong = next((node for node, number in zip(nodes, given) if number is not None and number not in known), None)
    if wrong is not None:
        raise BadNetwork(fault.format(repr_of(wrong)))
    return dict(zip(nodes, motes))
