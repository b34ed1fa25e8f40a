"""Frames of networks with IPv6 (docs/ipv6.md): what each one is, who routes by whom, and which UDP packets arrived.

A transcript is enough: a run of :func:`toarmuts.run_network`, or the text that ``./contiki --network`` writes.

>>> str(read_frame(bytes.fromhex("022c02cdab0200020002000200"))), str(read_frame(b"hello"))
('ack', 'other')
"""
from __future__ import annotations

import importlib
import re
from collections.abc import Iterator
from dataclasses import replace
from typing import Any, NamedTuple, Union

from .errors import ToarmutsError, WrongType
from .ipv6_frames import (CONTEXT_0, TO_ALL, Dao, DaoAck, Dio, Fragment, FrameKind, Ipv6Frame, Malformed, ReadFrame, Route, mote_of,
                          read_frame, read_packet, read_with_part)
from .network import Network
from .network_runs import NetworkRun
from .network_transcript import NetworkTranscript
from .values import index_of

__all__ = ["CONTEXT_0", "TO_ALL", "Dao", "DaoAck", "Delivery", "Dio", "Fragment", "FrameKind", "Ipv6Frame", "MissingPackage", "Route",
           "RunLike", "deliveries", "delivery_table", "mote_of", "parents", "read_frame", "read_frames", "routing_tree"]

RunLike = Union[NetworkRun, Network, NetworkTranscript, str, bytes]
"""A run of a network, a network in hand, or a transcript."""


class MissingPackage(ToarmutsError, ImportError):
    """A package that makes graphs or tables isn't installed."""


_LINE = re.compile(rb"^(?:= ([0-9]+)|([1-9][0-9]*) (note sent|> frame) ([0-9a-f]+))$", re.MULTILINE)


class _Line(NamedTuple):
    """A frame in a transcript: which mote sent or received it."""

    clock: int
    mote: int
    is_sent: bool
    read: ReadFrame
    is_repeat: bool
    """Whether the sender sent the same frame before, without an acknowledgement that arrived."""


def _transcript_of(run: object) -> NetworkTranscript:
    if isinstance(run, (str, bytes)):
        return NetworkTranscript(run)
    if isinstance(run, NetworkTranscript):
        return run
    if isinstance(run, (NetworkRun, Network)):
        return run.transcript
    raise WrongType(f"a run must be one of a network, or a transcript, not {type(run).__name__}")


class _Repeats:
    """Finds frames that come a second time, by the sender's sequence number and all bytes. That number has 8 bits: a frame is a repeat only
    while its sender has sent fewer than 128 others since."""

    MOST = 128

    def __init__(self) -> None:
        self._counts: dict[int, int] = {}
        self._known: dict[tuple[int | None, int, int], tuple[bytes, int]] = {}

    def is_repeat(self, receiver: int | None, sender: int, sequence: int, data: bytes) -> bool:
        """Whether this mote has received this frame before; of the receiver None, whether the sender has sent it."""
        count = self._counts.get(sender, 0)
        before = self._known.get((receiver, sender, sequence))
        is_same = before is not None and before[0] == data and count - before[1] < self.MOST
        if receiver is None and not is_same:
            self._counts[sender] = count = count + 1
        if not is_same:
            self._known[receiver, sender, sequence] = data, count
        return is_same


def _lines_of(run: RunLike) -> Iterator[_Line]:
    """The frames that motes sent and received, in their order."""
    transcript = _transcript_of(run)
    clock, repeats = transcript._clock_before, _Repeats()
    known: dict[bytes, ReadFrame] = {}
    for found in _LINE.finditer(transcript.data):
        if found[1] is not None:
            clock = int(found[1])
            continue
        if len(found[4]) % 2:
            continue
        data, mote, is_sent = bytes.fromhex(found[4].decode()), int(found[2]), found[3] == b"note sent"
        read = known.get(data)
        if read is None:
            # A frame is received by all in reach, soon after it was sent.
            known = known if len(known) < 4096 else {}
            read = known[data] = read_with_part(data)
        frame = read.frame
        sender = mote if is_sent else mote_of(frame.sender) if frame.sender is not None else None
        is_repeat = False
        if frame.kind is not FrameKind.ACK and sender is not None and frame.sequence is not None:
            is_repeat = repeats.is_repeat(None if is_sent else mote, sender, frame.sequence, data)
        yield _Line(clock, mote, is_sent, read, is_repeat)


def read_frames(run: RunLike) -> list[Ipv6Frame]:
    """The frames that motes sent, with the clock and the mote, and of each fragment its number among those of its packet."""
    frames = [replace(line.read.frame, clock=line.clock, mote=line.mote) for line in _lines_of(run) if line.is_sent]
    places: dict[tuple[object, ...], set[int]] = {}
    for frame in frames:
        if frame.fragment is not None:
            places.setdefault(_key_of(frame, frame.mote), set()).add(frame.fragment.at)
    return [frame if frame.fragment is None else _numbered(frame, sorted(places[_key_of(frame, frame.mote)])) for frame in frames]


def _key_of(frame: Ipv6Frame, sender: object) -> tuple[object, ...]:
    """What the fragments of a packet have in common."""
    assert frame.fragment is not None
    return sender, frame.receiver, frame.fragment.size, frame.fragment.tag


def _numbered(frame: Ipv6Frame, places: list[int]) -> Ipv6Frame:
    assert frame.fragment is not None
    return replace(frame, fragment=frame.fragment._replace(number=places.index(frame.fragment.at) + 1, of=len(places)))


class _Joined:
    """Whole packets, of frames that have one and of fragments; without repeats."""

    def __init__(self) -> None:
        self._parts: dict[tuple[object, ...], tuple[int, dict[int, bytes]]] = {}

    def packet(self, line: _Line) -> tuple[int, Ipv6Frame] | None:
        """The packet of a frame, or the one that it completes, and the clock of its first frame; or None."""
        frame, part = line.read
        if line.is_repeat:
            return None
        if frame.fragment is None:
            return line.clock, frame
        key = (line.mote, line.is_sent, *_key_of(frame, frame.sender))
        clock, parts = self._parts.setdefault(key, (line.clock, {}))
        parts[frame.fragment.at] = part
        if sum(map(len, parts.values())) < frame.fragment.size:
            return None
        del self._parts[key]
        whole = b"".join(parts[place] for place in sorted(parts))
        try:
            fields = read_packet(whole)
        except Malformed:
            return None
        return clock, Ipv6Frame(sequence=frame.sequence, sender=frame.sender, receiver=frame.receiver, **fields)


def _packets_of(run: RunLike) -> Iterator[tuple[_Line, int, Ipv6Frame]]:
    """The packets of a run as they begin at their own mote, or arrive at the one that they are for: the frame by which they are whole, the
    clock of their first frame, and what they are."""
    joined = _Joined()
    for line in _lines_of(run):
        frame = line.read.frame
        if not line.is_sent and (frame.receiver is None or mote_of(frame.receiver) != line.mote):
            continue
        found = joined.packet(line)
        if found is None or found[1].source is None or found[1].destination is None:
            continue
        if mote_of(found[1].source if line.is_sent else found[1].destination) == line.mote:
            yield line, *found


class Delivery(NamedTuple):
    """A UDP packet from one mote to another. ``arrived`` and ``latency`` are None where it didn't arrive."""

    sender: int
    receiver: int
    sent: int
    arrived: int | None
    payload: bytes

    @property
    def latency(self) -> int | None:
        """The ticks from its first frame to its arrival."""
        return None if self.arrived is None else self.arrived - self.sent


def deliveries(run: RunLike, source_port: int, destination_port: int) -> list[Delivery]:
    """The UDP packets that motes sent to other motes from one port to another, in their order, and when each arrived.

    A packet that arrives is the last one with the same addresses and data that hasn't arrived yet. A packet for all in reach isn't one of
    these, nor is one whose frames weren't all sent. The transcript must have all motes.
    """
    ports = _check_port("source_port", source_port), _check_port("destination_port", destination_port)
    made: list[Delivery] = []
    underway: dict[tuple[object, ...], list[int]] = {}
    for line, clock, packet in _packets_of(run):
        receiver = None if packet.destination is None else mote_of(packet.destination)
        if packet.ports != ports or receiver is None:
            continue
        key = packet.source, packet.destination, packet.payload
        if line.is_sent:
            underway.setdefault(key, []).append(len(made))
            made.append(Delivery(line.mote, receiver, clock, None, packet.payload))
        elif underway.get(key):
            place = underway[key].pop()
            made[place] = made[place]._replace(arrived=line.clock)
    return made


def _check_port(name: str, port: object) -> int:
    number = index_of(port)
    if number is None:
        raise WrongType(f"{name} must be an int, not {type(port).__name__}")
    return number


def delivery_table(run: RunLike, source_port: int, destination_port: int) -> Any:
    """The :func:`deliveries` as a frame of pandas: sender, receiver, sent, arrived, latency, payload, a row for each packet. Numbers are
    ``Int64``, and what didn't arrive has ``pandas.NA``. Raises MissingPackage where pandas isn't installed."""
    pandas = _package("pandas", "a table")
    rows = deliveries(run, source_port, destination_port)
    columns = {"sender": [row.sender for row in rows], "receiver": [row.receiver for row in rows], "sent": [row.sent for row in rows],
               "arrived": [row.arrived for row in rows], "latency": [row.latency for row in rows]}
    made = {name: pandas.array(numbers, dtype="Int64") for name, numbers in columns.items()}
    return pandas.DataFrame({**made, "payload": [row.payload for row in rows]})


def parents(run: RunLike) -> dict[int, int]:
    """The parent of each mote, as DAOs report it to a root: by the last one of each mote that arrived. A DAO whose lifetime is 0 takes the
    parent back. Lifetimes that run out aren't counted."""
    known: dict[int, int] = {}
    for line, _, packet in _packets_of(run):
        if line.is_sent or not isinstance(packet.rpl, Dao):
            continue
        for route in packet.rpl.routes:
            target = mote_of(route.target)
            parent = None if route.parent is None or route.lifetime == 0 else mote_of(route.parent)
            if target is not None and parent is not None:
                known[target] = parent
            elif target is not None and route.lifetime == 0:
                known.pop(target, None)
    return known


def routing_tree(run: RunLike) -> Any:
    """The :func:`parents` as a directed graph of networkx, with an edge from each mote to its parent. Raises MissingPackage where networkx
    isn't installed."""
    graph = _package("networkx", "a graph").DiGraph()
    graph.add_edges_from(sorted(parents(run).items()))
    return graph


def _package(name: str, what: str) -> Any:
    try:
        return importlib.import_module(name)
    except ImportError as fault:
        raise MissingPackage(f"{what} needs {name}: Debian's package python3-{name}, or `pip install {name}`") from fault
