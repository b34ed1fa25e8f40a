"""What a transcript in hand says so far. Each reading goes on where the one before stopped."""
from __future__ import annotations

import heapq
from collections.abc import Callable, Iterable
from typing import NamedTuple

from .links import Link
from .network_transcript import Frame, NetworkEntry, NetworkKind, Place, entry_of

_TICK, _SENT, _PRINTS, _HALT = b"> tick ", b"note sent ", b" -> print ", b"halt\n"


def _data_of(word: bytes) -> bytes:
    """The bytes of a word of a transcript."""
    return b"" if word == b"-" else bytes.fromhex(word.decode())


class MoteProgress:
    """The lines of a mote so far, and what they say."""

    __slots__ = ("pieces", "lines", "clock", "printed", "by_process", "sent")

    def __init__(self) -> None:
        self.pieces = 0
        """Of a mote alone: the number of pieces of its transcript that were read."""
        self.lines: list[bytes] = []
        self.clock = 0
        self.printed = bytearray()
        self.by_process: dict[int, bytearray] = {}
        self.sent: list[bytes] = []

    def read(self, data: bytes, pieces: int) -> None:
        """Reads whole lines, which end the first pieces of a transcript."""
        for line in data.splitlines(keepends=True):
            self.add(line)
        self.pieces = pieces

    def add(self, line: bytes) -> tuple[bytes, bytes | None]:
        """Adds a line. Returns what it prints, and the frame that it sends."""
        self.lines.append(line)
        if line.startswith(_SENT):
            self.sent.append(_data_of(line[len(_SENT):-1]))
            return b"", self.sent[-1]
        if line.startswith(_TICK):
            self.clock += int(line[len(_TICK):])
        at = line.rfind(_PRINTS)
        if at < 0:
            return b"", None
        data, process = _data_of(line[at + len(_PRINTS):-1]), int(line.partition(b" ")[0])
        self.printed += data
        self.by_process.setdefault(process, bytearray()).extend(data)
        return data, None

    def printed_by(self, process: int | None) -> bytes:
        """What one process printed, or all."""
        return bytes(self.printed if process is None else self.by_process.get(process, bytearray()))

    @property
    def place(self) -> Place:
        """How much there is."""
        return Place(len(self.lines), self.clock)

    @property
    def has_halted(self) -> bool:
        """Whether the mote was halted."""
        return self.lines[-1:] == [_HALT]


class Progress:
    """The lines of a network so far, and what they say."""

    def __init__(self) -> None:
        self.pieces = self.lines = self.clock = 0
        self.motes: dict[int, MoteProgress] = {}
        self._by_word: dict[bytes, tuple[int, MoteProgress]] = {}
        self.printed = bytearray()
        self.frames: list[Frame] = []
        self.sent: list[bytes] = []
        self.passings: list[NetworkEntry] = []
        """The frames that were lost, found no room, or were missed."""
        self.before: dict[int, Place] = {}
        """Where the motes were that have had a line since this was emptied."""
        self.changed: set[int] = set()
        """The motes that have had a line since this was emptied."""

    @staticmethod
    def of(pieces: list[bytes]) -> "Progress":
        """What these pieces of a transcript say."""
        made = Progress()
        made.read(b"".join(pieces), len(pieces))
        return made

    def read(self, data: bytes, pieces: int) -> None:
        """Reads whole lines, which end the first pieces of the transcript."""
        for line in data.splitlines(keepends=True):
            self.lines += 1
            word, _, rest = line.partition(b" ")
            if word.isdigit():
                self._add(word, rest)
            elif word == b"=":
                self.clock = int(rest)
            elif word in (b"lost", b"full", b"missed"):
                self.passings.append(entry_of(self.lines, self.clock, line[:-1], {}))
        self.pieces = pieces

    def _add(self, word: bytes, line: bytes) -> None:
        """Adds a line of a mote."""
        found = self._by_word.get(word)
        if found is None:
            number = int(word)
            found = self._by_word[word] = number, self.motes.setdefault(number, MoteProgress())
        number, mote = found
        if number not in self.before:
            self.before[number] = mote.place
        self.changed.add(number)
        printed, frame = mote.add(line)
        self.printed += printed
        if frame is not None:
            self.frames.append(Frame(self.clock, number, frame))
            self.sent.append(frame)

    def mote(self, number: int) -> MoteProgress:
        """A mote's lines."""
        return self.motes.get(number) or MoteProgress()

    def places(self) -> dict[int, Place]:
        """Where each mote is."""
        return {number: mote.place for number, mote in self.motes.items()}

    def passed(self, kind: NetworkKind) -> list[NetworkEntry]:
        """The frames that passed so."""
        return [entry for entry in self.passings if entry.kind is kind]


class Timer(NamedTuple):
    """When the next timer of a mote runs out."""

    due: int
    mote: int


class Moments:
    """The clocks at which something may happen in a network: a timer runs out, or a frame arrives."""

    def __init__(self, links: Iterable[Link]) -> None:
        self._delays: dict[int, set[int]] = {}
        for link in links:
            self._delays.setdefault(link.sender, set()).add(link.delay)
        self._frames = 0
        """The number of frames whose arrivals are known."""
        self._arrivals: list[int] = []
        self._dues: dict[int, int | None] = {}
        self._timers: list[Timer] = []

    def next(self, read: Progress, due_of: Callable[[int], int | None]) -> int | None:
        """The next one after the network's clock; None where nothing happens."""
        self._take_arrivals(read)
        self._take_timers(read, due_of)
        return min([*self._arrivals[:1], *(timer.due for timer in self._timers[:1])], default=None)

    def _take_arrivals(self, read: Progress) -> None:
        for frame in read.frames[self._frames:]:
            for delay in self._delays.get(frame.mote, ()):
                heapq.heappush(self._arrivals, frame.clock + delay)
        self._frames = len(read.frames)
        while self._arrivals and self._arrivals[0] <= read.clock:
            heapq.heappop(self._arrivals)

    def _take_timers(self, read: Progress, due_of: Callable[[int], int | None]) -> None:
        """Only its own lines change when a mote's timer runs out."""
        for number in read.changed:
            due = None if read.mote(number).has_halted else due_of(number)
            if due is not None and due != self._dues.get(number):
                heapq.heappush(self._timers, Timer(due, number))
            self._dues[number] = due
        read.changed = set()
        while self._timers and self._dues[self._timers[0].mote] != self._timers[0].due:
            heapq.heappop(self._timers)
