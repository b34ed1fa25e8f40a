"""A network's transcript as objects (docs/network.md): its own lines, and the entries of its motes."""
from __future__ import annotations

import enum
import re
from collections.abc import Iterator, Mapping
from dataclasses import dataclass
from typing import Any, NamedTuple

from .entries import Entries, data_of
from .errors import BadTranscript, WrongType
from .transcript import Entry, Note, NoteKind, Transcript
from .values import index_of

_OF_MOTE = re.compile(rb"([1-9][0-9]*) (.+)")
_CLOCK = re.compile(rb"= (0|[1-9][0-9]*)")
_PASSING = re.compile(rb"(lost|full|missed) (-|[1-9][0-9]*) ([1-9][0-9]*)")


class NetworkKind(enum.Enum):
    """What a line of a network says."""

    ENTRY = "entry"
    """A mote's entry."""
    CLOCK = "clock"
    """The clock went on."""
    LOST = "lost"
    """A link's rule lost a frame."""
    FULL = "full"
    """A frame found no room in flight."""
    MISSED = "missed"
    """A frame, or an input from outside, arrived at a mote that was halted."""
    EXHAUSTED = "halt"
    """The last input used up its rounds."""
    HALT = "halt"
    """Deprecated: the old name of EXHAUSTED."""
    BAD_LINE = "bad line"
    TOO_LONG = "too long"


@dataclass(frozen=True)
class NetworkEntry:
    """A line of a network's transcript."""

    line: int
    """Its number in the whole transcript, from 1 on."""
    clock: int
    """The network's ticks since boot."""
    text: str
    kind: NetworkKind
    mote: int | None = None
    """Whose entry it is, or which mote a frame was for; None where the line is about no mote."""
    sender: int | None = None
    """Of LOST, FULL and MISSED: whose frame it was; None where an input from outside was missed."""
    entry: Entry | None = None
    """The mote's entry. Its ``line`` and ``clock`` are the mote's own: a mote receives the time only when it is needed."""

    def __str__(self) -> str:
        return self.text

    def explain(self) -> str:
        """The line in words.

        >>> NetworkTranscript("lost 2 3\\n").explain()
        ['the link from mote 2 to mote 3 loses the frame']
        """
        if self.entry is not None:
            return f"mote {self.mote}: {self.entry.explain()}"
        if self.kind is NetworkKind.CLOCK:
            return f"the clock goes on to {self.clock}"
        if self.kind is NetworkKind.LOST:
            return f"the link from mote {self.sender} to mote {self.mote} loses the frame"
        if self.kind is NetworkKind.FULL:
            return f"the frame from mote {self.sender} to mote {self.mote} finds no room in flight"
        if self.kind is NetworkKind.MISSED:
            what = "an input from outside" if self.sender is None else f"a frame from mote {self.sender}"
            return f"mote {self.mote} was halted, and misses {what}"
        return {NetworkKind.EXHAUSTED: "the network halted: an input took all its rounds", NetworkKind.TOO_LONG: "the script is too long",
                NetworkKind.BAD_LINE: f"line {self.text[9:]} of the script is malformed"}[self.kind]


class Place(NamedTuple):
    """How much a mote's transcript has before a part: lines, and ticks."""

    lines: int = 0
    clock: int = 0


class Frame(NamedTuple):
    """A frame that a mote sent, and the network's clock then."""

    clock: int
    mote: int
    data: bytes


def _number_of(mote: object) -> int:
    """The number of a mote, which may have no lines."""
    number = index_of(mote)
    if number is None:
        raise WrongType(f"a mote's number must be an int, not {type(mote).__name__}")
    return number


class NetworkTranscript(Entries[NetworkEntry]):
    """The lines of a network's transcript, merged, in their order.

    >>> transcript = NetworkTranscript("= 3\\n2 > tick 3\\n2 > frame 0a\\nlost 2 1\\n")
    >>> [(entry.clock, entry.kind.value, entry.mote) for entry in transcript]
    [(3, 'clock', None), (3, 'entry', 2), (3, 'entry', 2), (3, 'lost', 1)]
    >>> str(transcript.mote(2))
    '> tick 3\\n> frame 0a\\n'
    """

    _kind = "NetworkTranscript"

    def __init__(self, text: str | bytes, *, lines_before: int = 0, clock_before: int = 0,
                 before: Mapping[int, Place] | None = None) -> None:
        self._data = data_of(text)
        self._lines_before, self._clock_before = lines_before, clock_before
        self._before = dict(before or {})
        self._by_mote: dict[int, Transcript] | None = None
        self._entries: list[NetworkEntry] | None = None

    @property
    def data(self) -> bytes:
        """Its text as bytes."""
        return self._data

    def _lines(self) -> list[bytes]:
        lines = self.data.split(b"\n")
        return lines if lines[-1] else lines[:-1]

    def _motes(self) -> dict[int, Transcript]:
        if self._by_mote is None:
            parts: dict[int, list[bytes]] = {}
            for line in self._lines():
                found = _OF_MOTE.fullmatch(line)
                if found is not None:
                    parts.setdefault(int(found[1]), []).append(found[2] + b"\n")
            self._by_mote = {mote: self._part(mote, b"".join(lines)) for mote, lines in parts.items()}
        return self._by_mote

    def _part(self, mote: int, data: bytes) -> Transcript:
        place = self._before.get(mote, Place())
        return Transcript(data, lines_before=place.lines, clock_before=place.clock)

    def mote(self, number: int) -> Transcript:
        """The entries of a mote, without its number: a transcript of that mote."""
        mote = _number_of(number)
        return self._motes().get(mote) or self._part(mote, b"")

    @property
    def motes(self) -> list[int]:
        """The motes that have entries here."""
        return sorted(self._motes())

    def _all(self) -> list[NetworkEntry]:
        if self._entries is None:
            entries = {mote: iter(transcript) for mote, transcript in self._motes().items()}
            made: list[NetworkEntry] = []
            clock = self._clock_before
            for number, line in enumerate(self._lines(), self._lines_before + 1):
                made.append(entry_of(number, clock, line, entries))
                clock = made[-1].clock
            self._entries = made
        return self._entries

    def __len__(self) -> int:
        return self.data.count(b"\n") + (not self.data.endswith(b"\n") and self.data != b"")

    def __reduce__(self) -> tuple[Any, ...]:
        return _transcript_of, (self.data, self._lines_before, self._clock_before, self._before)

    def _repr_html_(self) -> str | None:
        """The first lines in words, in a notebook."""
        from .picture import table_for_notebook

        return table_for_notebook(self)

    def front(self, count: int) -> "NetworkTranscript":
        """The first lines, ``count`` of them, as a transcript."""
        return NetworkTranscript(b"\n".join(self.data.split(b"\n", count)[:count]), lines_before=self._lines_before,
                                 clock_before=self._clock_before, before=self._before)

    def of(self, kind: NetworkKind) -> list[NetworkEntry]:
        """The lines of a kind."""
        if not isinstance(kind, NetworkKind):
            raise WrongType(f"a kind must be a NetworkKind, not {type(kind).__name__}")
        return [entry for entry in self._all() if entry.kind is kind]

    def lost(self) -> list[NetworkEntry]:
        """The frames that links lost."""
        return self.of(NetworkKind.LOST)

    def printed(self, mote: int | None = None) -> bytes:
        """What was printed, by one mote or by all, in its order."""
        if mote is not None:
            return self.mote(mote).printed()
        turns = ((entry.text.rpartition(" -> print ")) for entry in self._all() if entry.kind is NetworkKind.ENTRY)
        return b"".join(b"" if data == "-" else bytes.fromhex(data) for _, found, data in turns if found)

    def full(self) -> list[NetworkEntry]:
        """The frames that found no room in flight: the network's ``room`` is too small for them."""
        return self.of(NetworkKind.FULL)

    def frames(self, mote: int | None = None) -> list[Frame]:
        """The frames that one mote or all motes sent, with the network's clock."""
        if mote is not None:
            mote = _number_of(mote)
        sent = ((entry.clock, entry.mote, entry.entry) for entry in self._all() if mote is None or entry.mote == mote)
        return [Frame(clock, number, note.data) for clock, number, note in sent
                if number is not None and isinstance(note, Note) and note.kind is NoteKind.SENT]

    def sent(self, mote: int | None = None) -> list[bytes]:
        """The frames that one mote or all motes sent."""
        return [frame.data for frame in self.frames(mote)]

    def explain(self) -> list[str]:
        """All lines in words."""
        return [entry.explain() for entry in self._all()]


def _transcript_of(data: bytes, lines_before: int, clock_before: int, before: Mapping[int, Place]) -> NetworkTranscript:
    """A transcript that was pickled."""
    return NetworkTranscript(data, lines_before=lines_before, clock_before=clock_before, before=before)


def entry_of(number: int, clock: int, line: bytes, entries: Mapping[int, Iterator[Entry]]) -> NetworkEntry:
    """The entry of a line; those of motes are taken from these."""
    text = line.decode("ascii", "replace")
    found = _OF_MOTE.fullmatch(line)
    if found is not None:
        mote = int(found[1])
        return NetworkEntry(number, clock, text, NetworkKind.ENTRY, mote, None, next(entries[mote]))
    found = _CLOCK.fullmatch(line)
    if found is not None:
        return NetworkEntry(number, int(found[1]), text, NetworkKind.CLOCK)
    found = _PASSING.fullmatch(line)
    if found is not None:
        sender = None if found[2] == b"-" else int(found[2])
        return NetworkEntry(number, clock, text, NetworkKind(found[1].decode()), int(found[3]), sender)
    if text in ("halt", "too long") or re.fullmatch("bad line [1-9][0-9]*", text):
        return NetworkEntry(number, clock, text, NetworkKind("bad line" if text[0] == "b" else text))
    raise BadTranscript(f"line {number} is not a line of a network's transcript: {text[:100]}")
