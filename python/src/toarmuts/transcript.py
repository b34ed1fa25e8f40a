"""A transcript as objects (docs/transcript.md).

The compiled library makes a table of its lines: kinds, offsets, clocks, and which reply belongs to which call. An entry is made of a row
of that table on demand, and its words are read on demand, once for equal words.
"""
from __future__ import annotations

import enum
import re
from typing import TYPE_CHECKING, Any, Union

from .call import Call
from .calls import Print
from .entries import Entries, data_of
from .errors import BadCall, BadTranscript, WrongType, no_attribute, repr_of
from .library import ROW_SIZE, library
from .numbers import Origin, Refusal
from .rows import Row, Words, make
from .rules import FIRST_PROCESS, MOST_APPLICATIONS, RULES
from .values import Callback, Reply, Stimulus, index_of, read_event, read_number, read_reply

TURN, INPUT, NOTE, HALT, BAD_LINE, TOO_LONG, NO_FORM = range(7)
# The offset of a row's kind in struct transcript_row.
KIND_PLACE = 44


class InputKind(enum.Enum):
    """What comes in."""

    TICK = "tick"
    SERIAL = "serial"
    FRAME = "frame"


class NoteKind(enum.Enum):
    """What a note says."""

    LOST = "lost"
    SENT = "sent"


_NUMBER, _HEX = re.compile(rb"0|[1-9][0-9]{0,19}"), re.compile(rb"(?:[0-9a-fA-F]{2})+")
_ORIGINS = tuple(Origin)
_INPUTS = tuple(InputKind)
_NOTES = tuple(NoteKind)


class Source:
    """What entries are read from: a text, and its table, which is made on demand."""

    __slots__ = ("data", "quiet", "lines_before", "clock_before", "_table")

    def __init__(self, data: bytes, quiet: bool, lines_before: int, clock_before: int) -> None:
        self.data, self.quiet = data, quiet
        # Of a part of a transcript: what came before it.
        self.lines_before, self.clock_before = lines_before, clock_before
        self._table: bytearray | None = None

    def __reduce__(self) -> tuple[Any, ...]:
        return Source, (self.data, self.quiet, self.lines_before, self.clock_before)

    @property
    def table(self) -> bytearray:
        """``struct transcript_row`` for each line."""
        if self._table is None:
            self._table = library().table(self.data)
        return self._table

    def rows(self, first: int, count: int) -> list["Entry"]:
        """This number of entries from the first one on."""
        made: list[Entry] = make(_CLASSES, self, self.data, self.table, first, count, None if self.quiet else self.clock_before)
        return made


class Entry(Row):
    """A line of a transcript. Two are equal where their texts and their numbers are."""

    __slots__ = ()

    @property
    def line(self) -> int:
        """The number of its line in the whole transcript, from 1 on."""
        return self._source.lines_before + self.index + 1

    def _words(self, first: int, end: int | None = None) -> bytes:
        begin = self._begin
        return self._source.data[begin + first:begin + (self._length if end is None else end)]

    @property
    def text(self) -> str:
        """The line, without its end."""
        return self._words(0).decode("ascii", "replace")

    def __str__(self) -> str:
        return self.text

    def __repr__(self) -> str:
        return f"<{type(self).__name__} {self.line}: {self.text}>"

    def __eq__(self, other: object) -> bool:
        if not isinstance(other, Entry):
            return NotImplemented
        return self.line == other.line and self._words(0) == other._words(0)

    def __hash__(self) -> int:
        return hash((self.line, self._words(0)))

    def __reduce__(self) -> tuple[Any, ...]:
        return _entry_of, (self._source, self.index)

    def _no_form(self) -> BadTranscript:
        return BadTranscript(f"line {self.line} is not a line of a transcript: {self.text[:100]}")

    def _spoilt(self, fault: BaseException) -> BaseException:
        """The exception in place of that of a reader of words: with the line."""
        return BadTranscript(f"{self._no_form()}: {fault}") if isinstance(fault, BadTranscript) else fault

    def _number(self, words: bytes) -> int:
        if not _NUMBER.fullmatch(words):
            raise self._no_form()
        return int(words)

    def _bytes(self, words: bytes) -> bytes:
        if not _HEX.fullmatch(words):
            raise self._no_form()
        return bytes.fromhex(words.decode())

    def explain(self) -> str:
        """The entry in words."""
        from .words import explain

        return explain(self)


def read_callback(words: str) -> Callback:
    """The callback timer that ran out, of a line of a transcript."""
    try:
        return Callback(read_number(words, 255))
    except BadCall as fault:
        raise BadTranscript(f"{words}: {fault}") from None


def read_call(words: str) -> Call:
    """The call of a line of a transcript."""
    try:
        return Call.parse(words)
    except BadCall as fault:
        raise BadTranscript(str(fault)) from None


class Turn(Entry):
    """A process received a stimulus, and made a call."""

    __slots__ = ()
    __match_args__ = ("process", "stimulus", "call")

    process: int = Row._process  # type: ignore[misc]  # the row's own member, with no function between
    """The process, from 4 on."""
    stimulus: Words[Stimulus] = Words(False, (read_event, read_event, read_event, read_callback, read_reply))
    """What it received: an Event, a Callback, or the Reply to its call before."""
    call: Words[Call] = Words(True, (read_call,))
    """The call that it made."""

    if not TYPE_CHECKING:
        def __getattr__(self, name):
            """Names that were changed."""
            raise no_attribute("Turn", name)

    @property
    def origin(self) -> Origin:
        """Where the stimulus comes from."""
        return _ORIGINS[self._detail]

    @property
    def replied_in(self) -> "Turn | None":
        """The turn in which it received the reply to its call; None where there is none, and in a quiet transcript."""
        source = self._source
        if not self._answer or source.quiet:
            return None
        found = _entry_of(source, self._answer - 1)
        return found if isinstance(found, Turn) else None

    @property
    def reply(self) -> Reply | None:
        """The reply to its call; None where there is none (``wait``, ``exit``, a halt), and in a quiet transcript."""
        turn = self.replied_in
        stimulus = turn.stimulus if turn is not None else None
        return stimulus if isinstance(stimulus, Reply) else None

    @property
    def refusal(self) -> Refusal | None:
        """Why its call was refused, or None."""
        reply = self.reply
        return reply.refusal if reply is not None else None


class Input(Entry):
    """An input."""

    __slots__ = ()
    __match_args__ = ("kind", "value")

    @property
    def kind(self) -> InputKind:
        """What comes in."""
        return _INPUTS[self._detail]

    @property
    def value(self) -> Union[int, bytes]:
        """The ticks, or the bytes."""
        words = self._words(self._content)
        return self._number(words) if self._detail == 0 else self._bytes(words)

    @property
    def ticks(self) -> int:
        """The ticks; 0 where it is no tick."""
        value = self.value
        return value if isinstance(value, int) else 0

    @property
    def data(self) -> bytes:
        """The bytes; none where it is a tick."""
        value = self.value
        return value if isinstance(value, bytes) else b""


class Note(Entry):
    """A frame was lost, or sent."""

    __slots__ = ()
    __match_args__ = ("kind",)

    @property
    def kind(self) -> NoteKind:
        """Which of the two."""
        return _NOTES[self._detail]

    @property
    def refusal(self) -> Refusal | None:
        """Why a frame was lost; None where one was sent."""
        if self._detail != 0:
            return None
        if self._refusal not in RULES.refusals:
            raise self._no_form()
        return Refusal(self._refusal)

    @property
    def data(self) -> bytes:
        """The bytes of a frame that was sent; none where one was lost."""
        if self._detail == 0:
            return b""
        words = self._words(self._content)
        return b"" if words == b"-" else self._bytes(words)


class Ending(Entry):
    """The last line of a run that didn't execute its script to the end: ``halt``, ``bad line N``, ``too long``."""

    __slots__ = ()

    @property
    def bad_line(self) -> int | None:
        """The number of the script's malformed line, or None."""
        return self._number(self._words(self._content)) if self._kind == BAD_LINE else None


_CLASSES: tuple[type[Entry], ...] = (Turn, Input, Note, Ending, Ending, Ending, Ending)


def _entry_of(source: Source, index: int) -> Entry:
    """An entry of a source."""
    return source.rows(index, 1)[0]


def check_process(process: object) -> int | None:
    """The number of a process that a mote may have; None, all of them, stays."""
    if process is None:
        return None
    number = index_of(process)
    if number is None:
        raise WrongType(f"a process must be an int or None, not {type(process).__name__}")
    if not FIRST_PROCESS <= number < FIRST_PROCESS + MOST_APPLICATIONS:
        raise WrongType(f"there is no process {number}; a mote has {FIRST_PROCESS} to {FIRST_PROCESS + MOST_APPLICATIONS - 1}")
    return number


class Transcript(Entries[Entry]):
    """The entries of a transcript, made on demand.

    >>> transcript = Transcript("> tick 10\\n4 event 136 0 -> timer-stop 9\\n4 answer refused 7 -> wait\\n")
    >>> turn = transcript.turns()[0]
    >>> turn.clock, turn.process, turn.origin.name, turn.stimulus, turn.call, turn.refusal.name
    (10, 4, 'EVENT', Event(EventCode.TIMER, 0), TimerStop(9), 'BAD_NAME')
    """

    _kind = "Transcript"

    def __init__(self, text: str | bytes, *, quiet: bool = False, lines_before: int = 0, clock_before: int = 0) -> None:
        data = data_of(text)
        for name, number in (("lines_before", lines_before), ("clock_before", clock_before)):
            if isinstance(number, bool) or not isinstance(number, int) or number < 0:
                raise WrongType(f"{name} must be an int of at least 0, not {repr_of(number)}")
        self._source = Source(data, quiet, lines_before, clock_before)
        self._entries: list[Entry] | None = None

    @property
    def data(self) -> bytes:
        """Its text as bytes."""
        return self._source.data

    @property
    def quiet(self) -> bool:
        """Whether it is a quiet one, which has no replies and no clocks."""
        return self._source.quiet

    @property
    def is_well_formed(self) -> bool:
        """Whether each line is one of a transcript, by its kind and its first words."""
        return self.data.isascii() and NO_FORM not in self._source.table[KIND_PLACE::ROW_SIZE]

    def front(self, count: int) -> "Transcript":
        """The first lines, ``count`` of them, as a transcript."""
        source = self._source
        lines = source.data.split(b"\n", count)[:count]
        return Transcript(b"\n".join(lines), quiet=source.quiet, lines_before=source.lines_before, clock_before=source.clock_before)

    def _all(self) -> list[Entry]:
        if self._entries is None:
            table = self._source.table
            made = self._source.rows(0, len(table) // ROW_SIZE)
            bad = table[KIND_PLACE::ROW_SIZE].find(NO_FORM)
            if bad >= 0:
                raise made[bad]._no_form()
            if not self.data.isascii():
                raise next(entry for entry in made if not entry.text.isascii())._no_form()
            self._entries = made
        return self._entries

    def __len__(self) -> int:
        return len(self._source.table) // ROW_SIZE

    def __reduce__(self) -> tuple[Any, ...]:
        return _transcript_of, (self._source,)

    def _repr_html_(self) -> str | None:
        """The first entries in words, in a notebook."""
        from .picture import table_for_notebook

        return table_for_notebook(self)

    def turns(self, process: int | None = None) -> list[Turn]:
        """The turns, of one process or of all. A mote has the processes 4 to 19."""
        turns, number = [entry for entry in self._all() if isinstance(entry, Turn)], check_process(process)
        return turns if number is None else [turn for turn in turns if turn.process == number]

    def inputs(self) -> list[Input]:
        """The inputs."""
        return [entry for entry in self._all() if isinstance(entry, Input)]

    def notes(self) -> list[Note]:
        """The frames that were lost or sent."""
        return [entry for entry in self._all() if isinstance(entry, Note)]

    def refused(self) -> list[Turn]:
        """The turns whose calls were refused."""
        return [turn for turn in self.turns() if turn.refusal is not None]

    def printed(self, process: int | None = None) -> bytes:
        """What was printed, by one process or by all."""
        return b"".join(turn.call.data for turn in self.turns(process) if isinstance(turn.call, Print))

    def sent(self) -> list[bytes]:
        """The frames that were sent."""
        return [note.data for note in self.notes() if note.kind is NoteKind.SENT]


def _transcript_of(source: Source) -> Transcript:
    """The transcript of a source."""
    return Transcript(source.data, quiet=source.quiet, lines_before=source.lines_before, clock_before=source.clock_before)
