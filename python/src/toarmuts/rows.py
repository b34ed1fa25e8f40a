"""The rows of a transcript's table as objects: by the compiled module, or in Python, which is some six times slower."""
from __future__ import annotations

import struct
from typing import TYPE_CHECKING, Any, Callable, Generic, TypeVar, overload

from .errors import BadTranscript
from .library import ROW_SIZE

if TYPE_CHECKING:
    from .transcript import Source

# struct transcript_row of native/transcript_table.h.
_FORMAT = struct.Struct("=4Q3I8B4x")
assert _FORMAT.size == ROW_SIZE

# The number of words that are kept for each reader, before all are let go.
MOST_KEPT = 4096
ARROW = len(" -> ")
Made = TypeVar("Made")


class PlainRow:
    """A row with the members of the compiled one."""

    __slots__ = ("_source", "_data", "index", "clock", "_begin", "_answer", "_asked", "_length", "_content", "_call", "_kind", "_detail",
                 "_process", "_event", "_reply", "_refusal", "_call_kind", "_asked_kind")

    _source: "Source"
    _data: bytes
    index: int
    """Its position in the transcript that it was taken from, from 0 on."""
    clock: int | None
    """The ticks since boot, of a tick those after it; None in a quiet transcript, which shows no ticks."""
    _begin: int
    _answer: int
    _asked: int
    _length: int
    _content: int
    _call: int
    _kind: int
    _detail: int
    _process: int
    _event: int
    _reply: int
    _refusal: int
    _call_kind: int
    _asked_kind: int

    def _spoilt(self, fault: BaseException) -> BaseException:
        """The exception in place of that of a reader of words."""
        return fault


class PlainWords(Generic[Made]):
    """What words of a turn's line mean, read once for equal words: those of its call, by the one reader; or those of its stimulus, by the
    reader for its origin."""

    def __init__(self, are_call: bool, readers: tuple[Callable[[str], Made], ...]) -> None:
        self._are_call, self._readers = are_call, readers
        self._known: tuple[dict[bytes, Made], ...] = tuple({} for _ in readers)

    @overload
    def __get__(self, row: None, owner: type[Any]) -> "PlainWords[Made]": ...

    @overload
    def __get__(self, row: PlainRow, owner: type[Any]) -> Made: ...

    def __get__(self, row: PlainRow | None, owner: type[Any]) -> "PlainWords[Made] | Made":
        if row is None:
            return self
        first, end, place = (row._call, row._length, 0) if self._are_call else (row._content, row._call - ARROW, row._detail)
        words, known = row._data[row._begin + first:row._begin + end], self._known[place]
        made = known.get(words)
        if made is None:
            try:
                made = self._readers[place](words.decode())
            except BadTranscript as fault:
                raise row._spoilt(fault) from None
            if len(known) >= MOST_KEPT:
                known.clear()
            known[words] = made
        return made


def make_plain(types: tuple[type[Any], ...], source: "Source", data: bytes, table: bytearray, first: int,
               count: int, clock: int | None) -> list[Any]:
    """Rows of a table, ``count`` from the first one on, of the class that ``types`` has for their kinds. Their clocks are counted from this
    one; where it is None they have none."""
    made = []
    for index, numbers in enumerate(_FORMAT.iter_unpack(memoryview(table)[first * ROW_SIZE:(first + count) * ROW_SIZE]), first):
        row = types[numbers[7]]()
        (row._begin, row.clock, row._answer, row._asked, row._length, row._content, row._call, row._kind, row._detail, row._process,
         row._event, row._reply, row._refusal, row._call_kind, row._asked_kind) = numbers
        row._source, row._data, row.index = source, data, index
        row.clock = None if clock is None else clock + row.clock
        made.append(row)
    return made


if TYPE_CHECKING:
    Row = PlainRow
    Words = PlainWords
    make = make_plain
else:
    try:
        from ._entries import Row, Words, make
    except ImportError:
        Row, Words, make = PlainRow, PlainWords, make_plain
