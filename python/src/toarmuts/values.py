"""What applications receive: events, expired callback timers, and replies to their calls; and the words for them."""
from __future__ import annotations

import enum
import operator
import re
from dataclasses import dataclass
from typing import NamedTuple, SupportsIndex, Union

from .errors import BadCall, BadTranscript, WrongType, repr_of
from .numbers import EventCode, Refusal, ReplyKind
from .rules import RULES

Payload = Union[None, int, bytes]
"""What an event carries: nothing, a number, or the bytes of a line."""

_NUMBER = re.compile(r"0|[1-9][0-9]*")


class Status(enum.IntEnum):
    """How a run ended, by the number that is the status of the program ``mote`` too."""

    FINISHED = 0
    BAD_LINE = 2
    HALTED = 3
    EXHAUSTED = 3
    """Of a network: an input used up its rounds."""
    TOO_LONG = 4


class End(enum.Enum):
    """How a run ended, by the words of ``ends`` in a scenario."""

    FINISHED = "finished"
    BAD_LINE = "bad line"
    HALTED = "halted"
    TOO_LONG = "too long"


def index_of(value: object) -> int | None:
    """The int that a value is, by ``__index__``; None of a bool, and of what isn't one.

    >>> index_of(EventCode.INIT), index_of(True), index_of(1.0)
    (129, None, None)
    """
    if type(value) is int:
        return value
    if isinstance(value, bool) or not isinstance(value, SupportsIndex):
        return None
    try:
        return operator.index(value)
    except TypeError:
        # An array of numpy's has it, and raises.
        return None


def _check_index(what: str, value: object, most: int, allowed: str = "an int") -> None:
    """Raises WrongType where a member is not an int from 0 to this."""
    number = index_of(value)
    if number is None or not 0 <= number <= most:
        raise WrongType(f"{what} must be {allowed} from 0 to {most:,}, not {repr_of(value)}")


def read_number(word: str, most: int, least: int = 0) -> int:
    """A number in decimal without leading zeros; raises BadCall where it isn't one."""
    if not _NUMBER.fullmatch(word) or len(word) > 20 or not least <= int(word) <= most:
        raise BadCall(f"{word or 'nothing'} is no number from {least} to {most}")
    return int(word)


def bytes_word(data: bytes) -> str:
    """Bytes in hex, a dash where there are none."""
    return data.hex() or "-"


def read_bytes_word(word: str, most: int) -> bytes:
    """The bytes of a word in hex; raises BadCall where it isn't hex."""
    if word == "-":
        return b""
    try:
        data = bytes.fromhex(word)
    except ValueError:
        data = b""
    if not data or 2 * len(data) != len(word) or len(data) > most:
        raise BadCall(f"{word or 'nothing'} is no hex of at most {most} bytes")
    return data


def payload_word(payload: Payload) -> str:
    """The word for what an event carries."""
    if payload is None:
        return "-"
    return "x" + payload.hex() if isinstance(payload, bytes) else str(payload)


def read_payload_word(word: str, most: int) -> Payload:
    """What an event carries, by its word."""
    if word == "-":
        return None
    if word == "x":
        return b""
    # A line of no bytes is `x` alone.
    return read_bytes_word(word[1:], most) if word[:1] == "x" and word != "x-" else read_number(word, 0xFFFF_FFFF)


@dataclass(frozen=True, repr=False)
class Event:
    """A process receives an event: its code and what it carries.

    >>> Event(129).name, Event(129), Event(140, b"hi")
    ('INIT', Event(EventCode.INIT), Event(140, b'hi'))
    """

    code: int
    payload: Payload = None

    def __post_init__(self) -> None:
        if type(self.code) is not int or not 0 <= self.code <= 255:
            _check_index("the code of an event", self.code, 255)
        payload = self.payload
        if payload is not None and not isinstance(payload, bytes):
            _check_index("the payload of an event", payload, 2**32 - 1, "None, bytes or an int")

    @property
    def name(self) -> str:
        """The name of an event of the kernel, or the code."""
        return EventCode(self.code).name if self.code in RULES.events else str(self.code)

    def __str__(self) -> str:
        return f"{self.code} {payload_word(self.payload)}"

    def __repr__(self) -> str:
        code = f"EventCode.{self.name}" if self.code in RULES.events else self.name
        return f"{type(self).__name__}({code}{'' if self.payload is None else f', {self.payload!r}'})"


@dataclass(frozen=True, repr=False)
class Callback:
    """A process's callback timer has run out."""

    timer: int

    def __post_init__(self) -> None:
        _check_index("a callback timer", self.timer, 255)

    def __str__(self) -> str:
        return str(self.timer)

    def __repr__(self) -> str:
        return f"{type(self).__name__}({self.timer})"


class Stats(NamedTuple):
    """The state of the whole heap, all in bytes but ``chunks``."""

    allocated: int
    overhead: int
    available: int
    footprint: int
    chunks: int


@dataclass(frozen=True, repr=False)
class Reply:
    """The reply to a process's call. ``value`` depends on the kind: None for ``done``, a Refusal, an int, a bool, bytes, Stats. Use ``ok``
    to see whether the call was executed: in ``if reply:`` each reply is true.

    >>> reply = Reply(ReplyKind.REFUSED, Refusal.NO_ROOM)
    >>> reply.ok, reply, str(reply)
    (False, Reply(ReplyKind.REFUSED, Refusal.NO_ROOM), 'refused 12')
    """

    kind: ReplyKind
    value: Union[None, int, bool, bytes, Refusal, Stats] = None

    def __post_init__(self) -> None:
        if not isinstance(self.kind, ReplyKind):
            raise WrongType(f"the kind of a reply must be a ReplyKind, not {repr_of(self.kind)}")

    @property
    def ok(self) -> bool:
        """Whether the call was executed."""
        return self.kind is not ReplyKind.REFUSED

    @property
    def refused(self) -> bool:
        """Whether the call was refused."""
        return self.kind is ReplyKind.REFUSED

    @property
    def refusal(self) -> Refusal | None:
        """Why it was refused, or None."""
        return self.value if isinstance(self.value, Refusal) else None

    def __str__(self) -> str:
        word = self.kind.name.lower()
        value = self.value
        if value is None:
            return word
        if isinstance(value, Stats):
            return f"{word} {' '.join(map(str, value))}"
        if isinstance(value, bool):
            return f"{word} {'true' if value else 'false'}"
        return f"{word} {bytes_word(value) if isinstance(value, bytes) else int(value)}"

    def __repr__(self) -> str:
        value = f"Refusal.{self.value.name}" if isinstance(self.value, Refusal) else repr(self.value)
        return f"{type(self).__name__}(ReplyKind.{self.kind.name}{'' if self.value is None else f', {value}'})"


DONE = Reply(ReplyKind.DONE)

Stimulus = Union[Event, Callback, Reply]
"""What a process receives at the start of a turn."""


def in_names(stimulus: Stimulus) -> str:
    """What a process received, for a message: with the names of events and refusals, and bytes as Python shows them.

    >>> in_names(Event(138, b"on")), in_names(Event(140, 7)), in_names(Reply(ReplyKind.REFUSED, Refusal.IN_USE))
    ("SERIAL_LINE b'on'", 'event 140 7', 'reply refused IN_USE')
    """
    if isinstance(stimulus, Event):
        name = stimulus.name if stimulus.code in RULES.events else f"event {stimulus.name}"
        return name if stimulus.payload is None else f"{name} {stimulus.payload!r}"
    if isinstance(stimulus, Callback):
        return f"callback {stimulus.timer}"
    value = stimulus.value
    if isinstance(value, (Refusal, bytes)):
        return f"reply {stimulus.kind.name.lower()} {value.name if isinstance(value, Refusal) else repr(value)}"
    return f"reply {stimulus}"


_KINDS = {kind.name.lower(): kind for kind in ReplyKind}
_MOST = {ReplyKind.NUM: 2**32 - 1, ReplyKind.WIDE: 2**64 - 1}


def read_reply(words: str) -> Reply:
    """The reply of these words."""
    word, _, rest = words.partition(" ")
    kind = _KINDS.get(word)
    try:
        if kind is ReplyKind.DONE and not rest:
            return DONE
        if kind is ReplyKind.REFUSED:
            return Reply(kind, Refusal(read_number(rest, 18, 1)))
        if kind is ReplyKind.FLAG and rest in ("true", "false"):
            return Reply(kind, rest == "true")
        if kind is ReplyKind.BYTES:
            return Reply(kind, read_bytes_word(rest, 64))
        if kind is ReplyKind.STATS and rest.count(" ") == 4:
            return Reply(kind, Stats(*(read_number(part, 2**32 - 1) for part in rest.split(" "))))
        if kind in (ReplyKind.NUM, ReplyKind.WIDE):
            return Reply(kind, read_number(rest, _MOST[kind]))
    except BadCall as fault:
        raise BadTranscript(f"{words}: {fault}") from None
    raise BadTranscript(f"{words} is no reply")


def read_event(words: str) -> Event:
    """The event of these words: its code and what it carries."""
    code, _, payload = words.partition(" ")
    try:
        return Event(read_number(code, 255), read_payload_word(payload, 127))
    except BadCall as fault:
        raise BadTranscript(f"{words}: {fault}") from None
