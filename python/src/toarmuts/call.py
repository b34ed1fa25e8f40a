"""The common part of all calls of an application; :mod:`toarmuts.calls` has a class for each."""
from __future__ import annotations

import re
import struct
from typing import Any, Callable, ClassVar, Sequence, Union

from .errors import BadCall, WrongType
from .rules import RULES, CallRule
from .values import Payload, bytes_word, index_of, payload_word, read_bytes_word, read_number, read_payload_word

Argument = Union[int, bytes, None]

MOST_DATA = RULES.limits["bytes_of_data"]
MOST_LINE = RULES.limits["bytes_of_a_line"]
MOST_NUMBER = 0xFFFF_FFFF
# The module that has a class for each call.
_CALLS = f"{__package__}.calls"
MOST_CALLS = RULES.limits["calls_of_a_list"]
# The number of calls that are stored by their words, before all are dropped.
MOST_PARSED = 4096

# kind, four numbers, the payload's kind and number, the number of bytes, and the bytes: struct toarmuts_call of toarmuts.h.
PACKED = struct.Struct("=8I128s")


def _check_number(word: str, name: str, argument: object, most: int) -> int:
    number = index_of(argument)
    if number is None:
        raise WrongType(f"{word}: {name} must be an int, not {type(argument).__name__}")
    if not 0 <= number <= most:
        raise BadCall(f"{word}: {name} is {number}; 0 to {most:,} is allowed")
    return number


def _check_bytes(word: str, name: str, argument: object, most: int) -> bytes:
    if not isinstance(argument, (bytes, bytearray, memoryview)):
        raise WrongType(f"{word}: {name} must be bytes, not {type(argument).__name__}")
    data = bytes(argument)
    if len(data) > most:
        raise BadCall(f"{word}: {name} has {len(data)} bytes; at most {most} are allowed")
    return data


def _check_payload(word: str, argument: object) -> Payload:
    if argument is None:
        return None
    if isinstance(argument, (bytes, bytearray, memoryview)):
        return _check_bytes(word, "payload", argument, MOST_LINE)
    if index_of(argument) is None:
        raise WrongType(f"{word}: payload must be None, an int or bytes, not {type(argument).__name__}")
    return _check_number(word, "payload", argument, MOST_NUMBER)


def _checker(word: str, name: str) -> Callable[[object], Argument]:
    """The function that checks an argument, and returns it."""
    most = RULES.arguments[name].most
    if name == "payload":
        return lambda argument: _check_payload(word, argument)
    if name == "data":
        return lambda argument: _check_bytes(word, name, argument, MOST_DATA)
    assert most is not None
    limit = most

    def check(argument: object) -> int:
        # The usual case at once: a campaign makes hundreds of thousands of calls.
        if type(argument) is int and 0 <= argument <= limit:
            return argument
        return _check_number(word, name, argument, limit)

    return check


def _word_of(name: str) -> str:
    """The word of a call's class: ``timer-set`` of ``TimerSet``."""
    return re.sub("(?<=.)([A-Z])", r"-\1", name).lower()


def _about(rule: CallRule) -> str:
    """What a call does, what its arguments may be, and its reply."""
    lines = [f"{name}: {RULES.arguments[name].about}." for name in rule.arguments]
    lines.append(f"The reply is {rule.reply}." if rule.reply else "It has no reply.")
    if rule.refusals:
        lines.append("Refused with " + ", ".join(f"{RULES.refusals[number].name} ({number})" for number in rule.refusals) + ".")
    return f"{rule.about}.\n\n" + "\n".join(lines)


class Call:
    """A call with its arguments, which are the fields of its class. It can't be changed; two are equal where their words are.

    >>> call = Call.parse("mmem-write 0 4 6869")
    >>> call
    MmemWrite(0, 4, b'hi')
    >>> call.at, call.data, str(call)
    (4, b'hi', 'mmem-write 0 4 6869')
    """

    word: ClassVar[str] = ""
    """The word of a transcript, as ``timer-set``."""
    kind: ClassVar[int] = 0
    """The number in ``toarmuts.h``, from 1 on."""
    rule: ClassVar[CallRule]
    """What rules.json says of it."""
    ends_activation: ClassVar[bool] = False
    """Whether it is ``wait`` or ``exit``, which have no reply."""
    by_word: ClassVar[dict[str, type["Call"]]] = {}
    _checks: ClassVar[tuple[tuple[str, Callable[[object], Argument]], ...]] = ()
    _parsed: ClassVar[dict[str, "Call"]] = {}

    arguments: tuple[Argument, ...]
    """The arguments in their order."""
    _packed: bytes

    def __init_subclass__(cls) -> None:
        """Gives the classes of calls.py what the rules say of their calls. A user's class is a subclass of one of these: it makes the same
        call, and transcripts are read as before."""
        super().__init_subclass__()
        if cls.word:
            return
        word = _word_of(cls.__name__)
        if cls.__module__ != _CALLS or word not in RULES.calls:
            raise WrongType(f"{cls.__name__} is not a call's class: make it a subclass of one, as of toarmuts.Print")
        rule = RULES.calls[word]
        cls.word, cls.kind, cls.rule, cls.ends_activation = word, rule.kind, rule, rule.reply is None
        cls.__doc__ = _about(rule)
        cls._checks = tuple((name, _checker(word, name)) for name in rule.arguments)
        Call.by_word[word] = cls

    def __init__(self, *_: object) -> None:
        raise WrongType("Call is not a call itself: write one of its classes, as Wait(), or Call.parse('wait')")

    def __post_init__(self) -> None:
        known = self.__dict__
        arguments = tuple([check(known[name]) for name, check in self._checks])
        known.update(zip(self.rule.arguments, arguments), arguments=arguments)

    def __str__(self) -> str:
        words = [self.word]
        for name, argument in zip(self.rule.arguments, self.arguments):
            if name == "payload":
                words.append(payload_word(argument))
            else:
                words.append(bytes_word(argument) if isinstance(argument, bytes) else str(argument))
        return " ".join(words)

    def __repr__(self) -> str:
        return f"{type(self).__name__}({', '.join(map(repr, self.arguments))})"

    def __eq__(self, other: object) -> bool:
        if not isinstance(other, Call):
            return NotImplemented
        return self.kind == other.kind and self.arguments == other.arguments

    def __hash__(self) -> int:
        return hash((self.kind, self.arguments))

    def __reduce__(self) -> tuple[Any, ...]:
        kind = type(self)
        # A user's class may be made of other arguments.
        return (kind, self.arguments) if kind is Call.by_word[self.word] else (_made_again, (kind, self.__dict__))

    def packed(self) -> bytes:
        """The bytes of ``struct toarmuts_call``."""
        if "_packed" not in self.__dict__:
            self.__dict__["_packed"] = self._pack()
        return self._packed

    def _pack(self) -> bytes:
        numbers: list[int] = []
        payload = number = 0
        data = b""
        for name, argument in zip(self.rule.arguments, self.arguments):
            if isinstance(argument, bytes):
                data = argument
                payload = 2 if name == "payload" else 0
            elif name == "payload":
                payload, number = (0, 0) if argument is None else (1, argument)
            else:
                assert argument is not None
                numbers.append(argument)
        numbers += [0] * (4 - len(numbers))
        return PACKED.pack(self.kind, *numbers, payload, number, len(data), data)

    @staticmethod
    def parse(text: str) -> "Call":
        """The call of these words, as a transcript shows them; hex digits may be of either case.

        >>> Call.parse("timer-set 0 x")
        Traceback (most recent call last):
        toarmuts.errors.BadCall: 'timer-set 0 x': x is no number from 0 to 4294967295
        """
        known = Call._parsed.get(text) if isinstance(text, str) else None
        if known is not None:
            return known
        made = _parse(text)
        if len(Call._parsed) >= MOST_PARSED:
            Call._parsed.clear()
        Call._parsed[text] = made
        return made


def _made_again(kind: type[Call], members: dict[str, Any]) -> Call:
    """A call of a user's class, as it was pickled."""
    made = object.__new__(kind)
    made.__dict__.update(members)
    return made


def _parse(text: str) -> Call:
    if not isinstance(text, str):
        raise WrongType(f"the words of a call must be a str, not {type(text).__name__}")
    word, *rest = text.split(" ")
    kind = Call.by_word.get(word)
    if kind is None:
        raise BadCall(f"no call {word if word and word.isprintable() else repr(word)}", text)
    names = kind.rule.arguments
    try:
        arguments = [_read_argument(name, argument) for name, argument in zip(names, rest)]
    except BadCall as fault:
        raise BadCall(fault.reason, text) from None
    if len(rest) < len(names):
        raise BadCall(f"{word} lacks a word", text)
    if len(rest) > len(names):
        raise BadCall(f"more words than the call takes: {' '.join(rest[len(names):])}", text)
    return kind(*arguments)


def _read_argument(name: str, word: str) -> Argument:
    if name == "data":
        return read_bytes_word(word, MOST_DATA)
    if name == "payload":
        return read_payload_word(word, MOST_LINE)
    most = RULES.arguments[name].most
    assert most is not None
    return read_number(word, most)


def read_calls(text: str) -> list[Call]:
    """The calls of a list as docs/scenarios.md has them: ``timer-set 0 5, 3 wait, print 6869``.

    >>> read_calls("2 wait, exit")
    [Wait(), Wait(), Exit()]
    """
    made: list[Call] = []
    for place, part in enumerate(text.split(", ") if text else [], 1):
        try:
            made += _repeated(part)
        except BadCall as fault:
            raise BadCall(fault.reason, part, place) from None
    if len(made) > MOST_CALLS:
        raise BadCall(f"an application makes at most {MOST_CALLS} calls")
    return made


def is_count(word: str) -> bool:
    """Whether a word is the count of a call in a list."""
    try:
        return bool(read_number(word, MOST_CALLS, least=1))
    except BadCall:
        return False


def _repeated(part: str) -> Sequence[Call]:
    """A call, or several of it after a count."""
    first, space, rest = part.partition(" ")
    if not space or not first[:1].isdigit():
        return [Call.parse(part)]
    times = read_number(first, MOST_CALLS, least=1)
    return [Call.parse(rest)] * times
