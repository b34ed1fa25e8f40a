"""What can go wrong. Each exception of this package is a :class:`ToarmutsError`, and a ``ValueError`` or ``TypeError`` where one fits.

A run that the mote ends itself (a malformed line, a halt, too long a script) has a transcript: it is a result, not an error.
:meth:`toarmuts.Run.check` makes it one.
"""
from __future__ import annotations

import enum
from typing import TYPE_CHECKING

if TYPE_CHECKING:
    from .network_runs import NetworkRun
    from .runs import Run
    from .transcript import Transcript
    from .values import Stimulus


class Reason(enum.IntEnum):
    """Why the library refused a run, where its status leaves that open: ``enum toarmuts_reason`` of toarmuts.h."""

    NONE = 0
    MMEM = 1
    HEAP = 2
    HEADER = 3
    QUOTA = 4
    ALL_QUOTAS = 5
    """The quotas of the applications and of the frames exceed managed memory."""
    NAME = 6
    """No application has this name."""
    CALL = 7
    """No call has this name."""
    FEW_WORDS = 8
    MANY_WORDS = 9
    NUMBER = 10
    """A word is not a number, or out of range."""
    HEX = 11
    """A word is not hex, or has too many bytes."""
    MANY_CALLS = 12
    """A list has more than 128 calls."""


MOST_SHOWN = 500


def shown(text: str) -> str:
    r"""A text that can be written: half a surrogate pair, which UTF-8 can't have, becomes ``\ud800``."""
    return text.encode("utf-8", "backslashreplace").decode()


def cut(text: str) -> str:
    """A text for a message, cut where it is long."""
    return text if len(text) <= MOST_SHOWN else f"{text[:MOST_SHOWN]}.. ({len(text):,} characters)"


def repr_of(value: object) -> str:
    """The repr of a user's object for a message; where that raises, what it is."""
    try:
        return cut(repr(value))
    except Exception as fault:
        return f"a {type(value).__name__} (its repr raises {type(fault).__name__})"


def words_of(fault: BaseException) -> str:
    """The class and the message of an exception, for a message."""
    try:
        return f"{type(fault).__name__}: {cut(str(fault))}"
    except Exception as other:
        return f"{type(fault).__name__}, whose str raises {type(other).__name__}"


NEW_NAMES = {
    "module 'toarmuts'": {"Answer": "Reply"},
    "Mote": {"answer": "submit", "text": "serial_text"},
    "Script": {"text": "serial_text"},
    "Turn": {"answer": "reply", "answered_in": "replied_in"},
}
"""The names that 0.1.0 had, and those of today: the error of a program of then names the one that it needs."""


def no_attribute(owner: str, name: str) -> AttributeError:
    """The exception where a module or a class lacks an attribute."""
    new = NEW_NAMES[owner].get(name)
    return AttributeError(f"{owner} has no attribute {name!r}" + (f": it is now {new!r}" if new is not None else ""))


class ToarmutsError(Exception):
    """The base of this package's exceptions. All can be pickled, so that one process can pass them to another."""

    def __str__(self) -> str:
        return shown(super().__str__())

    def __reduce__(self) -> "tuple[object, ...]":
        return _made_again, (type(self), self.args, self.__dict__)


def _made_again(kind: type[ToarmutsError], arguments: "tuple[object, ...]", members: "dict[str, object]") -> ToarmutsError:
    """The exception with this message and these members, without its class's own arguments."""
    # Not kind.__new__, which for a subclass of MemoryError is that one's, and refuses.
    error = Exception.__new__(kind, *arguments)
    error.__dict__.update(members)
    return error


class WrongType(ToarmutsError, TypeError):
    """An argument has the wrong type."""


class BadCall(ToarmutsError, ValueError):
    """Words or arguments that are not a call: no such call, too few or too many words, a number out of range.

    ``reason`` is the message without the words; ``place`` is the position in a list of calls, from 1 on, or None.
    """

    def __init__(self, reason: str, words: str | None = None, place: int | None = None) -> None:
        super().__init__(reason if words is None else f"{words!r}: {reason}")
        self.reason, self.place = reason, place


class BadNetwork(ToarmutsError, ValueError):
    """A link with a mote that there isn't, a delay or a loss out of range, a shape with too few motes."""


class BadInput(ToarmutsError, ValueError):
    """A bad input: ticks or bytes out of range, or a malformed line of a script."""


class BadSizes(ToarmutsError, ValueError):
    """No mote boots with these sizes. ``size`` is the name of the first bad one, in the order mmem, heap, header, quota; ``why`` says
    whether it is bad by itself, or all quotas together are."""

    def __init__(self, size: str, why: Reason, message: str) -> None:
        super().__init__(message)
        self.size, self.why = size, why


class NoApplication(ToarmutsError, ValueError):
    """Not an application. ``number`` counts from 1, ``process`` is the process that it would be, ``call`` counts from 1 too. ``why`` is the
    library's reason, where it was asked."""

    def __init__(self, number: int, text: str, reason: str, call: int | None = None, why: Reason = Reason.NONE) -> None:
        place = f", call {call}" if call is not None else ""
        super().__init__(f"application {number} (process {number + 3}){place}: {reason}")
        self.number, self.text, self.reason, self.call, self.why = number, text, reason, call, why
        self.process = number + 3


class TooManyApplications(ToarmutsError, ValueError):
    """A mote has at most 16."""


class OutOfMemory(ToarmutsError, MemoryError):
    """Memory was refused."""


class StackTooSmall(OutOfMemory):
    """The thread's stack has too little left: a run of names and lists may need 240 KiB, a mote that goes step by step 168 KiB. Nothing was
    done. ``threading.stack_size(1 << 20)`` gives threads that are started later a stack of 1 MiB."""


class LibraryError(ToarmutsError, ImportError):
    """The library is missing, or not the one that this package was built for."""


class RunEnded(ToarmutsError):
    """A run didn't execute its script to the end. ``run`` is that run."""

    def __init__(self, message: str, run: "Run | NetworkRun") -> None:
        super().__init__(message)
        self.run = run


class ApplicationError(ToarmutsError):
    """An application in Python raised an exception, which is ``__cause__``, or made something that isn't a call.

    ``process`` and ``stimulus`` say which turn it was, ``transcript`` has the entries before it, ``mote`` is the number of
    its mote in a network, or None. The mote still awaits a call for that turn.
    """

    def __init__(self, process: int, stimulus: "Stimulus", reason: str, transcript: "Transcript", mote: int | None = None) -> None:
        from .values import in_names

        where = f"process {process}" if mote is None else f"mote {mote}, process {process}"
        super().__init__(f"{where} received {in_names(stimulus)}: {reason}")
        self.mote = mote
        self.process, self.stimulus, self.reason, self.transcript = process, stimulus, shown(reason), transcript


class MoteError(ToarmutsError):
    """A mote can't do this now: it is closed, was halted, or awaits a call."""


class NotReached(ToarmutsError):
    """What ``until`` awaited doesn't hold after the ticks that it may take."""


class BadScenario(ToarmutsError, ValueError):
    """A malformed scenario file (docs/scenarios.md), or a run that no such file can have."""


class NotInPython(BadScenario):
    """What only the program `scenario` reads: rows that react, ``...``, names of events, texts in quotes; of a network some more."""


class BadTranscript(ToarmutsError, ValueError):
    """A line that is not a line of a transcript."""


class NoPicture(ToarmutsError):
    """The program that draws pictures is missing, or refused this run."""
