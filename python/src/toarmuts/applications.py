"""Applications: names, lists of calls, and applications in Python.

An application in Python is a class whose objects have ``turn(stimulus) -> Call``, or a generator function:

>>> from toarmuts import EventCode, Print, TimerReset, TimerSet, Wait, run
>>> def beat():
...     reply = yield TimerSet(0, 10)
...     while reply.ok:
...         stimulus = yield Wait()
...         if stimulus.code == EventCode.TIMER:
...             yield Print(b"beat\\n")
...             reply = yield TimerReset(0)
>>> run([beat], "tick 10\\n").printed()
b'beat\\n'
"""
from __future__ import annotations

import functools
import inspect
import itertools
import struct
from collections.abc import Callable, Generator, Iterable, Mapping, Sequence, Set
from dataclasses import dataclass
from typing import Any, Protocol, Union, overload

from .call import MOST_CALLS, Call, is_count, read_calls
from .calls import Clock, Exit, Wait
from .errors import (BadCall, BadInput, NoApplication, Reason, TooManyApplications, ToarmutsError, WrongType, repr_of, words_of)
from .library import APPLICATION_SIZE, Why
from .numbers import EventCode
from .rules import BUNDLED, FIRST_PROCESS, MOST_APPLICATIONS, RULES
from .script import encoded
from .values import Event, Stimulus, index_of


class Application(Protocol):
    """A state machine: it receives a stimulus, and makes one call."""

    def turn(self, stimulus: Stimulus) -> Call:
        """The call for this stimulus."""


Turns = Generator[Call, Any, None]
"""What a generator function returns: it yields calls, and is sent what the process receives next."""

ApplicationLike = Union[str, Sequence[Union[Call, str]], Application, Callable[[], Union[Application, Turns]]]
"""A name, ``calls`` and a list of calls as text, a list of calls, a class or another callable that makes an application, an
application, or a generator function."""


class CallList:
    """Makes these calls, one in each turn, and then waits (``calls`` of docs/scenarios.md)."""

    def __init__(self, calls: Sequence[Call]) -> None:
        self._calls = iter(tuple(calls))

    def turn(self, stimulus: Stimulus) -> Call:
        """The next call."""
        return next(self._calls, WAIT)


class GeneratorApplication:
    """An application by a generator function. Each INIT begins a new generator; where one returns, the process exits. One that raised
    can't go on. One whose process was killed stays where it waits; its ``finally`` runs at the next start."""

    def __init__(self, function: Callable[[], Turns]) -> None:
        self._function = function
        self._turns: Turns | None = None

    def turn(self, stimulus: Stimulus) -> Call:
        """What the generator yields next."""
        return self.asking(stimulus)()

    def asking(self, stimulus: Stimulus) -> Callable[[], Call]:
        """A function that resumes the generator up to its next yield, and does only that: so no interrupt comes after it."""
        if self._turns is None or (isinstance(stimulus, Event) and stimulus.code == EventCode.INIT):
            self._turns = _with_exit(self._function())
            return self._turns.__next__
        if self._turns.gi_frame is None:
            raise RuntimeError("the generator has raised, so it can't go on until its process is started again")
        return functools.partial(self._turns.send, stimulus)


def _with_exit(turns: Turns) -> Turns:
    """The same, which exits at its end."""
    yield from turns
    while True:
        yield EXIT


class Table:
    """An application by a table: for each event code, or ``"callback"``, the calls that it makes then, one after the other.

    It makes the next call of a list whatever the reply to the one before is, and waits after the last.

    >>> from toarmuts import Print, TimerReset, TimerSet, run
    >>> table: dict[EventCode, list[Call]] = {EventCode.INIT: [TimerSet(0, 5)], EventCode.TIMER: [Print(b"."), TimerReset(0)]}
    >>> run([lambda: Table(table)], "tick 5\\ntick 5\\n").printed()
    b'..'
    """

    # For a type checker a dict of event codes isn't one of numbers or texts.
    @overload
    def __init__(self, rows: Mapping[int | str, Sequence[Call]]) -> None: ...

    @overload
    def __init__(self, rows: Mapping[EventCode, Sequence[Call]] | Mapping[int, Sequence[Call]]) -> None: ...

    def __init__(self, rows: Mapping[Any, Sequence[Call]]) -> None:
        if not isinstance(rows, Mapping):
            raise WrongType(f"a table must be a dict with a list of calls for each event, not {type(rows).__name__}")
        self.rows: dict[int | str, list[Call]] = {_check_key(key): _check_row(calls) for key, calls in rows.items()}
        self._left: list[Call] = []

    def turn(self, stimulus: Stimulus) -> Call:
        """The next call of the row."""
        if isinstance(stimulus, Event):
            self._left = list(self.rows.get(stimulus.code, ()))
        elif type(stimulus).__name__ == "Callback":
            self._left = list(self.rows.get("callback", ()))
        return self._left.pop(0) if self._left else WAIT

    def __repr__(self) -> str:
        return f"Table({self.rows!r})"


def _check_key(key: object) -> int | str:
    """The key of a table's row: an event code or ``"callback"``."""
    if isinstance(key, EventCode):
        return key
    code = "callback" if key == "callback" else index_of(key)
    if code is None or (isinstance(code, int) and not 0 <= code <= 255):
        raise WrongType(f"a table's key must be an event code, 0 to 255, or 'callback', not {repr_of(key)}")
    return code


def _check_row(calls: object) -> list[Call]:
    """The calls of a table's row."""
    if not isinstance(calls, (list, tuple)):
        raise WrongType(f"a table's row must be a list of calls, not {type(calls).__name__}")
    wrong = next((call for call in calls if not isinstance(call, Call)), None)
    if wrong is not None:
        raise WrongType(f"a table's row must have calls, not {_kind_of(wrong)}")
    return list(calls)


WAIT, EXIT, CLOCK = Wait(), Exit(), Clock()
# The member of struct toarmuts_application that says which it is.
_KIND = struct.Struct("=I")


@dataclass(frozen=True)
class Named:
    """An application as it was passed: ``line`` for the library, where that can run it, and what makes it anew."""

    number: int
    line: str | None
    make: Callable[[], Made]
    shown: str
    """Its name in pictures and messages."""

    @property
    def process(self) -> int:
        """Its process."""
        return FIRST_PROCESS + self.number - 1

    def __copy__(self) -> "Named":
        return self

    def __deepcopy__(self, _: object) -> "Named":
        return self

    def __reduce__(self) -> tuple[Any, ...]:
        """A run is pickled without its applications in Python, which may be lambdas or hold locks."""
        return _named_elsewhere, (self.number, self.line, self.shown)


def _named_elsewhere(number: int, line: str | None, shown: str) -> Named:
    """An application of a run that came out of a pickle."""
    return Named(number, line, functools.partial(_stayed, number, shown), shown) if line is None else _read_line(number, line)


def _stayed(number: int, shown: str) -> Application:
    raise NoApplication(number, shown, f"{shown} is an application in Python, which a pickle of its run leaves out")


def read_applications(applications: object) -> list[Named]:
    """The applications of a mote; raises WrongType or NoApplication where one isn't an application."""
    if isinstance(applications, (str, bytes)):
        raise WrongType(f"applications must be a list: [{repr_of(applications)}]")
    if not isinstance(applications, Iterable) or isinstance(applications, (Mapping, Set)):
        raise WrongType(f"applications must be a list, not {type(applications).__name__}")
    made = list(applications)
    if len(made) > MOST_APPLICATIONS:
        raise TooManyApplications(f"{len(made)} applications; a mote has at most {MOST_APPLICATIONS}")
    return [_read(number, application) for number, application in enumerate(made, 1)]


def _read(number: int, application: object) -> Named:
    if isinstance(application, str):
        return _read_line(number, application)
    if isinstance(application, (list, tuple)):
        return _read_list(number, application)
    if isinstance(application, Call):
        raise WrongType(f"application {number} is the call {application!r}: write a list of calls, [{application!r}]")
    if inspect.iscoroutinefunction(_unwrapped(application)) or inspect.isasyncgenfunction(_unwrapped(application)):
        raise WrongType(f"application {number} is the async function {_name_of(application)}: write a generator function, without async")
    if inspect.isgeneratorfunction(_unwrapped(application)):
        assert callable(application)
        function = application
        return Named(number, None, functools.partial(GeneratorApplication, function), _name_of(application))
    if not isinstance(application, type) and callable(getattr(application, "turn", None)):
        made: Application = application  # type: ignore[assignment]  # it has turn
        return Named(number, None, functools.partial(_itself, made), type(application).__name__)
    if callable(application):
        return Named(number, None, functools.partial(_make, number, application), _name_of(application))
    if inspect.isgenerator(application):
        raise WrongType(f"application {number} is a generator: write its generator function, or lambda: f(..)")
    raise WrongType(f"application {number} must be a name, a list of calls, a class with turn(stimulus) or a generator function, "
                    f"not {type(application).__name__}")


def _itself(application: Application) -> Application:
    """An application that was made by the caller."""
    return application


class ClockWatcher:
    """Asks for the clock at every turn, and so never waits."""

    def turn(self, stimulus: Stimulus) -> Call:
        """The call for this stimulus."""
        return CLOCK


class Bundled:
    """An application of the mote between two turns: the library makes its calls."""

    def __init__(self, name: str) -> None:
        self.name = name
        self.state = bytearray(_KIND.pack(BUNDLED.index(name) + 1).ljust(APPLICATION_SIZE, b"\0"))
        """The bytes of ``struct toarmuts_application``."""

    def __repr__(self) -> str:
        return f"<Bundled {self.name}>"


Made = Union[Application, Bundled]
"""An application of a mote that goes step by step."""


def _unwrapped(application: object) -> object:
    while isinstance(application, functools.partial):
        application = application.func
    return application


def _name_of(application: object) -> str:
    return str(getattr(_unwrapped(application), "__name__", type(application).__name__))


def _make(number: int, factory: Callable[[], object]) -> Application:
    """What a class or another callable makes."""
    try:
        made: Any = factory()
    except Exception as fault:
        name = _name_of(factory)
        raise NoApplication(number, name, f"{name}() raised {words_of(fault)}") from fault
    if inspect.isgenerator(made):
        return GeneratorApplication(_made_once(made, factory))
    if isinstance(factory, type) and not callable(getattr(made, "turn", None)):
        raise WrongType(f"application {number} is the class {factory.__name__}, which has no turn(stimulus)")
    if not callable(getattr(made, "turn", None)):
        raise WrongType(f"application {number}: {_name_of(factory)}() returned {type(made).__name__}, which has no turn(stimulus)")
    application: Application = made
    return application


def _made_once(turns: Turns, factory: Callable[[], Any]) -> Callable[[], Turns]:
    """Returns a generator that exists already, and from then on new ones."""
    return itertools.chain([turns], iter(factory, None)).__next__


def _read_line(number: int, line: str) -> Named:
    """A name, or ``calls`` and a list of calls. The library refuses what is neither; where it runs in Python, `make` does."""
    if "\n" in line or "\r" in line:
        raise NoApplication(number, line, f"a name must have no line end: {line!r}")
    try:
        encoded(line, "a name")
    except BadInput as fault:
        raise NoApplication(number, line, str(fault)) from None
    if line == "calls" or line.startswith("calls "):
        return Named(number, line, functools.partial(_make_list, number, line), "calls")
    return Named(number, line, functools.partial(_make_named, number, line), line)


def _make_list(number: int, line: str) -> Application:
    """The list of calls of a line."""
    try:
        return CallList(read_calls(line[6:]))
    except BadCall as fault:
        raise NoApplication(number, line, str(fault), fault.place) from None


def _make_named(number: int, name: str) -> Made:
    """The application of this name."""
    if name not in RULES.applications:
        raise NoApplication(number, name, _no_name(name))
    return Bundled(name) if name in BUNDLED else ClockWatcher()


def _no_name(name: str) -> str:
    names = ", ".join(RULES.applications)
    return f"no application {name!r}; there are {names}, and 'calls ..'" if name else "the name is empty"


_NO_CALL = {
    Reason.CALL: "no call has this name",
    Reason.FEW_WORDS: "the call lacks a word",
    Reason.MANY_WORDS: "there are more words than the call takes",
    Reason.NUMBER: "a word is not a number, or out of range",
    Reason.HEX: "a word is not hex, or has too many bytes",
}


def no_application(named: Named, why: Why) -> NoApplication:
    """The exception where the library refuses an application for this reason."""
    number, line = named.number, named.line or ""
    if why.reason is Reason.NAME:
        return NoApplication(number, line, _no_name(line), None, why.reason)
    if why.reason is Reason.MANY_CALLS:
        return NoApplication(number, line, f"an application makes at most {MOST_CALLS} calls", None, why.reason)
    part = line[6:].split(", ")[why.call]
    reason = _NO_CALL[why.reason] + _taken(part)
    if why.reason is Reason.NUMBER and part[:1].isdigit() and not is_count(part.partition(" ")[0]):
        reason = f"the count before a call must be 1 to {MOST_CALLS}"
    return NoApplication(number, line, f"{part!r}: {reason}", why.call + 1, why.reason)


def _taken(part: str) -> str:
    """The arguments of the call that a part of a list names, where there is one of that name."""
    rule = next((RULES.calls[word] for word in part.split(" ")[:2] if word in RULES.calls), None)
    return "" if rule is None else f": {rule.name} takes {', '.join(map(_argument, rule.arguments)) or 'none'}"


def _argument(name: str) -> str:
    most = RULES.arguments[name].most
    return name if most is None else f"{name} (0 to {most:,})"


def _read_list(number: int, calls: Sequence[object]) -> Named:
    """A list of calls."""
    if len(calls) > MOST_CALLS:
        raise NoApplication(number, f"{len(calls)} calls", f"{len(calls)} calls; a list has at most {MOST_CALLS}")
    made = [_read_call(number, place, call) for place, call in enumerate(calls, 1)]
    line = "calls " + ", ".join(map(str, made)) if made else "calls"
    return Named(number, line, functools.partial(CallList, made), "calls")


def _read_call(number: int, place: int, call: object) -> Call:
    if isinstance(call, Call):
        return call
    if isinstance(call, str):
        try:
            return Call.parse(call)
        except BadCall as fault:
            raise NoApplication(number, call, str(fault), place) from None
    raise WrongType(f"application {number}, call {place} must be a Call or its words, not {_kind_of(call)}")


def _kind_of(call: object) -> str:
    if isinstance(call, type) and issubclass(call, Call):
        return f"the class {call.__name__}: write {call.__name__}(..)"
    return type(call).__name__


def why_no_call(call: object) -> str:
    """Why what an application returned or yielded is not a call."""
    if isinstance(call, type) and issubclass(call, Call):
        return f"the class {call.__name__} is not a call: write {call.__name__}(..)"
    if inspect.isgenerator(call):
        return "a generator is not a call: turn must not yield; a generator function is an application itself"
    if inspect.iscoroutine(call):
        call.close()
        return "a coroutine is not a call: write turn without async"
    if isinstance(call, str):
        return f"the text {repr_of(call)} is not a call: Call.parse makes one"
    return f"{repr_of(call)} is not a call"


__all__ = ["Application", "ApplicationLike", "Bundled", "CallList", "GeneratorApplication", "Made", "Named", "Table", "ToarmutsError",
           "Turns", "read_applications"]
