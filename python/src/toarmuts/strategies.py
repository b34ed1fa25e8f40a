"""Hypothesis strategies for scripts, calls, applications and sizes, and a state machine over a mote in hand.

All that is mapped is a function with a name: what fails is shown by these names, and older versions of Hypothesis look up the
source of a lambda at each draw.
"""
from __future__ import annotations

from typing import Any, Callable, ClassVar, Iterable, Protocol, Sequence

from hypothesis import note
from hypothesis import strategies as st
from hypothesis.control import currently_in_test_context
from hypothesis.stateful import RuleBasedStateMachine, precondition, rule
from hypothesis.strategies import SearchStrategy

from .applications import ApplicationLike, Table, read_applications
from .call import Call
from .errors import ApplicationError, BadCall, BadInput, BadScenario, WrongType
from .mote import Mote
from .numbers import EventCode
from .options import Options
from .rules import MOST_APPLICATIONS, RULES
from .runs import Run
from .script import MOST_FRAME, Script, check_ticks, line_bytes
from .transcript import Transcript
from .values import Status, index_of

WORDS = tuple(RULES.calls)
KINDS = ("tick", "serial", "text", "frame")

# Names that are none: one beyond the last, by argument.
_BEYOND = {"process": 20, "timer": 8, "callback": 4, "handle": 16, "source": 16, "target": 16, "heap_block": 16, "pool": 4, "block": 16,
           "previous": 16, "chain": 8}
_OWN_CODES = (140, 141, EventCode.MSG.value, EventCode.CONTINUE.value)
_RESERVED_CODES = (EventCode.INIT.value, EventCode.TIMER.value)

small_names = st.integers(0, 3)
sizes = st.one_of(st.integers(0, 64), st.sampled_from([100, 127, 128, 1000]))
payloads = st.one_of(st.none(), st.integers(0, 9), st.binary(max_size=4))
chunks = st.binary(max_size=64)


def _several(what: str, given: Iterable[Any]) -> list[Any]:
    """The items of a list or another iterable. Not of a text, whose letters they would be."""
    if isinstance(given, (str, bytes)) or not isinstance(given, Iterable):
        raise WrongType(f"{what} must be a list, not {type(given).__name__}")
    made = list(given)
    if not made:
        raise BadInput(f"no {what}: at least one is needed")
    return made


def _number(what: str, given: object, least: int, most: int) -> int:
    """The number, where it is an int from the least to the most."""
    number = index_of(given)
    if number is None:
        raise WrongType(f"{what} must be an int, not {type(given).__name__}")
    if not least <= number <= most:
        raise BadInput(f"{what} is {number}; {least} to {most:,} is allowed")
    return number


def _names(beyond: int, wild: bool) -> SearchStrategy[int]:
    return st.one_of(small_names, small_names, small_names, st.just(beyond)) if wild else small_names


def arguments(name: str, *, applications: int = 1, wild: bool = False) -> SearchStrategy[Any]:
    """An argument of calls, small and mostly the name of something; ``wild``: also one that is refused."""
    if name not in RULES.arguments:
        raise BadCall(f"no call has an argument {name!r}; there are {', '.join(RULES.arguments)}")
    count = _number("applications", applications, 0, MOST_APPLICATIONS)
    if name == "process":
        near = st.integers(4, 3 + max(1, count))
        return st.one_of(near, st.sampled_from([0, 3, 20])) if wild else near
    if name in _BEYOND:
        return _names(_BEYOND[name], wild)
    if name == "code":
        return st.sampled_from(_OWN_CODES + (_RESERVED_CODES if wild else ()))
    lengths = st.integers(0, 70 if wild else 16)
    known: dict[str, SearchStrategy[Any]] = {"payload": payloads, "data": chunks, "size": sizes, "interval": st.integers(0, 40),
                                             "at": st.integers(0, 16), "length": lengths}
    return known[name]


def make_call(words: Sequence[Any]) -> Call:
    """The call of a word and its arguments."""
    return Call.by_word[words[0]](*words[1:])


def _calls_of(word: str, applications: int, wild: bool) -> SearchStrategy[Call]:
    parts = [arguments(name, applications=applications, wild=wild) for name in RULES.calls[word].arguments]
    return st.tuples(st.just(word), *parts).map(make_call)


def calls(words: Iterable[str] = WORDS, *, applications: int = 1, wild: bool = False) -> SearchStrategy[Call]:
    """A call of one of these words."""
    asked = _several("words of calls", words)
    unknown = next((word for word in asked if word not in WORDS), None)
    if unknown is not None:
        raise BadCall(f"no call {unknown!r}")
    return st.one_of([_calls_of(word, applications, wild) for word in asked])


def call_lists(words: Iterable[str] = WORDS, *, applications: int = 1, wild: bool = False,
               max_size: int = 12) -> SearchStrategy[list[Call]]:
    """An application that makes a list of calls."""
    most = _number("max_size", max_size, 0, 2**32)
    return st.lists(calls(words, applications=applications, wild=wild), max_size=most)


def make_table(rows: dict[Any, list[Call]]) -> Table:
    """The application of a table."""
    return Table(rows)


def tables(words: Iterable[str] = WORDS, *, codes: Iterable[int] = (129, 136, 138, 139, 140), applications: int = 1, wild: bool = False,
           max_size: int = 4) -> SearchStrategy[Table]:
    """An application by a table: calls for some of these events, and for callback timers."""
    row = call_lists(words, applications=applications, wild=wild, max_size=max_size)
    given = [_number("a code of an event", code, 0, 255) for code in _several("codes of events", codes)]
    keys: SearchStrategy[Any] = st.sampled_from([*given, "callback"])
    return st.dictionaries(keys, row, max_size=4).map(make_table)


def tick_line(ticks: int) -> str:
    """A line of a script."""
    return f"tick {ticks}"


def serial_line(data: bytes) -> str:
    """A line of a script."""
    return f"serial {data.hex()}"


def text_line(text: str) -> str:
    """A line of a script."""
    return f"serial {text.encode().hex()}0a"


def frame_line(data: bytes) -> str:
    """A line of a script."""
    return f"frame {data.hex()}"


def frames(max_size: int = 127) -> SearchStrategy[bytes]:
    """The bytes of a frame: random ones, or zeros, so that long frames are as likely as short ones."""
    most = index_of(max_size)
    if most is None:
        raise WrongType(f"the bytes of frames must be an int, not {type(max_size).__name__}")
    if not 1 <= most <= MOST_FRAME:
        raise BadInput(f"frames of {most} bytes: 1 to {MOST_FRAME} are allowed")
    return st.one_of(st.integers(1, most).map(bytes), st.binary(min_size=1, max_size=most))


def inputs(*, kinds: Iterable[str] = KINDS, max_ticks: int = 40, max_frame: int = 127,
           texts: Sequence[str] | None = None) -> SearchStrategy[str]:
    """A line of a script. ``texts``: the lines that come in on the serial line."""
    asked = _several("kinds of inputs", kinds)
    unknown = next((kind for kind in asked if kind not in KINDS), None)
    if unknown is not None:
        raise BadInput(f"no kind of input {unknown!r}; there are {', '.join(KINDS)}")
    lines = None if texts is None else _several("texts", texts)
    for text in lines or ():
        line_bytes(text)
    line = st.text("abcdefgh 0123", max_size=12) if lines is None else st.sampled_from(lines)
    known = {"tick": st.integers(0, check_ticks(max_ticks)).map(tick_line), "serial": st.binary(min_size=1, max_size=130).map(serial_line),
             "text": line.map(text_line), "frame": frames(max_frame).map(frame_line)}
    return st.one_of([known[kind] for kind in asked])


def scripts(*, max_size: int = 12, kinds: Iterable[str] = KINDS, max_ticks: int = 40, max_frame: int = 127,
            texts: Sequence[str] | None = None) -> SearchStrategy[Script]:
    """A script of at most ``max_size`` lines."""
    line = inputs(kinds=kinds, max_ticks=max_ticks, max_frame=max_frame, texts=texts)
    return st.lists(line, max_size=_number("max_size", max_size, 0, 2**32)).map(Script)


def by_four(number: int) -> int:
    """Four times a number."""
    return 4 * number


def make_options(mmem: int, heap: int, header: int, quota: int | None) -> Options:
    """Sizes."""
    return Options(mmem=mmem, heap=heap, header=header, quota=quota)


def options(*, quotas: bool = True) -> SearchStrategy[Options]:
    """Small sizes; with a quota they may be some with which no mote boots."""
    quota = st.one_of(st.none(), st.integers(1, 8).map(by_four)) if quotas else st.none()
    return st.builds(make_options, st.integers(1, 64).map(by_four), st.integers(5, 64).map(by_four), st.sampled_from([16, 8]), quota)


class HasTexts(Protocol):
    """A machine with lines for the serial line."""

    texts: ClassVar[Sequence[str]]


def texts_of(machine: "HasTexts") -> SearchStrategy[str]:
    """The lines that a machine's mote receives."""
    return st.sampled_from(_several("texts", machine.texts))


class MoteMachine(RuleBasedStateMachine):
    """A state machine whose rules are inputs of a mote. A subclass names its applications and looks at what follows:

        class Keeps(MoteMachine):
            applications = [Keeper]
            texts = ["on", "off"]

            def look(self, entries):
                assert not entries.refused()

        TestKeeps = Keeps.TestCase

    It fails where :meth:`look` or an application raises. Then the inputs are made smaller, and the smallest run is shown as a file for
    ``./scenario``.
    """

    applications: ClassVar[Sequence[ApplicationLike]] = ()
    options: ClassVar[Options] = Options()
    texts: ClassVar[Sequence[str]] = ("on", "off", "a", "")
    on_failure: ClassVar[Callable[[str], None] | None] = None
    """A function of one argument, as ``found.append``: it is called with the file of each run that fails, the smallest last."""

    def __init__(self) -> None:
        __tracebackhide__ = True
        super().__init__()
        try:
            self.mote = Mote(self.applications, options=self.options)
        except ApplicationError as fault:
            named = tuple(read_applications(self.applications))
            self._tell(Run(named, b"", self.options, Status.FINISHED, None, fault.transcript), fault)
            raise
        self._look(self.mote.booted)

    def look(self, entries: Transcript) -> None:
        """Looks at the entries that follow an input, and those of the boot."""

    def _look(self, entries: Transcript) -> None:
        __tracebackhide__ = True
        try:
            self.look(entries)
        except Exception as fault:
            self._tell(self.mote.so_far(), fault)
            raise

    def _feed(self, feed: Callable[[Any], Transcript], value: Any) -> None:
        """Feeds an input, and looks at what follows."""
        __tracebackhide__ = True
        try:
            entries = feed(value)
        except ApplicationError as fault:
            self._tell(self.mote.so_far(), fault)
            raise
        self._look(entries)

    def _tell(self, run: Run, fault: Exception) -> None:
        """Shows a run that fails as a file. Where an application raised, a list of its calls goes on otherwise, so that the file has no
        transcript."""
        is_whole = not isinstance(fault, ApplicationError)
        try:
            text_of_run = run.scenario(comment="" if is_whole else f"{type(fault).__name__}: {fault}", transcript=is_whole)
        except BadScenario as reason:
            text_of_run = f"# no scenario file can have this run: {reason}\n{run.text}"
        if currently_in_test_context():
            note(text_of_run)
        on_failure = type(self).on_failure
        if on_failure is not None:
            on_failure(text_of_run)

    def _goes_on(self) -> bool:
        return not self.mote.halted

    @precondition(_goes_on)
    @rule(ticks=st.integers(0, 40))
    def tick(self, ticks: int) -> None:
        """Advances the clock."""
        self._feed(self.mote.tick, ticks)

    @precondition(_goes_on)
    @rule(line=st.runner().flatmap(texts_of))
    def serial_text(self, line: str) -> None:
        """Receives a line on the serial line."""
        self._feed(self.mote.serial_text, line)

    @precondition(_goes_on)
    @rule(data=frames())
    def frame(self, data: bytes) -> None:
        """Receives a frame."""
        self._feed(self.mote.frame, data)

    def teardown(self) -> None:
        """Frees the mote's memory."""
        self.mote.close()
