"""Works a mote or a network of the library step by step, with applications in Python."""
from __future__ import annotations

import functools
import struct
from collections import defaultdict
from collections.abc import Callable, Sequence
from typing import ClassVar

from .applications import Application, Bundled, GeneratorApplication, Made, Named, why_no_call
from .call import Call
from .errors import ApplicationError, MoteError, OutOfMemory, StackTooSmall, ToarmutsError, words_of
from .library import (AWAITS_CALL, BAD_SIZES, CLOSED, NO_CALL, NO_INPUT, NO_TIMER, NO_TURN, NOT_AT_REST, OUT_OF_MEMORY, STACK_TOO_SMALL,
                      TOO_MANY_INPUTS, KIB_OF_A_RUN, KIB_OF_A_STEP, CanAdvance, Held, HeldNetwork, library)
from .numbers import Refusal, ReplyKind
from .options import Options
from .rules import FIRST_PROCESS
from .transcript import Transcript
from .values import Callback, Event, Payload, Reply, Stats, Stimulus

# struct advance of native/advance.h, up to its lines. Of a network, the mote whose turn it is and the number of bytes that were executed of
# its script follow the turn.
_ADVANCE = struct.Struct("=4I6IQ6I128sI4xQ")
_TURN_BEGINS, _TURN_ENDS = 4, 18
# The steps of the library, and one for a malformed line.
_TURN, _ENTRY, _REST, _HALTED, _MALFORMED = range(5)
_EVENT, _CALLBACK, _ANSWER = range(3)
BAD_LINE, HALTED = 2, 3
_NO_CALL = bytes(160)
# A status that no call returns, in place of one that was read.
_NOTED_BYTES = b"\xff" * 4
_NOTED = 0xFFFFFFFF
_REPLIES = tuple(ReplyKind)

REASONS = {
    HALTED: "the {what} was halted: nothing follows",
    CLOSED: "the {what} is closed",
    AWAITS_CALL: "a turn awaits its call: `submit` takes one, `resume` asks the application again",
    NO_TURN: "no turn awaits a call",
    NOT_AT_REST: "work is left: `resume` goes on",
    NO_CALL: "the library doesn't take this call",
    NO_INPUT: "the library doesn't take this input",
    TOO_MANY_INPUTS: "there were too many inputs, or the clock would go beyond 2^62",
}


def refuse(status: int, what: str = "mote") -> ToarmutsError:
    """The exception for a status of a step of a mote or a network."""
    if status == OUT_OF_MEMORY:
        return OutOfMemory("memory was refused")
    if status == STACK_TOO_SMALL:
        return stack_too_small(f"a {what} that goes step by step", KIB_OF_A_STEP)
    return MoteError(REASONS.get(status, f"the library returned status {status}").format(what=what))


def stack_too_small(what: str, kibibytes: int) -> StackTooSmall:
    """The exception where a thread has less stack left than this may need."""
    return StackTooSmall(f"the thread's stack has less than {kibibytes} KiB left, which {what} may need: threading.stack_size(1 << 20), "
                         "before a thread is started, gives it more")


def clock_of(due: tuple[int, int]) -> int | None:
    """The clock of a timer that the library returned; None where none is set."""
    status, clock = due
    if status not in (0, NO_TIMER):
        raise refuse(status)
    return clock if status == 0 else None


def bad_sizes(options: Options, applications: int) -> ToarmutsError:
    """The exception for sizes with which no mote opens: a run of as many empty lists is refused for the same reason."""
    outcome = library().run(options.configuration(), b"calls\n" * applications, b"")
    if outcome.status == STACK_TOO_SMALL:
        return stack_too_small("a run", KIB_OF_A_RUN)
    return options.bad(outcome.why.reason, applications)


def _payload(kind: int, number: int, data: bytes) -> Payload:
    return (None, number, data)[kind]


def _reply(reply: int, number: int, stats: tuple[int, ...], data: bytes) -> Reply:
    kind = _REPLIES[reply]
    if kind is ReplyKind.DONE:
        return Reply(kind)
    if kind is ReplyKind.REFUSED:
        return Reply(kind, Refusal(number))
    if kind is ReplyKind.FLAG:
        return Reply(kind, bool(number))
    if kind is ReplyKind.BYTES:
        return Reply(kind, data)
    return Reply(kind, Stats(*stats)) if kind is ReplyKind.STATS else Reply(kind, number)


def _asking(application: Application, stimulus: Stimulus) -> Callable[[], Call]:
    """A function that asks an application for its call."""
    if isinstance(application, GeneratorApplication):
        return application.asking(stimulus)
    return functools.partial(application.turn, stimulus)


class Worker:
    """Works what the library holds from rest to rest, and asks applications in Python for their calls."""

    what: ClassVar[str]
    """Which of the two it is, in messages."""

    def __init__(self, worked: CanAdvance) -> None:
        self._worked = worked
        self._worked.advance_bytes[:4] = _NOTED_BYTES
        self.lines: list[bytes] = []
        self.line_count = 0
        self.executed: list[bytes] = []
        """Of a network: the lines of scripts that were executed."""
        self._script, self._first = b"", 0
        """Of a network: a script, and the offset of its first line that wasn't executed."""
        self.mote = 0
        """The mote whose turn awaits a call, from 1 on; of a mote alone 0."""
        self.awaiting: tuple[int, Stimulus] | None = None
        self._made: defaultdict[int, Call] = defaultdict()
        """At 0 the call that the application made then, until the library has it: an interrupt may come between."""
        self._is_script = False
        """Of a network: whether lines of a script were passed to the library, and no call."""
        self.halted = False

    def work(self, call: Call | None = None) -> None:
        """Works on to rest; a call is for the turn that awaits one."""
        __tracebackhide__ = True
        self._work(_NO_CALL if call is None else call.packed())

    def _work(self, made: bytes | bytearray | None) -> int:
        """The same, and returns the step. What is made is a call, or the state of a bundled application, which makes one; where it is None,
        lines of a script are executed."""
        __tracebackhide__ = True
        while True:
            step = self._advance(made)
            if step == _TURN:
                made = self._make()
            elif step == _ENTRY:
                made = _NO_CALL
            else:
                self.halted = step == _HALTED
                return step

    def _pass(self, made: bytes | bytearray | None) -> None:
        """Passes a call to the library, which works on."""
        if isinstance(made, bytearray):
            self._worked.advance_bundled(made)
        elif made is not None:
            self._worked.advance(made)

    def _advance(self, made: bytes | bytearray | None) -> int:
        """Passes a call to the library, works on, keeps the lines that were made, and notes which turn awaits a call then."""
        try:
            self._pass(made)
            return self._note()
        except BaseException:
            # An interrupt, or what another signal's handler raises, may come when the library has worked on, and nothing is noted yet.
            self._note()
            raise

    def _note(self) -> int:
        """Notes the result of the library's work, once."""
        result = self._worked.advance_bytes
        numbers = _ADVANCE.unpack_from(result)
        status, step, submitted, length = numbers[:_TURN_BEGINS]
        if status == _NOTED:
            return int(step)
        made = bytes(result[_ADVANCE.size:_ADVANCE.size + length])
        line_count = self.line_count + made.count(b"\n")
        turn = numbers[_TURN_BEGINS:_TURN_ENDS]
        awaiting = self._read_turn(turn) if step == _TURN and not status else None if submitted else self.awaiting
        mote, length = numbers[_TURN_ENDS:]
        executed = self._script[self._first:self._first + length]
        # From here on no function is called before the lines are kept, so no interrupt comes between.
        result[:4] = _NOTED_BYTES
        self.mote, self.awaiting = mote, awaiting
        # Where nothing was done for lack of memory, the library must still receive the call; and where none was passed.
        if self._made and not self._is_script and (submitted or status not in (STACK_TOO_SMALL, OUT_OF_MEMORY)):
            del self._made[0]
        self.line_count = line_count
        self._first += length
        self.executed += [executed] if executed else []
        self.lines += [made] if made else []
        if status == BAD_LINE:
            return _MALFORMED
        if status:
            raise refuse(status, self.what)
        return int(step)

    @staticmethod
    def _read_turn(turn: tuple[int, ...]) -> tuple[int, Stimulus]:
        process, _, stimulus, event, payload, reply, number = turn[:7]
        filled: object = turn[13]
        assert isinstance(filled, bytes)
        data = filled[:turn[12]]
        if stimulus == _EVENT:
            return process, Event(event, _payload(payload, number, data))
        return process, Callback(number) if stimulus == _CALLBACK else _reply(reply, number, turn[7:12], data)

    def _application(self, process: int) -> Made:
        """The application whose turn it is."""
        raise NotImplementedError

    def _fault(self, process: int, stimulus: Stimulus, reason: str) -> ApplicationError:
        """The exception where the application whose turn it is fails."""
        return ApplicationError(process, stimulus, reason, Transcript(self.text()))

    def _make(self) -> bytes | bytearray:
        """The call of the application whose turn it is, or the state of a bundled one, whose call the library makes."""
        __tracebackhide__ = True
        assert self.awaiting is not None
        process, stimulus = self.awaiting
        application = self._application(process)
        return application.state if isinstance(application, Bundled) else self._ask(process, stimulus, application).packed()

    def _ask(self, process: int, stimulus: Stimulus, application: Application) -> Call:
        """Asks the application whose turn it is. Where it fails, the turn goes on awaiting its call."""
        __tracebackhide__ = True
        try:
            if not self._made:
                self._made.default_factory = _asking(application, stimulus)
            # Asks and keeps the call in one step, which no interrupt parts.
            call = self._made[0]
        except Exception as fault:
            raise self._fault(process, stimulus, words_of(fault)) from fault
        if not isinstance(call, Call):
            # First, so that it is asked anew even if the reason can't be found.
            del self._made[0]
            raise self._fault(process, stimulus, why_no_call(call))
        return call

    def resume(self) -> None:
        """Goes on where an application failed: asks it again."""
        if self.halted:
            raise refuse(HALTED, self.what)
        self._work(self._make() if self.awaiting is not None else _NO_CALL)

    def text(self) -> bytes:
        """All lines so far."""
        return b"".join(self.lines)


class Stepper(Worker):
    """Works a mote."""

    what = "mote"

    def __init__(self, applications: list[Named], options: Options) -> None:
        self.applications: list[Made] = [named.make() for named in applications]
        status, held = library().open(options.configuration(), len(applications))
        if status == BAD_SIZES:
            raise bad_sizes(options, len(applications))
        if status:
            raise refuse(status)
        self.held: Held = held
        super().__init__(held)

    def _application(self, process: int) -> Made:
        return self.applications[process - FIRST_PROCESS]

    def feed_line(self, line: bytes) -> int:
        """Executes a line of a script, and works on; returns the status."""
        __tracebackhide__ = True
        status = self.held.feed(line)
        if status == 0:
            self.work()
        return status


class NetworkStepper(Worker):
    """Works a network. Motes are numbered from 1 on."""

    what = "network"

    def __init__(self, held: HeldNetwork, applications: Sequence[list[Made]], transcript_of: Callable[[int], Transcript]) -> None:
        self.held, self.applications = held, applications
        self._transcript_of = transcript_of
        super().__init__(held)

    def execute(self, script: bytes, until_halt: bool = False) -> int | None:
        """Executes the lines of a script, each with its line end, to rest. Returns the offset of a malformed one, or None."""
        __tracebackhide__ = True
        self._script, self._first = script, 0
        while self._first < len(script) and not (until_halt and self.halted):
            if self._work(None) == _MALFORMED:
                return self._first
        return None

    def _pass(self, made: bytes | bytearray | None) -> None:
        self._is_script = made is None
        if made is None:
            self.held.execute(self._script, self._first)
        else:
            super()._pass(made)

    def _application(self, process: int) -> Made:
        return self.applications[self.mote - 1][process - FIRST_PROCESS]

    def _fault(self, process: int, stimulus: Stimulus, reason: str) -> ApplicationError:
        return ApplicationError(process, stimulus, reason, self._transcript_of(self.mote), self.mote)
