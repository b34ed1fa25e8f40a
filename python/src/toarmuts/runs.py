"""Whole runs: applications over a script, and the result."""
from __future__ import annotations

from collections.abc import Iterable
from dataclasses import dataclass

from .applications import ApplicationLike, Named, no_application, read_applications
from .calls import PacketSend, Print
from .errors import OutOfMemory, ToarmutsError, TooManyApplications, WrongType
from .library import BAD_SIZES, KIB_OF_A_RUN, NO_APPLICATION, STACK_TOO_SMALL, TOO_MANY_APPLICATIONS, Outcome, library
from .options import Options, one_of
from .result import Result
from .rules import RULES
from .script import ScriptLike, script_bytes, script_lines
from .stepper import BAD_LINE, HALTED, Stepper, refuse, stack_too_small
from .transcript import Ending, Entry, Note, NoteKind, Transcript, Turn
from .values import Status

MOST_SCRIPT = RULES.limits["bytes_of_a_script"]


@dataclass(frozen=True, eq=False)
class Run(Result):
    """A run: its applications, script and options, and its result. Two runs are never equal; their transcripts may be. Each run can be
    pickled: of applications in Python only the names are kept.

    >>> run = run_applications(["blink"], "tick 10\\n")
    >>> run.status, run.end
    (<Status.FINISHED: 0>, <End.FINISHED: 'finished'>)
    >>> run.transcript[1].call, run.transcript[1].reply
    (Wait(), None)
    """

    named: tuple[Named, ...]
    """The applications, as they were read."""
    script: bytes
    options: Options
    status: Status
    """How it ended."""
    line: int | None
    """The number of the script's malformed line, or None."""
    transcript: Transcript
    """Its entries, made on demand; ``transcript.data`` is its text as bytes."""

    @property
    def applications(self) -> tuple[str, ...]:
        """The applications: names, lists of calls, names of classes or functions. One in Python that has a name of the mote's own is shown
        apart: ``echo (in Python)``. :meth:`again` runs all of them once more."""
        return tuple(named.line if named.line is not None else _name_in_python(named) for named in self.named)

    def again(self, script: ScriptLike | None = None, *, options: Options | None = None) -> "Run":
        """Runs the same applications, made anew, over this script or the same one. An object that was passed as an application goes on as
        it is. Raises NoApplication of a run that was pickled, where an application is in Python.

        >>> run_applications(["blink"], "tick 5\\n").again("tick 10\\n").printed()
        b'on\\n'
        """
        data = self.script if script is None else script_bytes(script)
        return _run(list(self.named), data, self.options if options is None else one_of(Options(), options))

    def _bad_line(self, line: int) -> str:
        return script_lines(self.script)[line - 1][:100].decode("utf-8", "replace")

    @property
    def entries(self) -> Transcript:
        """Another name of ``transcript``, that of earlier versions."""
        return self.transcript

    def printed(self, process: int | None = None) -> bytes:
        """What was printed, by one process or by all."""
        return self.transcript.printed(process)

    def sent(self) -> list[bytes]:
        """The frames that were sent."""
        return self.transcript.sent()

    def scenario(self, *, name: str | None = None, comment: str = "", transcript: bool = True) -> str:
        """The text of a scenario file with this run (docs/scenarios.md). Applications in Python become the calls that they made."""
        from .scenario import write

        return write(self, name=name, comment=comment, transcript=transcript)

    def svg(self, *, first: int | None = None, last: int | None = None, unfolded: bool = False) -> str:
        """The picture of the run, by the program ``mote_picture``: from clock ``first`` to clock ``last``."""
        from .picture import draw

        return draw(self, first=first, last=last, unfolded=unfolded)

    def page(self, title: str = "") -> str:
        """A page in HTML: the picture, where it can be drawn, what was run, and each entry in words."""
        from .picture import page

        return page(self, title)

    def __repr__(self) -> str:
        lines = self.transcript.data.count(b"\n")
        return f"<Run of {', '.join(named.shown for named in self.named) or 'no applications'}: {self.ended}, {lines} lines>"


def run(applications: Iterable[ApplicationLike] = (), script: ScriptLike = "", *, mmem: int = 4096, heap: int = 4096, header: int = 16,
        quota: int | None = None, quiet: bool = False, options: Options | None = None, check: bool = False) -> Run:
    """Runs applications over a script.

    An application is a name (``"blink"``), a list of calls (``[TimerSet(0, 5), Wait(), Print(b"hi")]``, or as text
    ``"calls timer-set 0 5, wait, print 6869"``), a class whose objects have ``turn(stimulus)``, such an object, or a generator function.
    They are the processes 4, 5, .. in this order. The script is text, bytes or a :class:`Script`.

    Sizes are those of the program ``mote``, in bytes; ``options`` has them all in one. A malformed line, a halt or too long a script
    ends a run; only with ``check=True`` this raises RunEnded. What can't be run raises another :class:`ToarmutsError`.

    >>> run(["hello"]).text
    '4 synch 129 - -> print 68690a\\n4 answer done -> wait\\n'
    >>> run(["hello"], mmem=5)
    Traceback (most recent call last):
    toarmuts.errors.BadSizes: mmem is 5; a multiple of 4 from 4 to 65,536 is allowed
    """
    if not isinstance(check, bool):
        raise WrongType(f"check must be True or False, not {type(check).__name__}")
    given = one_of(Options(mmem, heap, header, quota, quiet), options)
    named = read_applications(applications)
    made = _run(named, script_bytes(script), given)
    return made.check() if check else made


run_applications = run


def _run(named: list[Named], script: bytes, options: Options) -> Run:
    __tracebackhide__ = True
    if all(application.line is not None for application in named):
        return _run_by_library(named, script, options)
    return _run_step_by_step(named, script, options)


def _name_in_python(named: Named) -> str:
    """The name of an application in Python, unlike the mote's own names and a list of calls."""
    is_taken = named.shown in RULES.applications or named.shown == "calls"
    return f"{named.shown} (in Python)" if is_taken else named.shown


def _run_by_library(named: list[Named], script: bytes, options: Options) -> Run:
    lines = "".join(f"{application.line}\n" for application in named)
    outcome = library().run(options.configuration(), lines.encode(), script)
    if outcome.status > Status.TOO_LONG:
        raise _refusal(outcome, named, options)
    transcript = Transcript(outcome.transcript, quiet=options.quiet)
    return Run(tuple(named), script, options, Status(outcome.status), outcome.line or None, transcript)


def _refusal(outcome: Outcome, named: list[Named], options: Options) -> ToarmutsError:
    """The exception for a status of the library that isn't an outcome; the library reports the size, application and call."""
    if outcome.status == BAD_SIZES:
        return options.bad(outcome.why.reason, len(named))
    if outcome.status == NO_APPLICATION:
        return no_application(named[outcome.application], outcome.why)
    if outcome.status == TOO_MANY_APPLICATIONS:
        return TooManyApplications("a mote has at most 16 applications")
    if outcome.status == STACK_TOO_SMALL:
        return stack_too_small("a run", KIB_OF_A_RUN)
    return OutOfMemory("memory was refused")


def _run_step_by_step(named: list[Named], script: bytes, options: Options) -> Run:
    __tracebackhide__ = True
    stepper = Stepper(named, options)
    try:
        status, line = _execute(stepper, script)
    finally:
        stepper.held.close()
    text = stepper.text()
    if options.quiet:
        text = _quiet(text)
    if status is Status.BAD_LINE:
        text += b"bad line %d\n" % line
    elif status is Status.TOO_LONG:
        text += b"too long\n"
    return Run(tuple(named), script, options, status, line or None, Transcript(text, quiet=options.quiet))


def _execute(stepper: Stepper, script: bytes) -> tuple[Status, int]:
    """Executes the lines of a script, each to rest; returns how the run ends, and the number of a malformed line."""
    __tracebackhide__ = True
    stepper.work()
    lines = script_lines(script[:MOST_SCRIPT])
    if len(script) > MOST_SCRIPT and lines and not script[:MOST_SCRIPT].endswith(b"\n"):
        lines.pop()
    for number, line in enumerate(lines, 1):
        if stepper.halted:
            return Status.HALTED, 0
        status = stepper.feed_line(line)
        if status == BAD_LINE:
            return Status.BAD_LINE, number
        if status == HALTED:
            return Status.HALTED, 0
        if status:
            raise refuse(status)
    if stepper.halted:
        return Status.HALTED, 0
    return (Status.TOO_LONG if len(script) > MOST_SCRIPT else Status.FINISHED), 0


def _quiet(text: bytes) -> bytes:
    """The lines of a quiet transcript: turns that print or send, frames that were sent, and the halt."""
    return b"".join(f"{entry}\n".encode() for entry in Transcript(text) if _is_shown(entry))


def _is_shown(entry: Entry) -> bool:
    if isinstance(entry, Turn):
        return isinstance(entry.call, (Print, PacketSend))
    return isinstance(entry, Ending) or (isinstance(entry, Note) and entry.kind is NoteKind.SENT)
