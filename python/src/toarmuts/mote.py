"""A mote in hand: it takes inputs one by one, and returns the entries that follow each."""
from __future__ import annotations

import threading
from collections.abc import Callable, Iterable
from typing import TYPE_CHECKING

from .applications import ApplicationLike, Made, read_applications
from .call import Call
from .errors import BadInput, MoteError, WrongType, no_attribute
from .library import CLOSED
from .options import Options, one_of
from .progress import MoteProgress
from .rules import FIRST_PROCESS
from .runs import Run
from .script import (MOST_FRAME, MOST_SERIAL, ScriptLike, check_data, check_ticks, encoded, has_form, line_bytes, script_bytes,
                     script_lines, ticks_up_to)
from .stepper import BAD_LINE, Stepper, clock_of, refuse
from .transcript import Transcript, check_process
from .until import advance_until
from .values import Status, Stimulus, index_of


class Mote:
    """A booted mote, which takes inputs one by one.

    Applications are those of :func:`toarmuts.run`. Each input returns the entries that follow, its own first.

    >>> mote = Mote(["blink", "echo"])
    >>> for entry in mote.tick(10):
    ...     print(entry)
    > tick 10
    4 event 136 0 -> print 6f6e0a
    4 answer done -> timer-reset 0
    4 answer done -> wait
    >>> mote.serial_text("hi").printed(), mote.clock
    (b'hi', 10)

    Where an application raises, the mote stays as it was: that turn awaits its call (:attr:`awaiting`). :meth:`submit` makes the call
    in place of the application, :meth:`resume` asks the application again. Where one raises at boot there is no mote. One thread at a
    time may use a mote.
    """

    def __init__(self, applications: Iterable[ApplicationLike] = (), *, mmem: int = 4096, heap: int = 4096, header: int = 16,
                 quota: int | None = None, options: Options | None = None) -> None:
        self.options = one_of(Options(mmem=mmem, heap=heap, header=header, quota=quota), options)
        if self.options.quiet:
            raise MoteError("a mote in hand is never quiet: options with quiet are for run(..)")
        self._named = read_applications(applications)
        self._lock = threading.Lock()
        self._stepper = Stepper(self._named, self.options)
        self._read: MoteProgress | None = MoteProgress()
        """What its entries say, as far as they were read; None where an interrupt came into a reading."""
        self._closed, self._last_clock = False, 0
        self.booted = self._do(self._stepper.work)
        """The entries of the boot."""

    if not TYPE_CHECKING:
        def __getattr__(self, name):
            """Names that were changed."""
            raise no_attribute("Mote", name)

    def __reduce__(self) -> str:
        raise MoteError("a mote in hand can't be copied or pickled; its run, `so_far()`, can")

    def _refuse_at_work(self) -> None:
        """After this the lock is taken by `with`: no interrupt comes between it and the work."""
        if self._lock.locked():
            raise MoteError("the mote is at work: its applications can't submit inputs or close it, and two threads can't share it")

    def _do(self, work: Callable[[], None]) -> Transcript:
        """Does this work, and returns the entries that it made."""
        __tracebackhide__ = True
        self._refuse_at_work()
        with self._lock:
            if self._closed:
                raise refuse(CLOSED)
            mark = self._mark()
            work()
            return self._since(mark)

    def _mark(self) -> tuple[int, int, int]:
        """Where the transcript is now: its pieces and its lines so far, and the clock."""
        return len(self._stepper.lines), self._stepper.line_count, self._stepper.held.clock()

    def _since(self, mark: tuple[int, int, int]) -> Transcript:
        """The entries that were made since then."""
        pieces, lines, clock = mark
        return Transcript(b"".join(self._stepper.lines[pieces:]), lines_before=lines, clock_before=clock)

    def _feed_input(self, kind: int, ticks: int, data: bytes) -> Transcript:
        __tracebackhide__ = True

        def work() -> None:
            __tracebackhide__ = True
            status = self._stepper.held.feed_input(kind, ticks, data)
            if status:
                raise refuse(status)
            self._stepper.work()

        return self._do(work)

    def tick(self, ticks: int = 1) -> Transcript:
        """Advances the clock by 0 to 4,294,967,295 ticks."""
        return self._feed_input(0, check_ticks(ticks), b"")

    def at(self, clock: int) -> Transcript:
        """Advances the clock up to this one; does nothing where it is there already."""
        ticks = ticks_up_to(clock, self.clock)
        return self.tick(ticks) if ticks else self._do(lambda: None)

    def serial(self, data: bytes) -> Transcript:
        """Receives 1 to 256 bytes on the serial line."""
        return self._feed_input(1, 0, check_data("serial", data, MOST_SERIAL))

    def serial_text(self, line: str | bytes) -> Transcript:
        """Receives this line and a line end on the serial line. Applications receive lines of at most 126 bytes; a longer one is lost
        (docs/devices.md)."""
        return self.serial(line_bytes(line))

    def frame(self, data: bytes) -> Transcript:
        """Receives a frame of 1 to 127 bytes."""
        return self._feed_input(2, 0, check_data("frame", data, MOST_FRAME))

    def feed(self, line: str) -> Transcript:
        """Executes a line of a script (docs/transcript.md); a comment or an empty line does nothing."""
        if not isinstance(line, str):
            raise WrongType(f"a line of a script must be a str, not {type(line).__name__}")
        if "\n" in line or not has_form(line):
            raise BadInput(f"{line[:100]!r} is not a line of a script")
        data = encoded(line, "a line of a script")
        return self._do(lambda: self._feed_line(data))

    def _feed_line(self, line: bytes, number: int | None = None) -> None:
        __tracebackhide__ = True
        status = self._stepper.held.feed(line)
        if status == BAD_LINE:
            place = "" if number is None else f" (line {number})"
            raise BadInput(f"{line[:100].decode('utf-8', 'replace')!r} is not a line of a script{place}")
        if status:
            raise refuse(status)
        self._stepper.work()

    def run(self, script: ScriptLike) -> Transcript:
        """Executes a script, each line to rest. A malformed line raises BadInput with its number; the lines before it were executed, and
        their entries are in :attr:`transcript`."""
        lines = script_lines(script_bytes(script))

        def work() -> None:
            __tracebackhide__ = True
            for number, line in enumerate(lines, 1):
                self._feed_line(line, number)

        return self._do(work)

    def submit(self, call: Call) -> Transcript:
        """Makes the call that a turn awaits, in place of its application."""
        if not isinstance(call, Call):
            raise WrongType(f"submit takes a Call, not {type(call).__name__}")
        return self._do(lambda: self._stepper.work(call))

    def resume(self) -> Transcript:
        """Goes on where an application failed: asks it again. Returns no entries where no work is left; raises MoteError where the mote
        was halted."""
        return self._do(self._stepper.resume)

    @property
    def awaiting(self) -> tuple[int, Stimulus] | None:
        """The process whose turn awaits a call, since its application failed, and what it received; or None."""
        return self._stepper.awaiting

    @property
    def transcript(self) -> Transcript:
        """All entries so far."""
        return Transcript(self._stepper.text())

    @property
    def entries(self) -> Transcript:
        """Another name of ``transcript``, that of earlier versions."""
        return self.transcript

    def printed(self, process: int | None = None) -> bytes:
        """What was printed so far, by one process or by all."""
        return self._progress().printed_by(check_process(process))

    def sent(self) -> list[bytes]:
        """The frames that were sent so far."""
        return list(self._progress().sent)

    def _progress(self) -> MoteProgress:
        """What all entries so far say."""
        read, pieces = self._read or MoteProgress(), self._stepper.lines
        if read.pieces < len(pieces):
            self._read = None
            read.read(b"".join(pieces[read.pieces:]), len(pieces))
            self._read = read
        return read

    @property
    def clock(self) -> int:
        """The ticks since boot; of a closed mote, those when it was closed."""
        return self._last_clock if self._closed else self._stepper.held.clock()

    @property
    def due(self) -> int | None:
        """The clock at which the next timer runs out; None where none is set.

        >>> Mote(["blink"]).due, Mote(["hello"]).due
        (10, None)
        """
        if self._closed:
            raise refuse(CLOSED)
        return clock_of(self._stepper.held.due())

    def until(self, predicate: Callable[["Mote"], object], *, most: int = 100_000) -> Transcript:
        """Advances the clock until ``predicate(mote)`` holds, from timer to timer, by at most ``most`` ticks in all. Raises NotReached
        where it doesn't hold then.

        >>> mote = Mote(["blink"])
        >>> mote.until(lambda mote: b"off" in mote.printed()).printed(), mote.clock
        (b'on\\noff\\n', 20)
        """
        if self._closed:
            raise refuse(CLOSED)
        mark = self._mark()
        advance_until(self, predicate, lambda: self.due, most)
        return self._since(mark)

    @property
    def halted(self) -> bool:
        """Whether the mote was halted: the turns and rounds of an input reached 10,000."""
        return self._stepper.halted

    def application(self, process: int) -> Made:
        """The application of a process, from 4 on, as it is now."""
        number = index_of(process)
        if number is None:
            raise WrongType(f"process must be an int, not {type(process).__name__}")
        if not FIRST_PROCESS <= number < FIRST_PROCESS + len(self._named):
            last = FIRST_PROCESS + len(self._named) - 1
            raise WrongType(f"there is no process {number}; there are {FIRST_PROCESS} to {last}" if self._named
                            else "the mote has no applications")
        return self._stepper.applications[number - FIRST_PROCESS]

    def so_far(self) -> "Run":
        """The run so far, with its inputs as a script. While a turn awaits its call, the transcript ends before that turn, and a run of
        these inputs would go on."""
        transcript = self.transcript
        script = b"".join(line[2:] for line in transcript.data.splitlines(keepends=True) if line.startswith(b"> "))
        status = Status.HALTED if self.halted else Status.FINISHED
        return Run(tuple(self._named), script, self.options, status, None, transcript)

    @property
    def closed(self) -> bool:
        """Whether it was closed."""
        return self._closed

    def close(self) -> None:
        """Frees the mote's memory. Its entries and its clock stay; a second time does nothing."""
        if self._closed:
            return
        self._refuse_at_work()
        with self._lock:
            self._last_clock = self._stepper.held.clock()
            self._closed = True
            self._stepper.held.close()

    def __enter__(self) -> "Mote":
        return self

    def __exit__(self, *_: object) -> None:
        self.close()

    def __repr__(self) -> str:
        names = ", ".join(named.shown for named in self._named)
        return f"<Mote of {names or 'no applications'}{', closed' if self._closed else f', clock {self.clock}'}>"
