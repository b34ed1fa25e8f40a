"""A network in hand: motes with radio links between them, which takes inputs one by one."""
from __future__ import annotations

import threading
from collections.abc import Callable, Iterable, Mapping, Sequence
from dataclasses import replace
from typing import Any

from .applications import ApplicationLike, Made
from .call import Call
from .errors import BadInput, MoteError, WrongType
from .library import CLOSED
from .links import (MOST_NUMBER, MOST_ROUNDS, Delay, Link, Pair, both_ways, check_number, check_positions, check_range, disk_links,
                    graph_links, grid_of, line_of, list_of, loss_of, mesh_of, ring_of)
from .network_runs import NetworkRun, check_mote, run_of_mote
from .network_setup import (FRAME, ROOM, ROUNDS, SERIAL, InputLine, MoteLike, NetworkScriptLike, NetworkSetup, network_script, read_mote,
                            text_of)
from .network_transcript import Frame, NetworkEntry, NetworkKind, NetworkTranscript, Place
from .options import Options, one_of
from .pcap import TICKS_OF_A_SECOND, PathLike, write_packets
from .progress import Moments, MoteProgress, Progress
from .rules import FIRST_PROCESS
from .runs import Run
from .script import MOST_FRAME, MOST_SERIAL, check_data, check_ticks, line_bytes, ticks_up_to
from .stepper import NetworkStepper, clock_of, refuse
from .transcript import Transcript, check_process
from .until import advance_until
from .values import Status, Stimulus, index_of


class Network:
    """Motes with radio links between them. It is set up, and starts with its first input; then it takes inputs one by one.

    A mote is a list of applications, as a :class:`toarmuts.Mote` takes, or a single one. Motes have the numbers 1, 2, .. in their order.
    Sizes are those of a mote. ``room`` is the number of frames that can be in flight, ``rounds`` that of the rounds that one input can
    take.

    >>> network = Network(["relay", "relay", "blink"]).link(1, 2, delay=3).link(2, 3, every=2)
    >>> for entry in network.frame(1, b"hi")[-3:]:
    ...     print(entry)
    1 4 answer done -> mmem-free 0
    1 4 answer done -> packet-done
    1 4 answer done -> wait
    >>> network.tick(10).printed(), network.sent(), network.mote(2).clock
    (b'on\\n', [b'hi', b'hi'], 3)

    Each input returns the lines that follow. Where an application raises, the network stays as it was: that turn awaits its call, as a
    mote's (:meth:`submit`, :meth:`resume`). One thread at a time may use a network.
    """

    def __init__(self, motes: Iterable[MoteLike] = (), *, mmem: int = 4096, heap: int = 4096, header: int = 16, quota: int | None = None,
                 options: Options | None = None, room: int = ROOM, rounds: int = ROUNDS) -> None:
        listed = list_of("motes", motes)
        sizes = one_of(Options(mmem=mmem, heap=heap, header=header, quota=quota), options)
        limits = check_number("room", room, 0, MOST_NUMBER), check_number("rounds", rounds, 0, MOST_ROUNDS)
        self._begin(NetworkSetup(tuple(read_mote(mote, sizes, number) for number, mote in enumerate(listed, 1)), (), *limits))

    def _begin(self, setup: NetworkSetup) -> None:
        self._motes, self._links = list(setup.motes), list(setup.links)
        self._setup = setup
        self._lock = threading.Lock()
        self._stepper: NetworkStepper | None = None
        self._read: Progress | None = Progress()
        """What its lines say, as far as they were read; None where an interrupt came into a reading."""
        self._moments: Moments | None = None
        self._booted = NetworkTranscript("")
        self._closed, self._last_clock = False, 0

    @staticmethod
    def of(setup: NetworkSetup) -> "Network":
        """A network with these motes and links, which isn't started."""
        made = Network.__new__(Network)
        made._begin(setup)
        return made

    def __reduce__(self) -> str:
        raise MoteError("a network in hand can't be copied or pickled; its run, `so_far()`, can")

    # Setting it up.

    @property
    def setup(self) -> NetworkSetup:
        """Its motes and links."""
        known = self._setup
        if (len(known.motes), len(known.links)) != (len(self._motes), len(self._links)):
            self._setup = known = replace(known, motes=tuple(self._motes), links=tuple(self._links))
        return known

    def _limit(self, *, room: int | None = None, rounds: int | None = None) -> "Network":
        """Sets the number of frames that can be in flight, or of rounds that one input can take."""
        self._refuse_started()
        known = self.setup
        self._setup = replace(known, room=check_number("room", known.room if room is None else room, 0, MOST_NUMBER),
                              rounds=check_number("rounds", known.rounds if rounds is None else rounds, 0, MOST_ROUNDS))
        return self

    def _check(self, mote: object) -> int:
        return check_mote(len(self._motes), mote)

    def _refuse_started(self) -> None:
        if self._stepper is not None or self._closed:
            raise MoteError("the network was started: motes and links are added before its first input")

    def add(self, *applications: ApplicationLike, count: int = 1, mmem: int = 4096, heap: int = 4096, header: int = 16,
            quota: int | None = None, options: Options | None = None) -> "Network":
        """Adds ``count`` motes with these applications and sizes."""
        sizes = one_of(Options(mmem=mmem, heap=heap, header=header, quota=quota), options)
        self._refuse_started()
        mote = read_mote(list(applications), sizes, len(self._motes) + 1)
        self._motes += [mote] * check_number("count", count, 0, MOST_NUMBER)
        return self

    def _with(self, links: Iterable[Link]) -> "Network":
        self._refuse_started()
        made = list(links)
        for link in made:
            for mote in (link.sender, link.receiver):
                self._check(mote)
        self._links += made
        return self

    def link(self, sender: int, receiver: int, *, delay: int = 1, every: int | None = None, lot: int | None = None,
             seed: int | None = None) -> "Network":
        """What mote ``sender`` sends, mote ``receiver`` hears ``delay`` ticks later. Each ``every``-th frame is lost, or about ``lot`` of
        65,536 frames, by a generator that begins with ``seed`` (0 to 2^64 - 1; default: 0)."""
        return self._with([Link(sender, receiver, delay, loss_of(every, lot, seed))])

    def links(self, links: Iterable[Link]) -> "Network":
        """Adds these links."""
        made = list_of("links", links)
        wrong = next((link for link in made if not isinstance(link, Link)), None)
        if wrong is not None:
            raise WrongType(f"links must be a list of Link, not of {type(wrong).__name__}")
        return self._with(made)

    def _chosen(self, motes: Iterable[int] | None) -> list[int]:
        """The numbers of these motes, or of all."""
        return list(range(1, len(self._motes) + 1)) if motes is None else [self._check(mote) for mote in list_of("motes", motes)]

    def _shape(self, pairs: Sequence[Pair], delay: int, every: int | None, lot: int | None, seed: int | None) -> "Network":
        return self._with(both_ways(pairs, delay, loss_of(every, lot, seed)))

    def line(self, motes: Iterable[int] | None = None, *, delay: int = 1, every: int | None = None, lot: int | None = None,
             seed: int | None = None) -> "Network":
        """Links both ways between each of these motes, or of all, and the next. Of a lot each further link has the next seed."""
        return self._shape(line_of(self._chosen(motes)), delay, every, lot, seed)

    def ring(self, motes: Iterable[int] | None = None, *, delay: int = 1, every: int | None = None, lot: int | None = None,
             seed: int | None = None) -> "Network":
        """The same, and between the last and the first; at least three motes."""
        return self._shape(ring_of(self._chosen(motes)), delay, every, lot, seed)

    def mesh(self, motes: Iterable[int] | None = None, *, delay: int = 1, every: int | None = None, lot: int | None = None,
             seed: int | None = None) -> "Network":
        """Links both ways between each two motes."""
        return self._shape(mesh_of(self._chosen(motes)), delay, every, lot, seed)

    def grid(self, width: int, motes: Iterable[int] | None = None, *, delay: int = 1, every: int | None = None, lot: int | None = None,
             seed: int | None = None) -> "Network":
        """Rows of ``width`` motes, with links both ways between neighbours in a row or a column."""
        return self._shape(grid_of(self._chosen(motes), check_number("width", width, 1, MOST_NUMBER)), delay, every, lot, seed)

    def disk(self, positions: Any, *, range: float, delay: Delay = 1, every: int | None = None, lot: int | None = None,
             seed: int | None = None) -> "Network":
        """Links both ways between motes that are at most ``range`` from each other. ``positions`` has the coordinates of each mote: a list
        or an array in the order of the motes, or a dict, whose keys are as the nodes of :meth:`graph`. ``delay`` is a number of ticks, or a
        function that makes it of the distance."""
        places = check_positions(positions, self._chosen(None))
        return self._with(disk_links(places, check_range(range), delay, loss_of(every, lot, seed)))

    def graph(self, graph: Any, *, delay: int = 1, every: int | None = None, lot: int | None = None,
              seed: int | None = None) -> "Network":
        """A link for each edge of a graph of networkx, both ways where it is undirected. An edge may have ``delay``, ``every``, ``lot`` and
        ``seed`` of its own; the way back has the next seed. Nodes are the numbers of motes. Where they are 0, 1, .., as those of
        ``path_graph``, node k is mote k + 1. Nodes that are no numbers are the motes 1, 2, .. in their order."""
        return self._with(graph_links(graph, self._chosen(None), delay, loss_of(every, lot, seed)))

    # Working it.

    def _started(self) -> NetworkStepper:
        """The stepper of a network that was started."""
        if self._closed:
            raise refuse(CLOSED, "network")
        if self._stepper is None:
            raise MoteError("the network wasn't started: `start` does that, or its first input")
        return self._stepper

    def start(self) -> NetworkTranscript:
        """Starts the motes, in the order of their numbers, and returns the lines of that; a second time does nothing."""
        self._refuse_at_work()
        with self._lock:
            self._start()
        return self._booted

    def _start(self) -> None:
        __tracebackhide__ = True
        if self._closed:
            raise refuse(CLOSED, "network")
        if self._stepper is not None:
            return
        applications = [mote.make() for mote in self.setup.motes]
        self._stepper = NetworkStepper(self.setup.open(), applications, self._transcript_of)
        try:
            self._stepper.work()
        finally:
            self._booted = self._since((0, 0, 0), {})

    def _refuse_at_work(self) -> None:
        if self._lock.locked():
            raise MoteError("the network is at work: its applications can't submit inputs or close it, and two threads can't share it")

    def _progress(self) -> Progress:
        """What all lines so far say."""
        read, pieces = self._read or Progress(), self._stepper.lines if self._stepper is not None else []
        if read.pieces < len(pieces):
            self._read = None
            read.read(b"".join(pieces[read.pieces:]), len(pieces))
            self._read = read
        return read

    def _mark(self) -> tuple[int, int, int]:
        """Where the transcript is now: its pieces and its lines so far, and the clock."""
        read = self._progress()
        return read.pieces, read.lines, read.clock

    def _since(self, mark: tuple[int, int, int], places: Mapping[int, Place]) -> NetworkTranscript:
        """The lines that were made since then; the motes that have some were at these places."""
        pieces, lines, clock = mark
        made = self._stepper.lines[pieces:] if self._stepper is not None else []
        return NetworkTranscript(b"".join(made), lines_before=lines, clock_before=clock, before=places)

    def _transcript_of(self, mote: int) -> Transcript:
        return Transcript(b"".join(self._progress().mote(mote).lines))

    def _do(self, work: Callable[[NetworkStepper], object]) -> NetworkTranscript:
        """Does this work, and returns the lines that it made."""
        __tracebackhide__ = True
        self._refuse_at_work()
        with self._lock:
            self._start()
            read, mark = self._progress(), self._mark()
            places: dict[int, Place] = {}
            read.before = places
            work(self._started())
            if self._progress() is not read:
                # An application read the transcript, and an interrupt came into that.
                places = Progress.of(self._started().lines[:mark[0]]).places()
            return self._since(mark, places)

    def execute(self, script: bytes, *, until_halt: bool = False) -> int | None:
        """Executes the lines of a script, which ends with a line end, each to rest. Returns the number of a malformed one, before which it
        stops, or None. An exhausted network refuses inputs, unless the script is to be executed until the halt."""
        __tracebackhide__ = True
        self._refuse_at_work()
        with self._lock:
            self._start()
            malformed = self._started().execute(script, until_halt)
        return None if malformed is None else script.count(b"\n", 0, malformed) + 1

    def _submit(self, line: InputLine) -> NetworkTranscript:
        """Takes an input as it was read."""
        __tracebackhide__ = True
        return self._do(lambda stepper: stepper.execute(line.text.encode() + b"\n"))

    def tick(self, ticks: int = 1) -> NetworkTranscript:
        """Advances the clock by 0 to 4,294,967,295 ticks."""
        return self._submit(InputLine(0, 0, check_ticks(ticks), b""))

    def at(self, clock: int) -> NetworkTranscript:
        """Advances the clock up to this one; does nothing where it is there already."""
        ticks = ticks_up_to(clock, self.clock)
        return self.tick(ticks) if ticks else self._do(lambda _: None)

    def serial(self, mote: int, data: bytes) -> NetworkTranscript:
        """A mote receives 1 to 256 bytes on its serial line."""
        return self._submit(InputLine(self._check(mote), SERIAL, 0, check_data("serial", data, MOST_SERIAL)))

    def serial_text(self, mote: int, line: str | bytes) -> NetworkTranscript:
        """A mote receives this line and a line end on its serial line."""
        return self.serial(mote, line_bytes(line))

    def frame(self, mote: int, data: bytes) -> NetworkTranscript:
        """A mote receives a frame of 1 to 127 bytes from outside."""
        return self._submit(InputLine(self._check(mote), FRAME, 0, check_data("frame", data, MOST_FRAME)))

    def feed(self, line: str) -> NetworkTranscript:
        """Executes a line of a script: ``tick N``, ``N serial HEX``, ``N frame HEX``; a comment or an empty line does nothing."""
        if not isinstance(line, str):
            raise WrongType(f"a line of a script must be a str, not {type(line).__name__}")
        data = network_script([line]).data

        def work(stepper: NetworkStepper) -> None:
            if stepper.execute(data) is not None:
                raise self._malformed(line)

        return self._do(work)

    def _malformed(self, line: str, place: str = "") -> BadInput:
        return BadInput(f"{line[:100]!r} is not an input of a network of {len(self)} motes{place}")

    def run(self, script: NetworkScriptLike) -> NetworkTranscript:
        """Executes a script, each line to rest. A malformed line raises BadInput with its number; the lines before it were executed."""
        lines = network_script(script)
        self.start()
        mark, places = self._mark(), self._progress().places()
        malformed = self.execute(lines.data)
        if malformed is not None:
            raise self._malformed(lines.shown[malformed - 1], f" (line {malformed})")
        return self._since(mark, places)

    def until(self, predicate: Callable[["Network"], object], *, most: int = 100_000) -> NetworkTranscript:
        """Advances the clock until ``predicate(network)`` holds, from one timer or arrival to the next, by at most ``most`` ticks in all.
        Raises NotReached where it doesn't hold then.

        >>> network = Network(["relay", "relay"]).link(1, 2, delay=7)
        >>> _ = network.frame(1, b"hi")
        >>> _ = network.until(lambda network: network.sent(2))
        >>> network.clock
        7
        """
        self.start()
        mark, places = self._mark(), self._progress().places()
        advance_until(self, predicate, self._next_moment, most)
        return self._since(mark, places)

    def _next_moment(self) -> int | None:
        """The next clock at which a timer runs out, or a frame may arrive."""
        held = self._started().held
        if self._moments is None:
            self._moments = Moments(self.setup.links)
        return self._moments.next(self._progress(), lambda mote: clock_of(held.due(mote)))

    def submit(self, call: Call) -> NetworkTranscript:
        """Makes the call that a turn awaits, in place of its application."""
        if not isinstance(call, Call):
            raise WrongType(f"submit takes a Call, not {type(call).__name__}")
        return self._do(lambda stepper: stepper.work(call))

    def resume(self) -> NetworkTranscript:
        """Goes on where an application failed: asks it again."""
        return self._do(lambda stepper: stepper.resume())

    # What it has done.

    @property
    def awaiting(self) -> tuple[int, int, Stimulus] | None:
        """The mote and the process whose turn awaits a call, since its application failed, and what it received; or None."""
        stepper = self._stepper
        return None if stepper is None or stepper.awaiting is None else (stepper.mote, *stepper.awaiting)

    @property
    def booted(self) -> NetworkTranscript:
        """The lines of the start; none before."""
        return self._booted

    @property
    def transcript(self) -> NetworkTranscript:
        """All lines so far."""
        return NetworkTranscript(self._stepper.text() if self._stepper is not None else "")

    @property
    def clock(self) -> int:
        """The ticks since boot; of a closed network, those when it was closed."""
        return self._last_clock if self._closed or self._stepper is None else self._stepper.held.clock()

    @property
    def exhausted(self) -> bool:
        """Whether an input used up its rounds: nothing follows."""
        return self._stepper is not None and self._stepper.halted

    @property
    def halted(self) -> bool:
        """Deprecated: the old name of ``exhausted``."""
        return self.exhausted

    def printed(self, mote: int | None = None) -> bytes:
        """What was printed so far, by one mote or by all."""
        return bytes(self._progress().printed) if mote is None else self.mote(mote).printed()

    def sent(self, mote: int | None = None) -> list[bytes]:
        """The frames that were sent so far, by one mote or by all."""
        return list(self._progress().sent) if mote is None else self.mote(mote).sent()

    def frames(self, mote: int | None = None) -> list[Frame]:
        """The same with the network's clock, and who sent them."""
        frames, number = self._progress().frames, None if mote is None else self._check(mote)
        return list(frames) if number is None else [frame for frame in frames if frame.mote == number]

    def lost(self) -> list[NetworkEntry]:
        """The frames that links lost so far."""
        return self._progress().passed(NetworkKind.LOST)

    def full(self) -> list[NetworkEntry]:
        """The frames so far that found no room in flight: the network's ``room`` is too small for them."""
        return self._progress().passed(NetworkKind.FULL)

    def mote(self, number: int) -> "NetworkMote":
        """A mote of the network."""
        return NetworkMote(self, self._check(number))

    def __len__(self) -> int:
        return len(self._motes)

    def so_far(self) -> NetworkRun:
        """The run so far. While a turn awaits its call, the transcript ends before that turn, and a run of these inputs would go on."""
        executed = b"".join(self._stepper.executed) if self._stepper is not None else b""
        inputs = tuple(text_of(line) for line in executed.split(b"\n") if line and not line.startswith(b"#"))
        return NetworkRun(self.setup, inputs, Status.EXHAUSTED if self.exhausted else Status.FINISHED, None, self.transcript)

    def pcap(self, path: PathLike, *, ticks_of_a_second: int = TICKS_OF_A_SECOND) -> None:
        """Writes the frames that motes sent so far, with their times, as a file for tshark (IEEE 802.15.4 without FCS)."""
        write_packets(path, self.frames(), ticks_of_a_second)

    def svg(self, *, first: int | None = None, last: int | None = None) -> str:
        """The chart of the run so far, as that of a :class:`NetworkRun`."""
        return self.so_far().svg(first=first, last=last)

    def page(self, title: str = "") -> str:
        """A page in HTML of the run so far."""
        return self.so_far().page(title)

    def _repr_mimebundle_(self, include: object = None, exclude: object = None) -> dict[str, str]:
        """In a notebook: the chart of the run so far, or its first lines in words; before the start nothing but :func:`repr`."""
        run, shown_as = self.so_far(), {"text/plain": repr(self)}
        svg = run._repr_svg_() if len(run.transcript) else None
        table = run._repr_html_() if len(run.transcript) and svg is None else None
        return shown_as | ({"image/svg+xml": svg} if svg is not None else {}) | ({"text/html": table} if table is not None else {})

    @property
    def closed(self) -> bool:
        """Whether it was closed."""
        return self._closed

    def close(self) -> None:
        """Frees the memory. Its lines and its clock stay; a second time does nothing."""
        if self._closed:
            return
        self._refuse_at_work()
        with self._lock:
            self._last_clock = self.clock
            self._closed = True
            if self._stepper is not None:
                self._stepper.held.close()

    def __enter__(self) -> "Network":
        return self

    def __exit__(self, *_: object) -> None:
        self.close()

    def __repr__(self) -> str:
        what = "closed" if self._closed else "not started" if self._stepper is None else f"clock {self.clock}"
        return f"<Network of {len(self._motes)} motes, {len(self._links)} links, {what}>"


class NetworkMote:
    """A mote of a network in hand."""

    def __init__(self, network: Network, number: int) -> None:
        self.network, self.number = network, number

    @property
    def transcript(self) -> Transcript:
        """Its entries so far."""
        return self.network._transcript_of(self.number)

    @property
    def clock(self) -> int:
        """The ticks that it received. It receives the time only when it needs it, so this may be behind the network's."""
        return self._progress().clock

    @property
    def due(self) -> int | None:
        """The clock at which its next timer runs out; None where none is set."""
        return clock_of(self.network._started().held.due(self.number))

    @property
    def halted(self) -> bool:
        """Whether it was halted; the others go on."""
        return self._progress().has_halted

    def printed(self, process: int | None = None) -> bytes:
        """What it printed so far, by one process or by all."""
        return self._progress().printed_by(check_process(process))

    def sent(self) -> list[bytes]:
        """The frames that it sent so far."""
        return list(self._progress().sent)

    def _progress(self) -> MoteProgress:
        return self.network._progress().mote(self.number)

    def serial(self, data: bytes) -> NetworkTranscript:
        """Receives 1 to 256 bytes on the serial line."""
        return self.network.serial(self.number, data)

    def serial_text(self, line: str | bytes) -> NetworkTranscript:
        """Receives this line and a line end on the serial line."""
        return self.network.serial_text(self.number, line)

    def frame(self, data: bytes) -> NetworkTranscript:
        """Receives a frame of 1 to 127 bytes from outside."""
        return self.network.frame(self.number, data)

    def application(self, process: int) -> Made:
        """The application of a process, from 4 on, as it is now."""
        number = index_of(process)
        made = self.network._started().applications[self.number - 1]
        if number is None or not FIRST_PROCESS <= number < FIRST_PROCESS + len(made):
            raise WrongType(f"mote {self.number} has no process {process!r}; it has {len(made)} applications, from {FIRST_PROCESS} on")
        return made[number - FIRST_PROCESS]

    def so_far(self) -> Run:
        """Its part of the run so far, as a run of its own."""
        return run_of_mote(self.network.setup.motes[self.number - 1], self.transcript)

    def __repr__(self) -> str:
        return f"<NetworkMote {self.number}: {self.network.setup.motes[self.number - 1].shown}>"
