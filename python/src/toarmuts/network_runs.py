"""Whole runs of a network, and their results."""
from __future__ import annotations

from dataclasses import dataclass
from typing import TYPE_CHECKING

from .applications import Named
from .errors import BadScenario, WrongType
from .links import MOST_NUMBER
from .network_setup import MoteSetup, NetworkScriptLike, NetworkSetup, network_script, setup_lines, size_words
from .network_transcript import Frame, NetworkEntry, NetworkTranscript
from .pcap import TICKS_OF_A_SECOND, PathLike, write_packets
from .result import Result
from .rules import FIRST_PROCESS, RULES
from .runs import Run
from .scenario import made_calls
from .script import MOST_SCRIPT_LINE
from .transcript import Transcript
from .values import Status, index_of

if TYPE_CHECKING:
    from .network import Network

MOST_SCRIPT = RULES.limits["bytes_of_a_script"]
_HALT = b"halt\n"


def check_mote(motes: int, number: object) -> int:
    """The number of a mote of a network of this number of motes."""
    mote = index_of(number)
    if mote is None:
        raise WrongType(f"a mote's number must be an int, not {type(number).__name__}")
    if not 1 <= mote <= motes:
        raise WrongType(f"there is no mote {mote}; there are 1 to {motes}" if motes else "the network has no motes")
    return mote


def run_of_mote(mote: MoteSetup, transcript: Transcript) -> Run:
    """A mote's part of a run, as a run whose script has the inputs that it received."""
    script = b"".join(line[2:] for line in transcript.data.splitlines(keepends=True) if line.startswith(b"> "))
    status = Status.HALTED if transcript.data.endswith(_HALT) else Status.FINISHED
    return Run(mote.named, script, mote.options, status, None, transcript)


@dataclass(frozen=True, eq=False)
class NetworkRun(Result):
    """A run of a network: its motes and links, its inputs, and its result. It can be pickled, as a :class:`toarmuts.Run`."""

    setup: NetworkSetup
    inputs: tuple[str, ...]
    """The lines of its script."""
    status: Status
    line: int | None
    """The number of the script's malformed line, or None."""
    transcript: NetworkTranscript

    def _bad_line(self, line: int) -> str:
        return self.inputs[line - 1][:100]

    def mote(self, number: int) -> Run:
        """A mote's part, as a run whose script has the inputs that the mote received."""
        mote = self._check(number)
        return run_of_mote(self.setup.motes[mote - 1], self.transcript.mote(mote))

    def _check(self, mote: object) -> int:
        return check_mote(len(self.setup.motes), mote)

    def printed(self, mote: int | None = None) -> bytes:
        """What was printed, by one mote or by all."""
        return self.transcript.printed(mote if mote is None else self._check(mote))

    def sent(self, mote: int | None = None) -> list[bytes]:
        """The frames that were sent, by one mote or by all."""
        return [frame.data for frame in self.frames(mote)]

    def frames(self, mote: int | None = None) -> list[Frame]:
        """The same with the network's clock, and who sent them."""
        return self.transcript.frames(mote if mote is None else self._check(mote))

    def lost(self) -> list[NetworkEntry]:
        """The frames that links lost."""
        return self.transcript.lost()

    def full(self) -> list[NetworkEntry]:
        """The frames that found no room in flight: the network's ``room`` is too small for them."""
        return self.transcript.full()

    def pcap(self, path: PathLike, *, ticks_of_a_second: int = TICKS_OF_A_SECOND) -> None:
        """Writes the frames that motes sent, with their times, as a file for tshark (IEEE 802.15.4 without FCS)."""
        write_packets(path, self.frames(), ticks_of_a_second)

    def svg(self, *, first: int | None = None, last: int | None = None) -> str:
        """The chart of the run, by the program ``network_picture``: from clock ``first`` to clock ``last``."""
        from .picture import draw

        return draw(self, first=first, last=last)

    def page(self, title: str = "") -> str:
        """A page in HTML: the chart, where it can be drawn, what was run, and each line in words."""
        from .picture import page_of_network

        return page_of_network(self, title)

    def script(self, *, comment: str = "") -> str:
        """A script for the program ``network`` with this run. An application in Python becomes a list of the calls that it made; such a
        script has at most one list for each mote, after the names."""
        words = [_words_of(mote, self.mote(number)) for number, mote in enumerate(self.setup.motes, 1)]
        lines = [f"# {line}".rstrip() for line in comment.splitlines()] + list(setup_lines(self.setup, words))
        long = next((line for line in lines if len(line.encode("utf-8", "surrogatepass")) > MOST_SCRIPT_LINE), None)
        if long is not None:
            raise BadScenario(f"a line of a network's script has at most {MOST_SCRIPT_LINE:,} bytes; this one has more: {long[:100]}..")
        numbers = (self.setup.rounds, *(link.loss.seed for link in self.setup.links))
        large = next((number for number in numbers if number > MOST_NUMBER), None)
        if large is not None:
            raise BadScenario(f"a number of a network's script is at most {MOST_NUMBER:,}; this one is more: {large}")
        return "".join(f"{line}\n" for line in [*lines, *self.inputs])

    def __repr__(self) -> str:
        return f"<NetworkRun of {len(self.setup.motes)} motes: {self.ended}, {len(self.transcript)} lines>"


def _words_of(mote: MoteSetup, run: Run) -> str:
    """The words that set a mote up: names, sizes, and a list of calls."""
    lists = [place for place, named in enumerate(mote.named) if _is_list(named)]
    if lists and (len(lists) > 1 or lists[0] + 1 < len(mote.named)):
        raise BadScenario("a mote of a network's script has at most one list of calls, or application in Python, as its last application")
    names = [named.line for named in mote.named if named.line is not None and not _is_list(named)]
    return " ".join([*names, *size_words(mote.options), *(_list_of(mote.named[place], place, run) for place in lists)])


def _is_list(named: Named) -> bool:
    return named.line is None or named.line.startswith("calls")


def _list_of(named: Named, place: int, run: Run) -> str:
    if named.line is not None:
        return named.line
    return " ".join(["calls", ", ".join(made_calls(run.transcript, FIRST_PROCESS + place))]).rstrip()


def run_network(network: "Network", script: NetworkScriptLike = "", *, check: bool = False) -> NetworkRun:
    """Runs a network's motes, made anew, over a script of inputs: ``tick N``, ``N serial HEX``, ``N frame HEX``. The network itself stays
    as it is.

    A malformed line, a halt of the network or too long a script ends the run; only with ``check=True`` this raises RunEnded.

    >>> from toarmuts import Network
    >>> run = run_network(Network(["relay", "blink"]).link(1, 2, delay=3), "1 frame 0a0b\\ntick 10\\n")
    >>> run.frames(), run.printed(2)
    ([Frame(clock=0, mote=1, data=b'\\n\\x0b')], b'on\\n')
    """
    from .network import Network

    if not isinstance(network, Network):
        raise WrongType(f"run_network takes a Network, not {type(network).__name__}")
    if not isinstance(check, bool):
        raise WrongType(f"check must be True or False, not {type(check).__name__}")
    made = run_setup(network.setup, script)
    return made.check() if check else made


def run_setup(setup: NetworkSetup, script: NetworkScriptLike) -> NetworkRun:
    """Runs these motes over a script of inputs."""
    from .network import Network

    __tracebackhide__ = True
    lines = network_script(script)
    if lines.size > MOST_SCRIPT:
        return NetworkRun(setup, lines.shown, Status.TOO_LONG, None, NetworkTranscript("too long\n"))
    with Network.of(setup) as network:
        network.start()
        malformed = network.execute(lines.data, until_halt=True)
        data, is_exhausted = network.transcript.data, network.exhausted
    if malformed is not None:
        return NetworkRun(setup, lines.shown, Status.BAD_LINE, malformed, NetworkTranscript(data + b"bad line %d\n" % malformed))
    return NetworkRun(setup, lines.shown, Status.EXHAUSTED if is_exhausted else Status.FINISHED, None, NetworkTranscript(data))
