"""Hypothesis strategies for networks, their losses and their inputs, and a state machine over a network in hand."""
from __future__ import annotations

from collections.abc import Callable, Iterable, Sequence
from typing import Any, ClassVar

from hypothesis import note
from hypothesis import strategies as st
from hypothesis.control import currently_in_test_context
from hypothesis.stateful import RuleBasedStateMachine, initialize, precondition, rule
from hypothesis.strategies import SearchStrategy

from .errors import ApplicationError, BadInput, BadScenario, WrongType
from .links import MOST_LOT, MOST_NUMBER, Link, Loss, check_number
from .network import Network
from .network_runs import NetworkRun
from .network_setup import MoteLike, NetworkSetup
from .network_transcript import NetworkTranscript
from .strategies import frame_line, frames, serial_line, text_line, texts_of, tick_line

KINDS = ("tick", "serial", "text", "frame")


def every(number: int) -> Loss:
    """Each frame of this number is lost."""
    return Loss(every=number)


def by_lot(lot: int, seed: int) -> Loss:
    """Frames are lost by lot."""
    return Loss(lot=lot, seed=seed)


def losses(*, most_every: int = 8, most_lot: int = 20_000) -> SearchStrategy[Loss]:
    """A rule for losses of a link: none, each n-th frame up to the number ``most_every``, or up to ``most_lot`` of 65,536 frames by lot."""
    made: list[SearchStrategy[Loss]] = [st.just(Loss())]
    if check_number("most_every", most_every, 0, MOST_NUMBER):
        made.append(st.integers(1, most_every).map(every))
    if check_number("most_lot", most_lot, 0, MOST_LOT):
        made.append(st.builds(by_lot, st.integers(1, most_lot), st.integers(0, 999)))
    return st.one_of(made)


def links(motes: int, *, max_delay: int = 12, max_size: int = 12, loss: SearchStrategy[Loss] | None = None) -> SearchStrategy[list[Link]]:
    """Links between some of the motes 1, 2, .."""
    number = st.integers(1, check_number("motes", motes, 1, MOST_NUMBER))
    delay = st.integers(1, check_number("max_delay", max_delay, 1, MOST_NUMBER))
    made = st.builds(Link, number, number, delay, losses() if loss is None else loss)
    return st.lists(made, max_size=check_number("max_size", max_size, 0, MOST_NUMBER))


def networks(motes: Iterable[MoteLike], *, max_size: int = 5, max_delay: int = 12,
             loss: SearchStrategy[Loss] | None = None) -> SearchStrategy[Network]:
    """Networks of one to ``max_size`` motes of these, with some links, that aren't started."""
    if isinstance(motes, (str, bytes)) or not isinstance(motes, Iterable):
        raise WrongType(f"motes must be a list, not {type(motes).__name__}")
    given = list(motes)
    if not given:
        raise BadInput("no motes: at least one is needed")
    most = check_number("max_size", max_size, 1, MOST_NUMBER)

    def with_links(chosen: list[MoteLike]) -> SearchStrategy[Network]:
        return links(len(chosen), max_delay=max_delay, loss=loss).map(Network(chosen).links)

    return st.lists(st.sampled_from(given), min_size=1, max_size=most).flatmap(with_links)


def network_inputs(motes: int, *, kinds: Sequence[str] = KINDS, max_ticks: int = 40) -> SearchStrategy[str]:
    """A line of a script for a network of this number of motes."""
    numbers = st.integers(1, check_number("motes", motes, 1, MOST_NUMBER))
    unknown = next((kind for kind in kinds if kind not in KINDS), None)
    if unknown is not None or not kinds:
        raise BadInput(f"no kind of input {unknown!r}; there are {', '.join(KINDS)}" if kinds else "no kinds of inputs")
    texts = st.text("abcdefgh 0123", max_size=12).map(text_line)
    lines = {"serial": st.binary(min_size=1, max_size=130).map(serial_line), "text": texts, "frame": frames().map(frame_line)}
    known = {kind: st.builds(line_of_mote, numbers, line) for kind, line in lines.items()}
    known["tick"] = st.integers(0, check_number("max_ticks", max_ticks, 0, MOST_NUMBER)).map(tick_line)
    return st.one_of([known[kind] for kind in kinds])


def line_of_mote(mote: int, line: str) -> str:
    """A line of a mote's script, for one mote of a network."""
    return f"{mote} {line}"


def network_scripts(motes: int, *, max_size: int = 12, kinds: Sequence[str] = KINDS, max_ticks: int = 40) -> SearchStrategy[list[str]]:
    """The lines of a script of at most ``max_size`` lines."""
    line = network_inputs(motes, kinds=kinds, max_ticks=max_ticks)
    return st.lists(line, max_size=check_number("max_size", max_size, 0, MOST_NUMBER))


def _losses_of(machine: "NetworkMachine") -> SearchStrategy[list[Loss]]:
    """A rule for each link of a machine's network."""
    return st.tuples(*[machine.losses if machine.losses is not None else st.just(link.loss) for link in machine.setup.links]).map(list)


def _motes_of(machine: "NetworkMachine") -> SearchStrategy[int]:
    """The number of a mote of a machine's network."""
    return st.integers(1, max(1, len(machine.setup.motes)))


class NetworkMachine(RuleBasedStateMachine):
    """A state machine whose rules are inputs of a network. A subclass makes the network, and looks at what follows:

        class Delivers(NetworkMachine):
            losses = network_strategies.losses()
            kinds = ("tick",)

            def make(self):
                return Network([sender, receiver]).link(1, 2).link(2, 1)

            def look(self, lines):
                assert LETTERS.startswith(self.network.printed(2))

        TestDelivers = Delivers.TestCase

    Where ``losses`` is a strategy, each link's loss is drawn first. It fails where :meth:`look` or an application raises. Then losses and
    inputs are made smaller, and the smallest run is shown as a file for ``./network``.
    """

    losses: ClassVar[SearchStrategy[Loss] | None] = None
    kinds: ClassVar[Sequence[str]] = ("tick", "text", "frame")
    texts: ClassVar[Sequence[str]] = ("on", "off", "a", "")
    on_failure: ClassVar[Callable[[str], None] | None] = None
    """A function of one argument, as ``found.append``: it is called with the file of each run that fails, the smallest last."""

    def __init__(self) -> None:
        super().__init__()
        self.setup: NetworkSetup = self.make().setup
        """Its motes and links."""
        self.network = Network.of(self.setup)

    def make(self) -> Network:
        """A network that isn't started."""
        raise NotImplementedError("a NetworkMachine makes its network in `make`")

    def look(self, lines: NetworkTranscript) -> None:
        """Looks at the lines that follow an input, and those of the start."""

    @initialize(drawn=st.runner().flatmap(_losses_of))
    def start(self, drawn: list[Loss]) -> None:
        """Starts the motes, over links with these losses."""
        links = [Link(link.sender, link.receiver, link.delay, loss) for link, loss in zip(self.setup.links, drawn)]
        self.network = Network.of(self.setup.with_links(links))
        self._feed(self.network.start)

    def _feed(self, feed: Callable[..., NetworkTranscript], *values: Any) -> None:
        """Feeds an input, and looks at what follows."""
        __tracebackhide__ = True
        try:
            self.look(feed(*values))
        except Exception as fault:
            self._tell(self.network.so_far(), fault)
            raise

    def _tell(self, run: NetworkRun, fault: Exception) -> None:
        """Shows a run that fails as a file."""
        comment = f"{type(fault).__name__}: {fault}" if isinstance(fault, ApplicationError) else ""
        try:
            text_of_run = run.script(comment=comment)
        except BadScenario as reason:
            text_of_run = f"# no file can have this run: {reason}\n{run.text}"
        if currently_in_test_context():
            note(text_of_run)
        on_failure = type(self).on_failure
        if on_failure is not None:
            on_failure(text_of_run)

    def _takes_ticks(self) -> bool:
        return "tick" in self.kinds and not self.network.exhausted

    def _takes_texts(self) -> bool:
        return "text" in self.kinds and not self.network.exhausted

    def _takes_frames(self) -> bool:
        return "frame" in self.kinds and not self.network.exhausted

    @precondition(_takes_ticks)
    @rule(ticks=st.integers(0, 40))
    def tick(self, ticks: int) -> None:
        """Advances the clock."""
        self._feed(self.network.tick, ticks)

    @precondition(_takes_texts)
    @rule(mote=st.runner().flatmap(_motes_of), line=st.runner().flatmap(texts_of))
    def serial_text(self, mote: int, line: str) -> None:
        """A mote receives a line on its serial line."""
        self._feed(self.network.serial_text, mote, line)

    @precondition(_takes_frames)
    @rule(mote=st.runner().flatmap(_motes_of), data=frames())
    def frame(self, mote: int, data: bytes) -> None:
        """A mote receives a frame from outside."""
        self._feed(self.network.frame, mote, data)

    def teardown(self) -> None:
        """Frees the memory."""
        self.network.close()
