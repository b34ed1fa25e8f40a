"""The motes and links of a network, before it is started; and as lines of a script for the program ``network`` (docs/network.md)."""
from __future__ import annotations

import functools
import re
import struct
from collections.abc import Callable, Iterator, Sequence
from dataclasses import dataclass, replace
from typing import NamedTuple, Union

from .applications import Application, ApplicationLike, Made, Named, Turns, read_applications
from .call import Call
from .errors import BadInput, MoteError, ToarmutsError, WrongType
from .library import BAD_SIZES, HeldNetwork, library
from .links import Link
from .options import Options
from .rules import RULES
from .script import MOST_SCRIPT_LINE, encoded, has_form, ticks_of
from .stepper import bad_sizes, refuse

ROOM, ROUNDS = 1024, 16_777_216
_MOTE = struct.Struct("=7I")
_OF_MOTE = re.compile(r"(0|[1-9][0-9]{0,9}) ((?:serial|frame) .*)")

MoteLike = Union[str, Application, Callable[[], Union[Application, Turns]], Sequence[Union[ApplicationLike, Call]]]
"""The applications of a mote of a network: a list of them, as a :class:`toarmuts.Mote` takes, or a single one that is no list of calls.
It has one kind of list, since mypy finds no type for a list's members where there are two."""

NetworkScriptLike = Union[str, bytes, Sequence[str]]
"""The inputs of a network: text, or a list of lines."""


@dataclass(frozen=True)
class MoteSetup:
    """A mote of a network: its applications, as they were read, and its sizes."""

    named: tuple[Named, ...]
    options: Options

    @property
    def shown(self) -> str:
        """The names of its applications."""
        return " ".join(named.shown for named in self.named) or "no applications"

    def packed(self) -> bytes:
        """The bytes of ``struct toarmuts_network_mote``."""
        return _MOTE.pack(*self.options.configuration(), len(self.named))

    def make(self) -> list[Made]:
        """Its applications, made anew."""
        return [named.make() for named in self.named]


@functools.lru_cache(maxsize=256)
def _boots(options: Options, applications: int) -> bool:
    """Whether a mote of as many applications boots with these sizes: the library is asked with empty lists of calls."""
    return library().run(options.configuration(), b"calls\n" * applications, b"").status != BAD_SIZES


def read_mote(applications: object, options: Options, number: int) -> MoteSetup:
    """The mote of this number; raises where one of its applications is none, or where it can't boot, and says which mote it is."""
    try:
        return _read_mote(applications, options)
    except ToarmutsError as error:
        error.args = (f"mote {number}: {error}",)
        raise


def _read_mote(applications: object, options: Options) -> MoteSetup:
    is_list = isinstance(applications, (list, tuple))
    named = read_applications(applications if is_list else [applications])
    if options.quiet:
        raise MoteError("a network's motes are never quiet")
    for application in named:
        if application.line is not None:
            # A name that there isn't is refused now.
            application.make()
    if not _boots(options, len(named)):
        raise bad_sizes(options, len(named))
    return MoteSetup(tuple(named), options)


@dataclass(frozen=True)
class NetworkSetup:
    """The motes of a network, in the order of their numbers, its links, and its limits."""

    motes: tuple[MoteSetup, ...] = ()
    links: tuple[Link, ...] = ()
    room: int = ROOM
    """The most frames in flight."""
    rounds: int = ROUNDS
    """The most rounds of one input."""

    def open(self) -> HeldNetwork:
        """Opens it in the library."""
        links = b"".join(link.packed() for link in self.links)
        motes = b"".join(mote.packed() for mote in self.motes)
        status, held = library().open_network((self.room, len(self.links), self.rounds), motes, links)
        if status:
            raise refuse(status, "network")
        return held

    def with_links(self, links: Sequence[Link]) -> "NetworkSetup":
        """The same motes with these links."""
        return replace(self, links=tuple(links))


class InputLine(NamedTuple):
    """A line of a script after those that set a network up. A mote of 0 is the whole network: its clock goes on."""

    mote: int
    kind: int
    ticks: int
    data: bytes

    @property
    def text(self) -> str:
        """The line."""
        return f"{self.mote} {'serial' if self.kind == SERIAL else 'frame'} {self.data.hex()}" if self.mote else f"tick {self.ticks}"


SERIAL, FRAME = 1, 2


def read_input(line: str, motes: int) -> InputLine | None:
    """An input of a network of this number of motes; None for a comment or an empty line. Raises BadInput where the line is malformed.

    >>> read_input("2 frame 0a", 3), read_input("tick 5", 3)
    (InputLine(mote=2, kind=2, ticks=0, data=b'\\n'), InputLine(mote=0, kind=0, ticks=5, data=b''))
    """
    if not isinstance(line, str):
        raise WrongType(f"a line of a script must be a str, not {type(line).__name__}")
    fault = BadInput(f"{line[:100]!r} is not an input of a network of {motes} motes")
    if "\n" in line or len(encoded(line, "a line of a script")) > MOST_SCRIPT_LINE:
        raise fault
    if not line or line.startswith("#"):
        return None
    ticks = ticks_of(line)
    if ticks is not None:
        return InputLine(0, 0, ticks, b"")
    found = _OF_MOTE.fullmatch(line)
    if found is None or not 1 <= int(found[1]) <= motes or not has_form(found[2]):
        raise fault
    word, _, data = found[2].partition(" ")
    return InputLine(int(found[1]), SERIAL if word == "serial" else FRAME, 0, bytes.fromhex(data))


class Lines(NamedTuple):
    """The lines of a script."""

    data: bytes
    """All of them, each with its line end."""
    size: int
    """The number of bytes, without a line end that was added."""
    shown: tuple[str, ...]
    """Each as text."""


# What stands for a line of a list that no script can have, and is malformed.
_NO_LINE = b"\0"


def network_script(script: object) -> Lines:
    """The lines of a script. Those that are executed needn't be UTF-8: a comment may have any bytes."""
    if isinstance(script, str):
        script = encoded(script, "a script")
    if isinstance(script, bytes):
        data = script if not script or script.endswith(b"\n") else script + b"\n"
        return Lines(data, len(script), tuple(_texts_of(data)))
    if not isinstance(script, Sequence):
        raise WrongType(f"a network's script must be a str, bytes or a list of lines, not {type(script).__name__}")
    wrong = next((line for line in script if not isinstance(line, str)), None)
    if wrong is not None:
        raise WrongType(f"a line of a script must be a str, not {type(wrong).__name__}")
    data = b"".join(map(_line_of, script))
    return Lines(data, len(data), tuple(script))


def _line_of(line: str) -> bytes:
    """A line of a list, with its line end."""
    data = line.encode("utf-8", "surrogatepass")
    return (_NO_LINE if b"\n" in data else data) + b"\n"


def _texts_of(data: bytes) -> list[str]:
    """Whole lines as texts. What isn't UTF-8 in a line becomes question marks, each for one byte."""
    try:
        return data.decode().split("\n")[:-1]
    except UnicodeDecodeError:
        return [text_of(line) for line in data.split(b"\n")[:-1]]


def text_of(line: bytes) -> str:
    """A line as text."""
    try:
        return line.decode()
    except UnicodeDecodeError:
        return line.decode("ascii", "replace").replace("\ufffd", "?")


def setup_lines(setup: NetworkSetup, words: Sequence[str]) -> Iterator[str]:
    """The lines that set a network up, with these words for its motes; equal motes in a row share a line."""
    if setup.room != ROOM:
        yield f"room {setup.room}"
    if setup.rounds != ROUNDS:
        yield f"rounds {setup.rounds}"
    first = 0
    for number, word in enumerate(words, 1):
        if number == len(words) or words[number] != word:
            yield f"mote {first + 1 if first + 1 == number else f'{first + 1}..{number}'} {word}".rstrip()
            first = number
    yield from map(str, setup.links)


def size_words(options: Options) -> list[str]:
    """The sizes that differ from the usual ones, as arguments."""
    usual = Options()
    sizes = [(name, getattr(options, name)) for name in RULES.sizes]
    return [word for name, size in sizes if size != getattr(usual, name) for word in (f"--{name}", str(size))]
