"""Scripts: inputs, line by line (docs/transcript.md)."""
from __future__ import annotations

import itertools
import re
from collections.abc import Iterable, Iterator, Mapping, Set
from typing import TYPE_CHECKING, NamedTuple, Union

from .errors import BadInput, WrongType, no_attribute
from .rules import RULES
from .values import index_of

MOST_TICKS = 2**32 - 1
MOST_SERIAL = RULES.limits["bytes_of_serial"]
MOST_FRAME = RULES.limits["bytes_of_a_frame"]
MOST_SCRIPT_LINE = 1024
MOST_COMMENT = MOST_SCRIPT_LINE - len("# ")

_TICK = re.compile(r"tick (0|[1-9][0-9]{0,9})\Z")
_BYTES = re.compile(r"(serial|frame) ((?:[0-9a-fA-F]{2})+)\Z")

ScriptLike = Union["Script", str, bytes]
"""A script, or its text."""


def check_ticks(ticks: object) -> int:
    """Ticks of one input."""
    number = index_of(ticks)
    if number is None:
        raise WrongType(f"ticks must be an int, not {type(ticks).__name__}")
    if not 0 <= number <= MOST_TICKS:
        raise BadInput(f"tick {number}: 0 to {MOST_TICKS:,} is allowed")
    return number


def ticks_up_to(clock: object, now: int) -> int:
    """The ticks of one input from now up to a clock."""
    number = index_of(clock)
    if number is None:
        raise WrongType(f"clock must be an int, not {type(clock).__name__}")
    if number < now:
        raise BadInput(f"at {number}: the clock is at {now} already")
    if number - now > MOST_TICKS:
        raise BadInput(f"at {number}: the clock is at {now}, and goes on by at most {MOST_TICKS:,} ticks at once")
    return number - now


def check_data(what: str, data: object, most: int) -> bytes:
    """The bytes of one input."""
    if not isinstance(data, (bytes, bytearray, memoryview)):
        raise WrongType(f"{what} must be bytes, not {type(data).__name__}")
    made = bytes(data)
    if not 1 <= len(made) <= most:
        raise BadInput(f"{what} of {len(made)} bytes: 1 to {most} are allowed")
    return made


def line_bytes(text: object) -> bytes:
    """A line of text as the serial line receives it, with its end."""
    if not isinstance(text, (str, bytes)):
        raise WrongType(f"text must be a str or bytes, not {type(text).__name__}")
    data = encoded(text, "a line") if isinstance(text, str) else text
    return check_data("text with its line end", data + b"\n", MOST_SERIAL)


def encoded(text: str, what: str) -> bytes:
    """The bytes of a text; raises BadInput where UTF-8 can't have it, as half a surrogate pair."""
    try:
        return text.encode()
    except UnicodeEncodeError as fault:
        raise BadInput(f"{what} must be text in UTF-8, which {text[fault.start:fault.end]!r} is not") from None


def ticks_of(line: str) -> int | None:
    """The ticks of a line of a script; None where it isn't a tick.

    >>> ticks_of("tick 10"), ticks_of("tick 010")
    (10, None)
    """
    found = _TICK.match(line)
    return int(found[1]) if found and int(found[1]) <= MOST_TICKS else None


def has_form(line: str) -> bool:
    """Whether a line of a script is well formed: empty, a comment, or an input.

    >>> has_form("serial 0a"), has_form("serial 0a ")
    (True, False)
    """
    if len(line.encode("utf-8", "surrogatepass")) > MOST_SCRIPT_LINE:
        return False
    if not line or line.startswith("#") or ticks_of(line) is not None:
        return True
    found = _BYTES.match(line)
    return found is not None and len(found[2]) <= 2 * (MOST_SERIAL if found[1] == "serial" else MOST_FRAME)


class _Front(NamedTuple):
    """Lines that scripts have in common, with all that come before them."""

    before: "_Front | None"
    lines: tuple[str, ...]
    total: int
    """The number of all these lines."""


def _added(front: _Front | None, lines: list[str]) -> _Front | None:
    """These lines, after those of a front."""
    return _Front(front, tuple(lines), len(lines) + (front.total if front is not None else 0)) if lines else front


MOST_SHARED = 256


class Script:
    """The lines of a script. Each call returns a new script, so a beginning can be shared. ``Script(lines)`` and :meth:`raw` take
    malformed lines, too: such a line ends the run, and ``run(.., check=True)`` raises then.

    >>> script = Script().tick(5).serial_text("on").frame(b"\\x0a")
    >>> print(script, end="")
    tick 5
    serial 6f6e0a
    frame 0a
    >>> script.clock
    5
    """

    __slots__ = ("_front", "_shared", "_count", "clock")

    _front: _Front | None
    """Its first lines, which don't change."""
    _shared: list[str]
    """Its last lines, and after them those of one script that goes on from it: at most 256 in all. So a script that grows by calls isn't
    copied at each call, and keeps few lines of the other one."""
    _count: int
    """The number of these last lines that are its own."""
    clock: int
    """The sum of all ticks."""

    def __init__(self, lines: Iterable[str] = ()) -> None:
        if isinstance(lines, (str, bytes, Mapping, Set)) or not isinstance(lines, Iterable):
            hint = ": Script(text.splitlines())" if isinstance(lines, (str, bytes)) else ""
            raise WrongType(f"the lines of a script must be a list, not {type(lines).__name__}{hint}")
        made = list(lines)
        for line in made:
            if not isinstance(line, str):
                raise WrongType(f"a line of a script must be a str, not {type(line).__name__}")
            if "\n" in line:
                raise BadInput(f"a line of a script must have no line end: {line!r}")
        self._front, self._shared, self._count = _added(None, made), [], 0
        self.clock = sum(ticks_of(line) or 0 for line in made)

    if not TYPE_CHECKING:
        def __getattr__(self, name):
            """Names that were changed."""
            raise no_attribute("Script", name)

    @property
    def lines(self) -> tuple[str, ...]:
        """The lines, without their ends."""
        parts: list[Iterable[str]] = [self._shared[:self._count]]
        front = self._front
        while front is not None:
            parts.append(front.lines)
            front = front.before
        return tuple(itertools.chain.from_iterable(reversed(parts)))

    def _with(self, line: str, ticks: int = 0) -> "Script":
        front, shared, count = self._front, self._shared, self._count
        if count == MOST_SHARED:
            front, shared, count = _added(front, shared[:count]), [], 0
        if len(shared) == count:
            shared.append(line)
        # Another script, even one of another thread, may have gone on from here.
        if shared[count] is not line:
            shared = [*shared[:count], line]
        made = Script.__new__(Script)
        made._front, made._shared, made._count, made.clock = front, shared, count + 1, self.clock + ticks
        return made

    def tick(self, ticks: int = 1) -> "Script":
        """Advances the clock by 0 to 4,294,967,295 ticks."""
        number = check_ticks(ticks)
        return self._with(f"tick {number}", number)

    def at(self, clock: int) -> "Script":
        """Advances the clock up to this one; adds no line where it is there already."""
        ticks = ticks_up_to(clock, self.clock)
        return self.tick(ticks) if ticks else self

    def serial(self, data: bytes) -> "Script":
        """Receives 1 to 256 bytes on the serial line."""
        return self._with(f"serial {check_data('serial', data, MOST_SERIAL).hex()}")

    def serial_text(self, line: str | bytes) -> "Script":
        """Receives this line and a line end on the serial line. Applications receive lines of at most 126 bytes; a longer one is lost
        (docs/devices.md)."""
        return self._with(f"serial {line_bytes(line).hex()}")

    def frame(self, data: bytes) -> "Script":
        """Receives a frame of 1 to 127 bytes."""
        return self._with(f"frame {check_data('frame', data, MOST_FRAME).hex()}")

    def comment(self, text: str) -> "Script":
        """Adds a comment of at most 1,022 bytes. With ``# `` before it, it is a line of at most 1,024."""
        if not isinstance(text, str):
            raise WrongType(f"a comment must be a str, not {type(text).__name__}")
        size = len(text.encode("utf-8", "surrogatepass"))
        if size > MOST_COMMENT:
            raise BadInput(f"a comment of {size} bytes: at most {MOST_COMMENT:,} are allowed")
        return self.raw(f"# {text}")

    def raw(self, line: str) -> "Script":
        """Adds a line as it is, even a malformed one."""
        return self._with(line, Script([line]).clock)

    def __add__(self, other: "Script") -> "Script":
        if not isinstance(other, Script):
            return NotImplemented
        return Script(self.lines + other.lines)

    def __str__(self) -> str:
        return "".join(f"{line}\n" for line in self.lines)

    def __iter__(self) -> Iterator[str]:
        return iter(self.lines)

    def __len__(self) -> int:
        return self._count + (self._front.total if self._front is not None else 0)

    def __reduce__(self) -> tuple[type["Script"], tuple[tuple[str, ...]]]:
        return Script, (self.lines,)

    def __eq__(self, other: object) -> bool:
        return isinstance(other, Script) and self.lines == other.lines

    def __hash__(self) -> int:
        return hash(self.lines)

    def __repr__(self) -> str:
        return f"Script({list(self.lines)!r})"


def script_bytes(script: object) -> bytes:
    """The bytes of a script that is text, bytes or a Script."""
    if isinstance(script, bytes):
        return script
    if isinstance(script, (str, Script)):
        return encoded(str(script), "a script")
    if isinstance(script, (bytearray, memoryview)):
        return bytes(script)
    hint = ": Script(lines) makes one of lines" if isinstance(script, (list, tuple)) else ""
    raise WrongType(f"script must be a str, bytes or Script, not {type(script).__name__}{hint}")


def script_lines(script: bytes) -> list[bytes]:
    """The lines of a script's bytes; the last one needs no line end."""
    lines = script.split(b"\n")
    return lines if lines[-1] else lines[:-1]
