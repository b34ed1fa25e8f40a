"""A reader of value change dumps (IEEE 1364, clause 18), as far as a run's dump goes: vectors of one module, no x or z within digits."""

import bisect
import dataclasses
import re

UNITS = {"s": 0, "ms": 3, "us": 6, "ns": 9, "ps": 12, "fs": 15}
HEADER = re.compile(r"\$(version|comment|timescale|scope|var|upscope|enddefinitions)\s(.*?)\$end\s*", re.DOTALL)
CHANGE = re.compile(r"b([01]+|x|z) (\S+)")


class NoDump(ValueError):
    """A text is no value change dump, for the reason that the message gives."""


@dataclasses.dataclass
class Signal:
    """A signal: how many digits it may have, and its values, each with the time from which on it holds."""

    width: int
    times: list[int] = dataclasses.field(default_factory=list)
    values: list[str] = dataclasses.field(default_factory=list)

    def at(self, time: int) -> str:
        """The value at a time: a number in decimal digits, `x` or `z`."""
        place = bisect.bisect_right(self.times, time)
        if place == 0:
            raise NoDump(f"a signal has no value at {time}")
        return self.values[place - 1]


@dataclasses.dataclass
class Dump:
    """A dump: how many units of time a second has, its signals by their names, and its times."""

    second: int
    signals: dict[str, Signal]
    times: list[int]


def read_head(text: str) -> tuple[int, dict[str, str], dict[str, Signal], str]:
    """The units of time to a second, names by their letters, signals by their names, and the text after the declarations."""
    names: dict[str, str] = {}
    signals: dict[str, Signal] = {}
    second, end = 0, 0
    for part in iter(lambda: HEADER.match(text, end), None):
        end = part.end()
        words = part[2].split()
        if part[1] == "timescale":
            number, unit = words
            second = 10 ** UNITS[unit] // int(number)
        elif part[1] == "var":
            kind, width, letter, name = words
            if kind != "reg" or letter in names or name in signals or not name.isidentifier():
                raise NoDump(f"a repeated or malformed declaration: {part[0]}")
            names[letter], signals[name] = name, Signal(int(width))
        elif part[1] == "enddefinitions":
            return second, names, signals, text[end:]
    raise NoDump(f"declarations end before {text[end:end + 40]!r}")


def read_dump(text: str) -> Dump:
    """Reads a dump.

    Raises NoDump for a text that is none: a change before the first time, of no signal or with too many digits, a time that isn't later
    than the one before, or a value that is told twice.
    """
    second, names, signals, body = read_head(text)
    times: list[int] = []
    for line in body.splitlines():
        change = CHANGE.fullmatch(line)
        if re.fullmatch(r"#\d+", line):
            times.append(int(line[1:]))
            if times[-2:] != sorted(set(times[-2:])):
                raise NoDump(f"times go from {times[-2]} to {times[-1]}")
        elif change and change[2] in names and times:
            add_value(signals[names[change[2]]], times[-1], change[1])
        else:
            raise NoDump(f"a malformed line: {line!r}")
    return Dump(second, signals, times)


def add_value(signal: Signal, time: int, digits: str) -> None:
    value = digits if digits in "xz" else str(int(digits, 2))
    if len(digits) > signal.width or signal.values[-1:] == [value] or signal.times[-1:] == [time]:
        raise NoDump(f"a value that is too wide, or told twice: {digits} at {time}")
    signal.times.append(time)
    signal.values.append(value)
