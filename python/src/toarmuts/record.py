"""Records of runs, as boards and ``./contiki --record`` write them (docs/firmware.md)."""
from __future__ import annotations

import re
from collections.abc import Iterable
from dataclasses import dataclass

from .applications import ApplicationLike
from .errors import ToarmutsError, WrongType, cut
from .options import Options
from .pcap import PathLike
from .runs import Run, run_applications
from .script import Script, has_form

_NUMBER = "(0|[1-9][0-9]{0,9})"
_SIZES = ("second", "mmem", "heap", "header", "quota", "node", "long", "pointer")
_HEAD = re.compile("# record 1 sources ([0-9a-f]{16})" + "".join(f" {name} {_NUMBER}" for name in _SIZES))
_CHECK = re.compile("# check (0|[1-9][0-9]{0,19}) ([0-9a-f]{8})")
_VALUE = re.compile(f"# value {_NUMBER}")
_MOST = 2**32 - 1
_MOST_MOTES = 2**16 - 1
# Where a board lost its power within a line, or its port was too slow, these follow in that line.
_BEGINNINGS = ("# the record ends here", "# record ")


class BadRecord(ToarmutsError, ValueError):
    """Not a record, or one with a malformed line. ``line`` is its number, from 1 on."""

    def __init__(self, line: int, message: str) -> None:
        super().__init__(f"line {line} of the record: {message}")
        self.line = line


@dataclass(frozen=True)
class RecordCheck:
    """What the recorded run had come to, at rest."""

    inputs: int
    """The number of inputs before it."""
    lines: int
    """The lines of the transcript."""
    sum: int
    """A sum of all inputs, calls and values."""


@dataclass(frozen=True)
class Record:
    """The record of a run: what decided it, and what it came to.

    >>> record = Record.of("# record 1 sources 46b1f23ef0167e85 second 128 mmem 64 heap 4096 header 16 quota 0 node 0 long 4 pointer 4\\n"
    ...                    "# check 4 c20a2bcf\\ntick 10\\n# value 7\\n")
    >>> record.options, record.script, record.values
    (Options(mmem=64, heap=4096, header=16, quota=None, quiet=False), Script(['tick 10']), (7,))
    >>> record.run(["blink"]).printed()
    b'on\\n'
    """

    sources: str
    """A hash of the program's sources, in hex."""
    second: int
    """CLOCK_SECOND: ticks of a second."""
    options: Options
    node: int | None
    """The mote's number in a network, or None."""
    long_bytes: int
    """The bytes of a long."""
    pointer_bytes: int
    """The bytes of a pointer."""
    script: Script
    """The inputs."""
    values: tuple[int, ...]
    """What ``value_of`` returned."""
    checks: tuple[RecordCheck, ...]
    notes: tuple[str, ...]
    """Other comments, without ``# ``: messages of faults, bytes that a port lost, that the record ends."""
    next_run: int | None
    """The number of the line at which a board began anew: another record, which isn't part of this one."""

    @staticmethod
    def of(text: str | bytes) -> "Record":
        """Reads a record. One that is cut anywhere after its first line is read up to its last whole line."""
        if not isinstance(text, (str, bytes)):
            raise WrongType(f"a record must be a str or bytes, not {type(text).__name__}")
        whole = text if isinstance(text, str) else text.decode("utf-8", "backslashreplace")
        # What follows the last line end was cut off, and isn't part of the run.
        return _read(whole.split("\n")[:-1])

    def run(self, applications: Iterable[ApplicationLike], *, check: bool = False) -> Run:
        """Runs applications over the inputs, with the record's sizes, as :func:`toarmuts.run` does. The values and checks aren't used:
        they are those of a program in C, which ``./contiki --replay`` runs once more."""
        return run_applications(applications, self.script, options=self.options, check=check)


def _without_part(line: str) -> str:
    """A line without the part of another one that a board left before it."""
    for words in _BEGINNINGS:
        line = line[max(line.rfind(words), 0):]
    return line


def _read(lines: list[str]) -> Record:
    head = _HEAD.fullmatch(_without_part(lines[0])) if lines and lines[0].startswith("#") else None
    if head is None:
        raise BadRecord(1, "this is no record: it doesn't begin with `# record 1 sources ..` and a whole line")
    sizes = {name: _number(1, digits, _MOST_MOTES if name == "node" else _MOST) for name, digits in zip(_SIZES, head.groups()[1:])}
    inputs: list[str] = []
    values: list[int] = []
    checks: list[RecordCheck] = []
    notes: list[str] = []
    next_run = None
    for number, line in enumerate(map(_without_part, lines[1:]), 2):
        if line.startswith("# record "):
            next_run = number
            break
        if line.startswith("# check "):
            checks.append(_check_of(number, line, len(inputs)))
        elif line.startswith("# value "):
            values.append(_value_of(number, line))
        elif line.startswith("#"):
            notes.append(line[1:].removeprefix(" "))
        elif line and has_form(line):
            inputs.append(line)
        else:
            raise _malformed(number, line)
    options = Options(sizes["mmem"], sizes["heap"], sizes["header"], sizes["quota"] or None)
    return Record(head[1], sizes["second"], options, sizes["node"] or None, sizes["long"], sizes["pointer"], Script(inputs), tuple(values),
                  tuple(checks), tuple(notes), next_run)


def _malformed(number: int, line: str) -> BadRecord:
    return BadRecord(number, f"it is malformed: {cut(line)!r}")


def _number(number: int, digits: str, most: int = _MOST) -> int:
    if int(digits) > most:
        raise BadRecord(number, f"{digits} is too large; at most {most:,} is allowed")
    return int(digits)


def _check_of(number: int, line: str, inputs: int) -> RecordCheck:
    found = _CHECK.fullmatch(line)
    if found is None:
        raise _malformed(number, line)
    return RecordCheck(inputs, int(found[1]), int(found[2], 16))


def _value_of(number: int, line: str) -> int:
    found = _VALUE.fullmatch(line)
    if found is None:
        raise _malformed(number, line)
    return _number(number, found[1])


def read_record(path: PathLike) -> Record:
    """Reads the file of a record. Raises BadRecord where it isn't one, or where a line is malformed."""
    with open(path, "rb") as opened:
        return Record.of(opened.read())
