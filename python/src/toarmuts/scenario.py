"""Scenario files: read, run, compared, written (docs/scenarios.md describes them).

They are read here and not by `./scenario --json`, since the package is installed by itself, without that program. Rows, `...`, names of
events and quotes are left to it.
"""
from __future__ import annotations

import pathlib
import re
from dataclasses import dataclass, field
from typing import Iterable, Iterator, Union

from .applications import ApplicationLike
from .call import MOST_CALLS, Call, read_calls
from .calls import Wait
from .difference import Difference, first_difference
from .errors import BadCall, BadInput, BadScenario, BadSizes, NotInPython, TooManyApplications, WrongType
from .options import Options
from .rules import FIRST_PROCESS, RULES
from .runs import Run, run
from .script import encoded, has_form, ticks_of
from .transcript import Transcript
from .values import read_number

MOST_TIMES = 1_000_000
MOST_TEXT = 255
BAD_SIZES = "bad sizes"
_OF_TRANSCRIPT = re.compile(r"[0-9]|(?:>|note|halt|bad|too)(?: |\Z)")
_ENDS = ("finished", "halted", "too long", BAD_SIZES)
# What is hard to see in a malformed line, and what is wrong with its spaces and the commas of a list.
_FLAWS = tuple((re.compile(form), words) for form, words in (
    ("\\A\ufeff", "the file begins with a byte order mark"), ("\0", "there is a byte 0 in the line"),
    (r"\r\Z", "the line ends with byte 13, as lines of Windows do"), (r"\A ", "the line begins with a space"),
    (r"\t", "there is a tab in the line"), (r"\A(?:calls|mote) .*,\s*\Z", "there is no call after the last comma"),
    (r"\A(?:calls|mote) .* ,", "there is a space before a comma"), (r"\A(?:calls|mote) .*,[^ ]", "there is no space after a comma"),
    ("  ", "two spaces stand side by side"), (r" \Z", "the line ends with a space")))
# Rows, gaps, names of events and texts in quotes, where only `./scenario` has them.
_OF_PROGRAM = re.compile(r'(?:rows|on .*|\.\.\.)\Z|(?:calls|mote|serial|frame|[0-9]+|>|times [0-9]+) .*"'
                         r"|[0-9]+ (?:[0-9]+ )?(?:synch|event) [A-Z]")


def read_only_by_program(line: str) -> None:
    """Refuses what only `./scenario` reads."""
    if _OF_PROGRAM.match(line):
        raise NotInPython("rows, ..., names of events and quotes are read by ./scenario alone")


@dataclass(frozen=True)
class Outcome:
    """The result of a scenario: the run, if there was one, and what differs from the file, if anything does."""

    run: Run | None
    difference: Difference | None
    fault: str | None
    """What differs, in words; None where nothing does."""


@dataclass
class Scenario:
    """A run of a file, and the result that the file expects.

    >>> scenario = read_scenarios("app hello\\n4 synch 129 - -> print 68690a\\n4 answer done -> wait\\n")[0]
    >>> print(scenario.carry_out().fault)
    None
    """

    name: str | None = None
    first_line: int = 1
    applications: list[ApplicationLike] = field(default_factory=list)
    sizes: dict[str, int] = field(default_factory=dict)
    quiet: bool = False
    script: str = ""
    clock: int = 0
    transcript: str = ""
    end: str | None = None
    """How it must end, where the file says so apart from the transcript."""
    has_ended: bool = False
    """Whether the script's last line, which has no line end, was read."""
    _inputs: list[str] = field(default_factory=list, repr=False, compare=False)
    _entries: list[str] = field(default_factory=list, repr=False, compare=False)
    """Script and transcript while they are read: a file may have a million lines."""

    @property
    def options(self) -> Options:
        """The sizes."""
        return Options(**self.sizes, quiet=self.quiet)

    @property
    def is_told(self) -> bool:
        """Whether the file expects a result."""
        return self.end is not None or bool(self.transcript)

    @property
    def wanted_end(self) -> str:
        """How it must end: as the file says, or as the transcript's last line shows."""
        last = self.transcript.rstrip("\n").rpartition("\n")[2]
        shown = {"halt": "halted", "too long": "too long"}.get(last, last if last.startswith("bad line ") else "finished")
        return self.end if self.end is not None else shown

    def run(self) -> Run:
        """Runs it."""
        return run(self.applications, self.script, options=self.options)

    def carry_out(self) -> Outcome:
        """Runs it, and compares the result."""
        try:
            found = self.run()
        except (BadSizes, TooManyApplications) as fault:
            return Outcome(None, None, None if self.end == BAD_SIZES else f"{BAD_SIZES}: {fault}")
        if not self.is_told:
            return Outcome(found, None, None)
        difference = first_difference(self.transcript, found.transcript)
        if difference is not None:
            return Outcome(found, difference, str(difference))
        same = found.ended == self.wanted_end
        return Outcome(found, None, None if same else f"ended with: {found.ended}, and not: {self.wanted_end}")

    def _end_reading(self) -> None:
        """Makes script and transcript of the lines that were read."""
        self.script, self.transcript = "".join(self._inputs), "".join(self._entries)
        self._inputs, self._entries = [], []

    def _read_line(self, line: str) -> None:
        """Takes a line of a file; raises BadCall or BadScenario where it is malformed."""
        word, _, rest = line.partition(" ")
        read_only_by_program(line)
        if word in ("app", "calls"):
            self._read_application(word, rest)
        elif word == "last":
            self._refuse_behind_last()
            self.has_ended = True
            self._inputs.append(rest)
        elif word == "at":
            self._go_on_to(rest)
        elif word == "times":
            count, _, repeated = rest.partition(" ")
            self._append(read_number(count, MOST_TIMES, 1), repeated)
        elif word in RULES.sizes:
            self._refuse_twice(word, word in self.sizes)
            self.sizes[word] = read_number(rest, 2**32 - 1)
        elif word == "==":
            raise _BadPlace("a run has no name")
        elif word == "network":
            raise _BadPlace("network is the first line of a run, or none") if not rest else BadScenario("network takes no word")
        elif word in ("quiet", "ends"):
            self._set_outcome(word, rest)
        elif line and not line.startswith("#"):
            self._append(1, line)

    def _read_application(self, word: str, rest: str) -> None:
        if word == "calls":
            self.applications.append(read_calls(rest))
        elif rest in RULES.applications:
            self.applications.append(rest)
        else:
            raise BadScenario(f"no application {rest}")

    def _refuse_twice(self, word: str, is_given: bool) -> None:
        if is_given:
            raise _BadPlace(f"{word} is given twice")

    def _set_outcome(self, word: str, rest: str) -> None:
        if word == "quiet":
            if rest:
                raise BadScenario("quiet takes no word")
            self._refuse_twice(word, self.quiet)
            self.quiet = True
        elif rest in _ENDS or re.fullmatch(r"bad line [1-9][0-9]*", rest):
            self._refuse_twice(word, self.end is not None)
            self.end = rest
        else:
            raise BadScenario(f"no end of a run: {rest}")

    def _go_on_to(self, word: str) -> None:
        if not re.fullmatch(r"0|[1-9][0-9]{0,19}", word):
            raise BadScenario(f"{word} is no clock")
        left = int(word) - self.clock
        if left < 0:
            raise _BadPlace(f"the clock is at {self.clock} already")
        if left >= 2**32:
            raise _BadPlace("the clock goes on by at most 4294967295 ticks at once")
        if left:
            self._push(1, f"tick {left}")

    def _append(self, count: int, line: str) -> None:
        """Appends a line this number of times, to the transcript or to the script."""
        if _OF_TRANSCRIPT.match(line):
            self._entries.append(f"{line}\n" * count)
            return
        word, _, rest = line.partition(" ")
        if word == "script":
            self._push(count, rest)
        elif word == "text":
            data = encoded(rest, "a text")
            if len(data) > MOST_TEXT:
                raise _BadPlace("a text has at most 255 bytes")
            self._push(count, f"serial {data.hex()}0a")
        elif word == "mote":
            raise _BadPlace("a run with a line mote begins with a line network")
        elif word not in ("tick", "serial", "frame"):
            raise BadScenario(f"unknown word {word}")
        elif has_form(line):
            self._push(count, line)
        else:
            raise BadScenario(f"{line} is no line of a script")

    def _push(self, count: int, line: str) -> None:
        self._refuse_behind_last()
        self.clock += (ticks_of(line) or 0) * count
        self._inputs.append(f"{line}\n" * count)

    def _refuse_behind_last(self) -> None:
        if self.has_ended:
            raise _BadPlace("the script has ended with its last line")


class _BadPlace(BadScenario):
    """A line is well formed, and can't be there."""


def is_line(line: str) -> bool:
    """Whether a line is one of a scenario file, apart from comments and empty lines, which other files have, too.

    >>> is_line("app hello"), is_line("4 answer done -> wait"), is_line("# hello"), is_line("1 2 3")
    (True, True, False, False)
    """
    if not line or line.startswith("#"):
        return False
    if line.startswith("== ") or line == "network":
        return len(line) > len("== ")
    if _OF_TRANSCRIPT.match(line) and not _OF_PROGRAM.match(line):
        return Transcript(line).is_well_formed
    try:
        Scenario()._read_line(line)
    except NotInPython:
        return True
    except (BadCall, BadInput, BadScenario):
        return False
    return True


def _flaw_of(line: str) -> str | None:
    """What is hard to see in a malformed line."""
    return next((words for form, words in _FLAWS if form.search(line)), None)


def _parts(text: str) -> Iterator[tuple[str | None, int, list[str]]]:
    """The runs of a file: the name, the number of the first line below it, and the lines."""
    lines = text.split("\n")
    heads = [place for place, line in enumerate(lines) if line.startswith("== ")]
    if not heads:
        yield None, 1, lines
        return
    for place, line in enumerate(lines[:heads[0]]):
        if line and not line.startswith("#"):
            raise BadScenario(f"line {place + 1}: a line above the first run")
    names: set[str] = set()
    for head, end in zip(heads, [*heads[1:], len(lines)]):
        name = lines[head][3:]
        if not name or name in names:
            raise BadScenario(f"line {head + 1}: {f'two runs have the name {name}' if name else 'a run has no name'}")
        names.add(name)
        yield name, head + 2, lines[head + 1:end]


def _scenario_of(name: str | None, first_line: int, lines: list[str]) -> Scenario:
    """A run of a mote or of a network, whose lines are to be read."""
    from .network_scenario import NetworkScenario

    is_network = next((line for line in lines if line and not line.startswith("#")), "") == "network"
    return NetworkScenario(name, first_line) if is_network else Scenario(name, first_line)


def read_scenarios(text: str) -> list[Scenario]:
    """The runs of a file, by its text; raises BadScenario at the first malformed line. One of a network is a NetworkScenario.

    >>> read_scenarios("calls wait, kill")
    Traceback (most recent call last):
    toarmuts.errors.BadScenario: line 1: kill lacks a word
    """
    if not isinstance(text, str):
        raise WrongType(f"scenarios are read from the text of a file, a str, not {type(text).__name__}")
    try:
        text.encode("utf-8")
    except UnicodeEncodeError as fault:
        number = text.count("\n", 0, fault.start) + 1
        raise BadScenario(f"line {number}: a text must be text in UTF-8, which {text[fault.start:fault.end]!r} is not") from None
    made = []
    for name, first_line, lines in _parts(text):
        scenario = _scenario_of(name, first_line, lines)
        for number, line in enumerate(lines, first_line):
            try:
                scenario._read_line(line)
            except (NotInPython, _BadPlace) as fault:
                raise (NotInPython if isinstance(fault, NotInPython) else BadScenario)(f"line {number}: {fault}") from None
            except (BadCall, BadInput, BadScenario) as fault:
                words = fault.reason if isinstance(fault, BadCall) else str(fault)
                raise BadScenario(f"line {number}: {_flaw_of(line) or words}") from None
        scenario._end_reading()
        made.append(scenario)
    return made


def read_file(path: Union[str, pathlib.Path]) -> list[Scenario]:
    """The runs of a file."""
    try:
        text = pathlib.Path(path).read_bytes().decode("utf-8")
    except UnicodeDecodeError:
        raise BadScenario(f"{path}: not text") from None
    try:
        return read_scenarios(text)
    except BadScenario as fault:
        raise BadScenario(f"{path}: {fault}") from None


def write(run: Run, *, name: str | None = None, comment: str = "", transcript: bool = True) -> str:
    """The text of a file with a run."""
    if name is not None and not isinstance(name, str):
        raise WrongType(f"a run's name must be a str or None, not {type(name).__name__}")
    if name is not None and (not name or "\n" in name):
        raise BadScenario(f"a run's name must have no line end: {name!r}" if name else "a run's name is empty")
    if not isinstance(comment, str):
        raise WrongType(f"a comment must be a str, not {type(comment).__name__}")
    try:
        encoded((name or "") + comment, "a name or a comment")
    except BadInput as fault:
        raise BadScenario(str(fault)) from None
    lines = [f"# {line}".rstrip() for line in comment.splitlines()]
    lines += [f"== {name}"] if name is not None else []
    lines += _option_lines(run.options)
    lines += [_application_line(run, place) for place in range(len(run.named))]
    lines += _script_lines(run.script)
    if transcript:
        lines += run.text.splitlines()
        lines += [f"ends {run.ended}"] if not run.text or not run.finished else []
    return "\n".join(lines) + "\n"


def _option_lines(options: Options) -> list[str]:
    usual = Options()
    sizes = [(name, getattr(options, name)) for name in RULES.sizes]
    return [f"{name} {size}" for name, size in sizes if size != getattr(usual, name)] + (["quiet"] if options.quiet else [])


def _application_line(run: Run, place: int) -> str:
    named = run.named[place]
    if named.line is None:
        return " ".join(["calls", ", ".join(made_calls(run.transcript, FIRST_PROCESS + place))]).rstrip()
    return named.line if named.line.startswith("calls") else f"app {named.line}"


def made_calls(transcript: Transcript, process: int) -> Iterable[str]:
    """The calls that an application made, as a list has them: equal ones in a row are counted, and the last waits left out."""
    if transcript.quiet:
        raise BadScenario("a quiet run doesn't show the calls of an application in Python: run it with quiet=False")
    calls: list[Call] = [turn.call for turn in transcript.turns(process)]
    while calls and calls[-1] == Wait():
        calls.pop()
    if len(calls) > MOST_CALLS:
        raise BadScenario(f"process {process} made {len(calls)} calls; a list in a file has at most {MOST_CALLS}")
    counted: list[tuple[int, Call]] = []
    for call in calls:
        if counted and counted[-1][1] == call:
            counted[-1] = (counted[-1][0] + 1, call)
        else:
            counted.append((1, call))
    return [str(call) if count == 1 else f"{count} {call}" for count, call in counted]


def _script_lines(script: bytes) -> list[str]:
    """The lines of a script as a file has them."""
    try:
        text = script.decode("utf-8")
    except UnicodeDecodeError:
        raise BadScenario("the script is not text, so no file can have it") from None
    *whole, last = text.split("\n")
    lines = [line if line and not line.startswith("#") and has_form(line) else f"script {line}" for line in whole]
    return lines + ([f"last {last}"] if last else [])
