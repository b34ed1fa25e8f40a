"""The first line in which two transcripts differ."""
from __future__ import annotations

import re
from dataclasses import dataclass
from typing import Protocol, Union

from .errors import ToarmutsError, WrongType
from .network_transcript import NetworkTranscript
from .transcript import Transcript


_CLOCK = re.compile("(> tick|=) ([0-9]{1,20})")


@dataclass(frozen=True)
class Difference:
    """A line that differs. Where a transcript ends before it, its text is None.

    >>> difference = first_difference("> tick 1\\nnote lost 12\\n", "> tick 1\\nnote lost 1\\n")
    >>> print(difference)
    line 2 of the transcript differs, at clock 1
              > tick 1
    wanted:   note lost 12
              the frame was lost: memory has no room for it
    found:    note lost 1
              the frame was lost: the event queue is full; of a frame: 8 are held
    """

    line: int
    """Its number, from 1 on."""
    wanted: str | None
    found: str | None
    before: tuple[str, ...]
    """The lines before it, three at most."""
    clock: int
    """The ticks since boot, by the ticks above it."""

    def __str__(self) -> str:
        lines = [f"line {self.line} of the transcript differs, at clock {self.clock}", *(f"          {line}" for line in self.before)]
        for name, text in (("wanted:   ", self.wanted), ("found:    ", self.found)):
            lines += [name + ("the transcript ends" if text is None else text), *_in_words(text)]
        return "\n".join(lines)


def _in_words(text: str | None) -> list[str]:
    """The line in words, if it is one of a transcript."""
    if not text:
        return []
    for kind in (Transcript, NetworkTranscript):
        try:
            return ["          " + kind(text)[0].explain()]
        except (ToarmutsError, ValueError):
            pass
    return ["          (not a line of a transcript)"]


class HasTranscript(Protocol):
    """A run, for one."""

    @property
    def transcript(self) -> Transcript | NetworkTranscript:
        """Its transcript."""


TranscriptLike = Union[str, bytes, Transcript, NetworkTranscript, HasTranscript]


def _lines(compared: TranscriptLike) -> list[str]:
    is_transcript = isinstance(compared, (str, bytes, Transcript, NetworkTranscript))
    transcript: object = compared if is_transcript else getattr(compared, "transcript", None)
    data = getattr(transcript, "data", transcript)
    if not isinstance(data, (str, bytes)):
        raise WrongType(f"what is compared must be a str, bytes, Transcript or Run, not {type(compared).__name__}")
    text = data.decode("utf-8", "replace") if isinstance(data, bytes) else data
    lines = text.split("\n")
    return lines if lines[-1] else lines[:-1]


def first_difference(wanted: TranscriptLike, found: TranscriptLike) -> Difference | None:
    """The first line in which two transcripts differ, or None if they are the same. They may be text, bytes, transcripts or runs."""
    ours, theirs = _lines(wanted), _lines(found)
    if ours == theirs:
        return None
    place = next((at for at, (one, other) in enumerate(zip(ours, theirs)) if one != other), min(len(ours), len(theirs)))
    return Difference(place + 1, ours[place] if place < len(ours) else None, theirs[place] if place < len(theirs) else None,
                      tuple(theirs[max(0, place - 3):place]), _clock_after(theirs[:place]))


def _clock_after(lines: list[str]) -> int:
    """The clock after lines of a mote, which have the ticks that go by, or of a network, which have the clock. Other text has none."""
    clock = 0
    for line in lines:
        found = _CLOCK.fullmatch(line)
        if found is not None:
            clock = int(found[2]) + (clock if found[1] == "> tick" else 0)
    return clock
