"""What a run of a mote and one of a network have in common: how it ended, and its transcript."""
from __future__ import annotations

from typing import TYPE_CHECKING, TypeVar, cast

from .difference import Difference, TranscriptLike, first_difference
from .errors import RunEnded
from .values import End, Status

if TYPE_CHECKING:
    from .network_runs import NetworkRun
    from .network_transcript import NetworkTranscript
    from .runs import Run
    from .transcript import Transcript

_ENDS = {Status.FINISHED: End.FINISHED, Status.BAD_LINE: End.BAD_LINE, Status.HALTED: End.HALTED, Status.TOO_LONG: End.TOO_LONG}

AnyResult = TypeVar("AnyResult", bound="Result")


class Result:
    """A run's result."""

    status: Status
    line: int | None
    transcript: Transcript | NetworkTranscript

    def _bad_line(self, line: int) -> str:
        """The text of the script's line of this number."""
        raise NotImplementedError

    @property
    def end(self) -> End:
        """How it ended."""
        return _ENDS[self.status]

    @property
    def ended(self) -> str:
        """How it ended, in the words of ``ends`` in a scenario, with the number of a malformed line."""
        return f"{self.end.value} {self.line}" if self.status is Status.BAD_LINE else self.end.value

    @property
    def finished(self) -> bool:
        """Whether the script was executed to its end."""
        return self.status is Status.FINISHED

    def check(self: AnyResult) -> AnyResult:
        """Returns the run; raises RunEnded where the script wasn't executed to its end."""
        if not self.finished:
            # Quotes show the line's blanks and line ends.
            line = "" if self.line is None else f", {self._bad_line(self.line)!r}"
            raise RunEnded(f"the run ended with: {self.ended}{line}", cast("Run | NetworkRun", self))
        return self

    @property
    def text(self) -> str:
        """The transcript as text."""
        return self.transcript.data.decode("ascii")

    def difference(self, wanted: TranscriptLike) -> Difference | None:
        """The first line in which the transcript differs from another one, or from that of another run; or None."""
        return first_difference(wanted, self.transcript)

    def _repr_svg_(self) -> str | None:
        """The picture in a notebook; None where no program draws it, and where it would be larger than a megabyte."""
        from .picture import draw_once

        return draw_once(cast("Run | NetworkRun", self), "svg")

    def _repr_html_(self) -> str | None:
        """The first entries in words, where a notebook shows no picture."""
        from .picture import draw_once, table_for_notebook

        return None if draw_once(cast("Run | NetworkRun", self), "html") is not None else table_for_notebook(self.transcript, self.ended)

    def __str__(self) -> str:
        return self.text
