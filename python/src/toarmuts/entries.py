"""What the transcripts of a mote and of a network have in common: a text, of which the entries are made on demand."""
from __future__ import annotations

from collections.abc import Iterator, Sequence
from typing import ClassVar, TypeVar, overload

from .errors import WrongType

AnyEntry = TypeVar("AnyEntry")


def data_of(text: str | bytes) -> bytes:
    """The bytes of a transcript's text."""
    if not isinstance(text, (str, bytes)):
        raise WrongType(f"a transcript must be a str or bytes, not {type(text).__name__}")
    return text.encode("utf-8", "surrogatepass") if isinstance(text, str) else text


class Entries(Sequence[AnyEntry]):
    """The entries of a text."""

    _kind: ClassVar[str]
    """The name of the public class. Transcripts of two kinds are never equal."""

    @property
    def data(self) -> bytes:
        """Its text as bytes."""
        raise NotImplementedError

    def _all(self) -> list[AnyEntry]:
        """All entries, made at the first use."""
        raise NotImplementedError

    @overload
    def __getitem__(self, place: int) -> AnyEntry: ...

    @overload
    def __getitem__(self, place: slice) -> list[AnyEntry]: ...

    def __getitem__(self, place: int | slice) -> AnyEntry | list[AnyEntry]:
        return self._all()[place]

    def __iter__(self) -> Iterator[AnyEntry]:
        return iter(self._all())

    def __contains__(self, entry: object) -> bool:
        if isinstance(entry, (str, bytes)):
            raise WrongType("a transcript has entries: look for a text in its data, or in the text of its run")
        return entry in self._all()

    def __eq__(self, other: object) -> bool:
        return isinstance(other, Entries) and self._kind == other._kind and self.data == other.data

    def __hash__(self) -> int:
        return hash(self.data)

    def __str__(self) -> str:
        return self.data.decode("ascii", "replace")

    def __repr__(self) -> str:
        return f"<{self._kind} of {len(self)} lines>"
