"""The processors that a module can be retargeted to."""
from __future__ import annotations

from collections.abc import Mapping
from dataclasses import dataclass, field

from ..forms import Forms


@dataclass(frozen=True)
class Target:
    """A processor with little-endian addresses of 32 bits.

    ``options`` are clang's for this processor. ``stand_ins`` has, for some C functions that a module declares, the text in LLVM's
    language that stands in their place.
    """

    name: str
    triple: str
    data_layout: str
    options: tuple[str, ...]
    forms: Forms
    largest_alignment: int
    stand_ins: Mapping[str, str] = field(default_factory=dict)

    def align(self, wanted: str) -> int:
        """The alignment that replaces the one in a module: at most that of the C library's malloc."""
        return min(int(wanted), self.largest_alignment)
