"""How values lie in memory on x86-64, which the proved build's module assumes, and which every target keeps."""
from __future__ import annotations

SIZES = {"ptr": 8, "double": 8, "float": 4, "i1": 1}


def members(aggregate: str) -> list[str]:
    """The types of the members of ``{ i8, ptr }``."""
    return aggregate.strip("{} ").split(", ")


def size_of(scalar: str) -> int:
    """The bytes that a scalar has in memory on x86-64, which are its alignment, too."""
    return SIZES.get(scalar) or int(scalar[1:]) // 8


def offsets(scalars: list[str]) -> list[int]:
    end, found = 0, []
    for scalar in scalars:
        size = size_of(scalar)
        start = -(-end // size) * size
        found.append(start)
        end = start + size
    return found


def alignment_at(offset: int, alignment: int) -> int:
    """The largest alignment of something at an offset within a whole of this alignment, a power of 2."""
    while offset % alignment:
        alignment //= 2
    return alignment
