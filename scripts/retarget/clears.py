"""Clears a local where it is used first, and not where the function begins.

The kit's compiler clears all locals in a function's first block. Where some path uses a local only later, LLVM keeps that, and so each
copy of a large value keeps its own room on the stack. Here the clear of a local moves down to the last block that is before all its uses
and in no loop. Nothing on the way there names the local, so no step of the function sees the difference.
"""
from __future__ import annotations

import re
from collections.abc import Iterable, Iterator

from .forms import INTEGER, LOCAL, NAME

LABEL = re.compile(rf"({NAME}):")
TARGET = re.compile(rf"label %({NAME})")
NAMED = re.compile(LOCAL)
ALLOCA = re.compile(rf"  ({LOCAL}) = alloca ")
CLEAR = re.compile(rf"  call void @llvm\.memset\.p0\.{INTEGER}\(ptr ({LOCAL}), i8 0, {INTEGER} \d+, i1 false\)")


class Flow:
    """The blocks of a function, by their positions: the lines of each, and where it goes on."""

    def __init__(self, body: Iterable[str]) -> None:
        self.labels: list[str] = []
        self.lines: list[list[str]] = []
        for line in body:
            label = LABEL.fullmatch(line)
            if label:
                self.labels.append(label[1])
                self.lines.append([])
            else:
                self.lines[-1].append(line)
        places = {label: place for place, label in enumerate(self.labels)}
        self.next = [[places[it] for line in lines for it in TARGET.findall(line)] for lines in self.lines]
        self.order = self._order()
        self.number = {block: number for number, block in enumerate(self.order)}
        # For each block the last one through which all ways to it lead, other than itself.
        self.before = {0: 0}
        self._find_before()

    def _order(self) -> list[int]:
        """The blocks that can be reached, each before those that it alone leads to."""
        found, left = [], [(0, iter(self.next[0]))]
        seen = {0}
        while left:
            block, later = left[-1]
            fresh = next((it for it in later if it not in seen), None)
            if fresh is None:
                found.append(block)
                left.pop()
            else:
                seen.add(fresh)
                left.append((fresh, iter(self.next[fresh])))
        return found[::-1]

    def _find_before(self) -> None:
        leading: dict[int, list[int]] = {block: [] for block in self.order}
        for block in self.order:
            for it in self.next[block]:
                leading[it].append(block)
        is_settled = False
        while not is_settled:
            is_settled = True
            for block in self.order[1:]:
                found = self.shared(it for it in leading[block] if it in self.before)
                is_settled &= self.before.get(block) == found
                self.before[block] = found

    def shared(self, blocks: Iterable[int]) -> int:
        """The last block through which all ways to these lead."""
        found: int | None = None
        for other in blocks:
            one = other if found is None else found
            while one != other:
                if self.number[one] > self.number[other]:
                    one = self.before[one]
                else:
                    other = self.before[other]
            found = one
        assert found is not None
        return found

    def is_in_loop(self, block: int) -> bool:
        seen: set[int] = set()
        left = [*self.next[block]]
        while left and block not in seen:
            it = left.pop()
            left += [] if it in seen else self.next[it]
            seen.add(it)
        return block in seen

    def users(self, name: str) -> list[int]:
        """The blocks that name a local and can be reached."""
        return [block for block in self.order if any(name in NAMED.findall(line) for line in self.lines[block])]

    def body(self) -> Iterator[str]:
        for label, lines in zip(self.labels, self.lines):
            yield f"{label}:"
            yield from lines


def clears_of(flow: Flow) -> dict[str, str]:
    """The locals that the first block makes and clears, and does nothing else with: each one's clear."""
    first, found = flow.lines[0], {}
    made = {made[1] for line in first if (made := ALLOCA.match(line))}
    counts: dict[str, int] = {}
    for line in first:
        for name in NAMED.findall(line):
            counts[name] = counts.get(name, 0) + 1
        clear = CLEAR.fullmatch(line)
        if clear and clear[1] in made:
            found[clear[1]] = line
    return {name: line for name, line in found.items() if counts[name] == 2}


def sink_clears(flow: Flow) -> None:
    for name, clear in clears_of(flow).items():
        users = [block for block in flow.users(name) if block != 0]
        place = flow.shared(users) if users else 0
        while place != 0 and flow.is_in_loop(place):
            place = flow.before[place]
        if place != 0:
            flow.lines[0].remove(clear)
            flow.lines[place].insert(0, clear)


def with_clears_sunk(text: str) -> str:
    """A module's text, where each clear is at the last block that is before all uses of what it clears."""
    lines: list[str] = []
    body: list[str] = []
    is_inside = False
    for line in text.splitlines():
        if is_inside and line != "}":
            body.append(line)
            continue
        if is_inside:
            flow = Flow(it for it in body if it)
            sink_clears(flow)
            lines += flow.body()
        is_inside, body = line.startswith("define "), []
        lines.append(line)
    return "\n".join(lines) + "\n"
