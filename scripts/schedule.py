"""The order in which ./prove starts crates: those with the longest way to what is wanted first. How many jobs run at once."""
from __future__ import annotations

import os
from dataclasses import dataclass
from pathlib import Path
from typing import Iterator, Mapping, Sequence

# A crate whose time isn't known counts as a minute.
UNKNOWN_SECONDS = 60
# A crate's niceness is 1 for each 30 seconds by which its way is shorter than the longest one, at most 10: it still gets a tenth of
# another one's share of a processor, so it never starves.
SECONDS_OF_NICENESS = 30
MOST_NICE = 10


def most_jobs(memory: int) -> int:
    """The number of jobs at once: RT_JOBS. Default: one for each processor, as far as each has this free memory, in kB."""
    fixed = os.environ.get("RT_JOBS", "")
    if fixed.isdigit() and int(fixed) > 0:
        return int(fixed)
    told = dict(line.split(":", 1) for line in Path("/proc/meminfo").read_text(encoding="ascii").splitlines())
    return max(1, min(len(os.sched_getaffinity(0)), int(told["MemAvailable"].split()[0]) // memory))


@dataclass(frozen=True)
class Share:
    """What a crate gets when it starts: the number of its jobs, and its niceness."""
    name: str
    jobs: int
    niceness: int


class Schedule:
    """The crates that must be proved, each after those below it."""

    def __init__(self, below: Mapping[str, Sequence[str]], seconds: Mapping[str, int], most: int) -> None:
        """The crates below each crate, the lowest first; the seconds of a check of each; and the most jobs at once."""
        self.below = below
        self.most = most
        self.left = list(below)
        self.under_way: dict[str, Share] = {}
        self.seconds = {name: seconds.get(name, UNKNOWN_SECONDS) for name in below}
        self.way = self._ways()

    def _ways(self) -> dict[str, int]:
        """The seconds from each crate's beginning to the end of what is wanted, on the longest way."""
        way = dict.fromkeys(self.below, 0)
        for name in reversed(list(self.below)):
            way[name] += self.seconds[name]
            for lower in self.below[name]:
                way[lower] = max(way[lower], way[name])
        return way

    def _ready(self) -> list[str]:
        """Those that aren't started and for which all crates below are proved, those with the longest way first."""
        found = [name for name in self.left
                 if name not in self.under_way and not any(lower in self.left for lower in self.below[name])]
        return sorted(found, key=lambda name: (-self.way[name], name))

    def _share(self, name: str) -> Share:
        """A crate on the longest way, or shorter by less than its own time, gets two jobs: each one more reads all libraries once more, and
        ends it no sooner. The others get one. A shorter way means a higher niceness."""
        off = max(self.way[it] for it in self.left) - self.way[name]
        jobs = 2 if self.most > 1 and off < self.seconds[name] else 1
        return Share(name, jobs, min(off // SECONDS_OF_NICENESS, MOST_NICE))

    def _has_room(self, share: Share) -> bool:
        """Up to one and a half times the most jobs are started at once. Crates with a shorter way that were ready before don't delay this
        one, except for memory: there are never more than twice the most jobs."""
        used = sum(it.jobs for it in self.under_way.values()) + share.jobs
        ahead = sum(it.jobs for it in self.under_way.values() if self.way[it.name] >= self.way[share.name]) + share.jobs
        return not self.under_way or used <= self.most * 2 and ahead <= self.most * 3 // 2

    def begin(self) -> Iterator[Share]:
        for name in self._ready():
            share = self._share(name)
            if not self._has_room(share):
                return
            self.under_way[name] = share
            yield share

    def ended(self, name: str) -> None:
        """A crate is proved."""
        del self.under_way[name]
        self.left.remove(name)


def read_seconds(text: str) -> dict[str, int]:
    """The times of scripts/prove-times: a crate and its seconds on a line."""
    rows = (line.partition("#")[0].split() for line in text.splitlines())
    return {row[0]: int(row[1]) for row in rows if len(row) == 2}
