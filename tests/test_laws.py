"""The laws of memory, events and timers in stored transcripts, by the walks of tests/run_laws.py, and what these notice in spoilt ones.

tests/test_random_runs.py walks over random runs.
"""

from pathlib import Path

import pytest

from run_laws import broken_laws
from stored_runs import PLACES, files, runs_of
from tools import cases

# A slide and a new block, copies and resizes, refusals, and a frame that is sent.
MEMORY = """\
4 synch 129 - -> mmem-alloc 0 10
4 answer done -> mmem-alloc 1 2
4 answer done -> mmem-write 1 0 0102
4 answer done -> mmem-free 0
4 answer done -> mmem-read 1 0 2
4 answer bytes 0102 -> mmem-alloc 2 4
4 answer done -> mmem-read 2 0 4
4 answer bytes 00000000 -> mmem-read 0 0 1
4 answer refused 9 -> mmem-alloc 1 1
4 answer refused 8 -> mmem-copy 1 2
4 answer done -> packet-send 2
note sent 01020000
4 answer done -> heap-alloc 0 4
4 answer done -> heap-write 0 0 05060708
4 answer done -> heap-realloc 0 2
4 answer done -> heap-realloc 0 3
4 answer done -> heap-read 0 0 3
4 answer bytes 050600 -> wait
"""
# Two posts and a broadcast.
EVENTS = """\
4 synch 129 - -> wait
5 synch 129 - -> post 4 140 -
5 answer done -> post 4 141 7
5 answer done -> broadcast 142 -
5 answer done -> wait
4 event 140 - -> wait
4 event 141 7 -> wait
5 event 142 - -> wait
4 event 142 - -> wait
> tick 1
"""
# A timer that is set, and then reset.
TIMERS = """\
4 synch 129 - -> timer-set 0 5
4 answer done -> wait
> tick 4
> tick 1
4 event 136 0 -> timer-reset 0
4 answer done -> wait
> tick 5
4 event 136 0 -> wait
> tick 1
"""
# What keeps the laws, with the number of its applications.
KEPT = {"memory": (1, MEMORY), "events": (2, EVENTS), "timers": (1, TIMERS)}


@pytest.mark.parametrize("file", [file for kind in PLACES for file in files(kind)], ids=lambda file: str(file.name))
def test_stored_runs(file: Path) -> None:
    """A quiet transcript has no turns to walk over."""
    runs = [run for kind in PLACES for name, run in runs_of(kind).items() if name.startswith(f"{file.name}: ")]
    assert runs
    assert {run.name: broken for run in runs if not run.is_quiet and (broken := broken_laws(run.applications, run.transcript))} == {}


@pytest.mark.parametrize("law", KEPT)
def test_kept(law: str) -> None:
    assert broken_laws(*KEPT[law]) == {}


@pytest.mark.parametrize(("law", "part", "instead"), cases("spoilt_transcripts"))
def test_spoilt(law: str, part: str, instead: str) -> None:
    """With a part of it spoilt, where it is first, the transcript breaks its law."""
    applications, transcript = KEPT[law]
    assert part in transcript
    assert law in broken_laws(applications, transcript.replace(part, instead, 1))
