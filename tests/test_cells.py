"""Each rule is shown by a stored transcript: each call with each of its answers, each event with each way in which it comes to a process,
each payload, note and end. What no transcript shows is named, and so is what the rules don't know.
"""

import functools
import re
from typing import Iterator

import pytest

from call_rules import RULES
from stored_runs import ALL, PLACES, SAMPLES, names, runs_of, stored_run

# The calls, with the answers that each may have: a number is a refusal, `none` is a call that has no answer.
ANSWERS: dict[str, list[str]] = {
    rule["name"]: [*map(str, rule["refusals"]), *({"flag": ["true", "false"]}.get(rule["reply"], [rule["reply"] or "none"]))]
    for rule in RULES["calls"]}
# The events that come each way: what is posted with a code that isn't reserved, and what the kernel gives. `own` is a number that
# an application may have drawn, `low` one below the kernel's.
EVENTS = {"event": "low 133 134 136 137 138 139 own", "synch": "low 129 131 133 134 135 137 own", "poll": "130", "callback": "expiry"}
# What an event carries that is posted, or given at once.
PAYLOADS = ["none", "a number", "a line"]
# What the other lines of a transcript begin with.
OTHERS = ["note lost 1", "note lost 12", "note lost 18", "note sent", "> tick", "> serial", "> frame", "halt", "bad line", "too long"]
# What no stored transcript can show.
OUT_OF_REACH = {
    "timer-reset: 11": "a timer would have to begin near 2^63: the longest script, of a million lines `tick 4294967295`, brings the "
    "clock below 2^53, and the 128 calls of a list bring a timer less than 2^39 further",
    "too long": "its script has more than 16,777,216 bytes; tests/test_program.py makes one",
}

TURN = re.compile(r"(\d+) (event|synch|poll|callback|answer) (.*) -> ([a-z-]+)(?: .*)?")


def possible_cells() -> Iterator[str]:
    for call, answers in ANSWERS.items():
        yield from (f"{call}: {answer}" for answer in answers)
    for origin, events in EVENTS.items():
        yield from (f"{origin}: {event}" for event in events.split(" "))
    for origin in ("event", "synch"):
        yield from (f"{origin} with {payload}" for payload in PAYLOADS)
    yield from OTHERS


def answer_shown(answer: str) -> str:
    kind, _, value = answer.partition(" ")
    return value if kind in ("refused", "flag") else kind


def event_cells(origin: str, stimulus: str) -> Iterator[str]:
    """The cells that an event shows by its origin, and by its data if an application chose that."""
    if origin == "callback":
        yield "callback: expiry"
        return
    code, payload = stimulus.split(" ")
    number = int(code)
    yield f"{origin}: {'own' if number >= 140 else 'low' if number < 128 else code}"
    if number >= 140:
        yield f"{origin} with {'none' if payload == '-' else 'a line' if payload[0] == 'x' else 'a number'}"


def shown_cells(transcript: str) -> Iterator[str]:
    awaited: dict[str, str] = {}
    for line in transcript.splitlines():
        turn = TURN.fullmatch(line)
        if turn is None:
            yield next((other for other in OTHERS if line == other or line.startswith(other + " ")), line)
            continue
        process, origin, stimulus, call = turn.groups()
        if origin != "answer":
            yield from event_cells(origin, stimulus)
        elif process in awaited:
            yield f"{awaited.pop(process)}: {answer_shown(stimulus)}"
        if call in ("wait", "exit"):
            yield f"{call}: none"
        else:
            awaited[process] = call


@functools.lru_cache(maxsize=None)
def shown() -> dict[str, str]:
    """What the stored transcripts show, each with one of them. In a quiet one turns are missing, so the call of a reply isn't known."""
    runs = [stored_run(name) for name in ALL]
    return {cell: run.name for run in runs if not run.is_quiet for cell in shown_cells(run.transcript)}


@pytest.mark.parametrize("kind", PLACES)
def test_stored_runs(kind: str) -> None:
    """The runs that other tests look at, too, are all that are there."""
    assert list(runs_of(kind)) == names(kind) != []


def test_samples() -> None:
    assert SAMPLES


@pytest.mark.parametrize("cell", sorted(set(possible_cells()) - OUT_OF_REACH.keys()))
def test_cell(cell: str) -> None:
    assert cell in shown()


@pytest.mark.parametrize("cell", OUT_OF_REACH)
def test_cell_out_of_reach(cell: str) -> None:
    assert cell in possible_cells() and cell not in shown()


def test_no_other_cells() -> None:
    assert {cell: run for cell, run in shown().items() if cell not in set(possible_cells())} == {}
