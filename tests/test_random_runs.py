"""Random lists of calls, which the program scenario runs: replies to calls on memory beside a plain replay, and the laws of every run."""

import random
import re
from pathlib import Path

import pytest

from call_rules import CALLS
from plain_memory import Memory, wrong_lines
from random_calls import random_call
from run_laws import broken_laws
from tools import output_of, succeed

RUNS = 1000
PART = 250
APPLICATIONS = 8
# So many of a part are executed in pieces, too.
IN_PIECES = 25
LONGEST_LIST = 128
ON_MEMORY = [rule for name, rule in CALLS.items() if name.startswith(("mmem-", "heap-", "memb-", "list-"))]
# Drawn more often, so that more is live.
ALLOCATING = [CALLS[name] for name in ("mmem-alloc", "heap-alloc", "memb-alloc", "list-add")]
OTHERS = [rule for name, rule in CALLS.items() if rule not in ON_MEMORY and name not in ("wait", "exit", "kill")]
ENDING = [CALLS[name] for name in ("wait", "exit", "kill")]


def random_sizes(chance: random.Random) -> dict[str, int]:
    """Small, so that memory runs short. With a quota managed memory has room for all nine: eight applications, and the frames."""
    sizes = {"mmem": 4 * chance.randrange(20, 100), "heap": 4 * chance.randrange(20, 200), "header": chance.choice([8, 16])}
    if chance.random() < 0.4:
        sizes["quota"] = 4 * chance.randrange(1, sizes["mmem"] // 36 + 1)
    return sizes


def busy_call(chance: random.Random) -> str:
    """Few calls end an activation, since an event must come before a process goes on."""
    rules, = chance.choices([ON_MEMORY, ALLOCATING, OTHERS, ENDING], [50, 25, 24, 1])
    return random_call(chance, rules)


def scenario_of(seed: int) -> tuple[str, dict[str, int]]:
    chance = random.Random(seed)
    sizes = random_sizes(chance)
    lists = ("calls " + ", ".join(busy_call(chance) for _ in range(LONGEST_LIST)) for _ in range(APPLICATIONS))
    lines = [f"== {seed}", *(f"{name} {size}" for name, size in sizes.items()), *lists, "times 20 tick 7"]
    return "\n".join(lines) + "\n", sizes


@pytest.mark.parametrize("first", range(0, RUNS, PART))
def test_random_runs(scenario: Path, tmp_path: Path, first: int) -> None:
    runs = [scenario_of(seed) for seed in range(first, first + PART)]
    (tmp_path / "runs").write_text("".join(text for text, _ in runs), encoding="utf-8")
    transcripts = re.split(r"^== \d+\n", succeed(scenario, "runs", cwd=tmp_path).stdout.decode(), flags=re.M)[1:]
    assert len(transcripts) == len(runs)
    for transcript, (text, sizes) in zip(transcripts, runs):
        memory = Memory(sizes["mmem"], sizes["heap"], sizes["header"], sizes.get("quota"))
        wrong = wrong_lines(transcript, memory)
        assert not wrong, f"{text}\n" + "\n".join(wrong[:3])
        assert broken_laws(APPLICATIONS, transcript) == {}, text
    # `--thorough` executes in pieces only runs that have a transcript.
    kept_runs = [text + transcript for transcript, (text, _) in zip(transcripts[:IN_PIECES], runs)]
    (tmp_path / "runs").write_text("".join(kept_runs), encoding="utf-8")
    kept = succeed(scenario, "--thorough", "runs", cwd=tmp_path)
    assert kept.stdout == f"runs: {IN_PIECES} of {IN_PIECES} runs as told, {15 * IN_PIECES} in pieces\n".encode(), output_of(kept)
