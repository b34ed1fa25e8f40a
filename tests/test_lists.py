"""Random lists of calls, carried out by the program scenario: each of the right form is taken, and made as its words say."""

import random
from pathlib import Path

import pytest

from call_rules import LETTERS
from tools import run, succeed

# Each call with the letters of what follows its name. `wait` and `exit` end an activation, so they stand in no list here but at its end.
CALLS = [(name, kinds) for name, kinds in LETTERS.items() if name not in ("wait", "exit")]
# Words that are of no kind at all, but for two that are bytes.
BYTES = ("01", "4294967296")
SPOILT = ["", "+1", "01", "1g", "0x1", "X41", "x4", "x4g", "4294967296", "--", "x" + 128 * "00"]
LISTS = 2000
SPOILT_LISTS = 300
PART = 100


def hex_word(chance: random.Random, most: int) -> str:
    count = chance.choice([0, 1, most, chance.randint(1, most)])
    return "".join(chance.choice("0123456789abcdefABCDEF") for _ in range(2 * count))


def word_of(chance: random.Random, kind: str) -> str:
    if kind in "sn":
        bits = 8 if kind == "s" else 32
        return str(chance.choice([0, 2**bits - 1, chance.getrandbits(4), chance.getrandbits(bits)]))
    if kind == "b":
        return hex_word(chance, 64) or "-"
    return chance.choice(["-", word_of(chance, "n"), "x" + hex_word(chance, 127)])


def call_of(chance: random.Random, name: str, kinds: str) -> str:
    return " ".join([name, *(word_of(chance, kind) for kind in kinds)])


def list_of(chance: random.Random) -> tuple[str, list[str]]:
    parts: list[str] = []
    calls: list[str] = []
    while not parts or (len(calls) < 128 and chance.random() < 0.95):
        call = call_of(chance, *chance.choice(CALLS))
        count = chance.choice([0, 0, 0, 1, chance.randint(1, 128 - len(calls)), 128 - len(calls)])
        parts.append(f"{count} {call}" if count else call)
        calls += [call.lower()] * max(1, count)
    if len(calls) < 128:
        calls.append(chance.choice(["wait", "exit"]))
        parts.append(calls[-1])
    return ", ".join(parts), calls


def spoilt_list(chance: random.Random) -> str:
    """The text of a call with one word spoilt, or one more, or its name in other letters."""
    name, kinds = chance.choice([call for call in CALLS if call[1]])
    words = call_of(chance, name, kinds).split(" ")
    chosen = chance.randrange(len(words) + 2)
    if chosen == 0:
        words[0] = name.upper()
    elif chosen < len(words):
        words[chosen] = chance.choice([word for word in SPOILT if kinds[chosen - 1] != "b" or word not in BYTES])
    elif chosen == len(words):
        words.append("0")
    else:
        words.pop()
    return " ".join(words)


def test_lists(scenario: Path, tmp_path: Path) -> None:
    chance = random.Random(7)
    lists = [list_of(chance) for _ in range(LISTS)]
    (tmp_path / "runs").write_text("".join(f"== {number}\ncalls {text}\n" for number, (text, _) in enumerate(lists)), encoding="utf-8")
    transcripts = succeed(scenario, "runs", cwd=tmp_path).stdout.decode().split("== ")[1:]
    assert len(transcripts) == len(lists)
    for transcript, (text, calls) in zip(transcripts, lists):
        made = [line.partition(" -> ")[2] for line in transcript.splitlines() if line.startswith("4 ")]
        assert made[: len(calls)] == calls, text


@pytest.mark.parametrize("first", range(0, SPOILT_LISTS, PART))
def test_spoilt_lists(scenario: Path, tmp_path: Path, first: int) -> None:
    for seed in range(first, first + PART):
        text = spoilt_list(random.Random(seed))
        (tmp_path / "runs").write_text(f"calls {text}\n", encoding="utf-8")
        ran = run(scenario, "runs", cwd=tmp_path)
        assert ran.returncode == 2 and ran.stderr.startswith(b"scenario: runs: line 1: "), text
