"""Targets of campaigns.

    toarmuts-campaign target.py:Lists --seeds 0:32
    toarmuts-campaign target.py:Supervised --seeds 0:32
    toarmuts-campaign target.py:Repaired --seeds 0:32
"""
from __future__ import annotations

import pathlib
import random
import sys

sys.path.insert(0, str(pathlib.Path(__file__).parent))

from journal import Journal, RepairedJournal, fault_of  # noqa: E402

from toarmuts import Call, Kill, Options, Poll, Post, Run, Start, TimerSet, Wait  # noqa: E402
from toarmuts.campaign import Case, make_case  # noqa: E402
from toarmuts.rules import RULES  # noqa: E402

WORDS = [name for name in RULES.calls if name not in ("exit", "kill")]


def draw_argument(chance: random.Random, name: str) -> object:
    """An argument of a call, small and mostly one that names something."""
    if name == "process":
        return chance.randrange(4, 8)
    if name == "code":
        return chance.choice((140, 141, 134))
    if name == "payload":
        return chance.choice((None, chance.randrange(10), b"x"))
    if name == "data":
        return chance.randbytes(chance.randrange(9))
    return chance.choice((0, 0, 1, 2, 5, 16, 60))


def draw_call(chance: random.Random) -> Call:
    """A call of any kind but those that end processes."""
    word = chance.choice(WORDS)
    return Call.by_word[word](*(draw_argument(chance, name) for name in RULES.calls[word].arguments))


def draw_line(chance: random.Random) -> str:
    """A line of a script."""
    kind = chance.randrange(4)
    if kind < 2:
        return f"tick {chance.choice((0, 1, 2, 5, 10, 40))}"
    return f"serial {chance.choice(('61', '6162', ''))}0a" if kind == 2 else f"frame {chance.randbytes(chance.randrange(1, 20)).hex()}"


class Lists:
    """Lists of calls, and a rule of one's own: nobody frees a block that is in a list."""

    def draw(self, chance: random.Random) -> Case:
        """Up to four lists."""
        lists = [[draw_call(chance) for _ in range(chance.randrange(4, 60))] for _ in range(chance.randrange(1, 5))]
        return make_case(lists, [draw_line(chance) for _ in range(chance.randrange(12))], Options(mmem=chance.choice((64, 128, 256))))

    def check(self, run: Run) -> str | None:
        """What is wrong."""
        if b"refused 14" not in run.transcript.data:
            return None
        freed = any(turn.call.word == "memb-free" and turn.refusal == 14 for turn in run.transcript.refused())
        return "a block in a list is freed" if freed else None


class Supervised:
    """The journal beside a supervisor that makes random calls."""

    application = Journal

    def draw(self, chance: random.Random) -> Case:
        """The journal, a supervisor, and a script."""
        calls = (Kill(4), Start(4), Poll(4), Post(4, 140), TimerSet(0, 5), Wait())
        supervisor = [chance.choice(calls) for _ in range(chance.randrange(12))]
        return make_case([self.application, supervisor], [draw_line(chance) for _ in range(chance.randrange(8))])

    def check(self, run: Run) -> str | None:
        """What is wrong."""
        return fault_of(run)


class Repaired(Supervised):
    """The same with the repaired journal."""

    application = RepairedJournal
