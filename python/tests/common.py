"""What several tests take: where the repository is, and random runs."""
from __future__ import annotations

import pathlib
import random

from toarmuts import Call, Event, EventCode, Options, Print, Reply, TimerReset, TimerSet, Wait
from toarmuts.rules import RULES

ROOT = pathlib.Path(__file__).resolve().parents[2]
NAMES = [name for name in RULES.applications if name != "clock-watcher"]


class Hello:
    """What `hello` does, in Python."""

    def turn(self, stimulus):
        """The call for this stimulus."""
        return Print(b"hi\n") if isinstance(stimulus, Event) and stimulus.code == EventCode.INIT else Wait()


class Blink:
    """What `blink` does, in Python."""

    def __init__(self):
        self.lit = self.printed = False

    def turn(self, stimulus):
        """The call for this stimulus."""
        match stimulus:
            case Event(code=EventCode.INIT):
                self.lit = self.printed = False
                return TimerSet(0, 10)
            case Event(code=EventCode.TIMER):
                self.lit, self.printed = not self.lit, True
                return Print(b"on\n" if self.lit else b"off\n")
            case Reply() if self.printed:
                self.printed = False
                return TimerReset(0)
        return Wait()


BEYOND = {"process": 20, "timer": 8, "callback": 4, "handle": 16, "source": 16, "target": 16, "heap_block": 16, "pool": 4, "block": 16,
          "previous": 16, "chain": 8}


def random_argument(chance: random.Random, name: str) -> object:
    """An argument of a call: mostly small, now and then one that names nothing."""
    if name == "process":
        return chance.choice([4, 5, 6, 7, 4, 5, 20, 0])
    if name in BEYOND:
        return chance.choice([0, 0, 0, 1, 1, 2, BEYOND[name]])
    if name == "code":
        return chance.choice([140, 140, 141, 134, 133, 137, 136, 129])
    if name == "payload":
        return chance.choice([None, 0, 4294967295, b"", b"line", bytes(127)])
    if name == "data":
        return bytes(chance.randrange(256) for _ in range(chance.choice([0, 1, 5, 64])))
    return chance.choice([0, 0, 1, 2, 4, 10, 30, 65])


def random_call(chance: random.Random) -> Call:
    """A call of any kind; often one that ends an activation."""
    word = "wait" if chance.random() < 0.2 else chance.choice(list(RULES.calls))
    return Call.by_word[word](*(random_argument(chance, name) for name in RULES.calls[word].arguments))


def random_line(chance: random.Random, spoilt: float = 0.1) -> str:
    """A line of a script, now and then a malformed one."""
    hexes = "".join(chance.choice(["61", "0a", "0d", "F0", "80", "00"]) for _ in range(chance.randrange(1, 40)))
    kinds = [f"tick {chance.randrange(30)}", f"serial {hexes}", f"serial {hexes}0a", f"frame {hexes}", "# nothing", "tick 07"]
    return chance.choices(kinds, weights=[8, 4, 6, 6, 1, spoilt])[0]


def random_script(chance: random.Random, most: int = 60, spoilt: float = 0.1) -> str:
    """A script of so many lines at most."""
    return "".join(random_line(chance, spoilt) + "\n" for _ in range(chance.randrange(most)))


def random_options(chance: random.Random) -> Options:
    """Sizes, some of which no mote boots with."""
    ranges = {"mmem": (4, 4096), "heap": (20, 4096), "quota": (4, 512), "header": (8, 16)}
    sizes = {name: chance.randrange(least, most + 1, 4) for name, (least, most) in ranges.items() if chance.random() < 0.3}
    return Options(**sizes, quiet=chance.random() < 0.2)


def random_application(chance: random.Random) -> object:
    """A name, or a list of calls."""
    if chance.random() < 0.4:
        return chance.choice(NAMES)
    return [random_call(chance) for _ in range(chance.randrange(40))]
