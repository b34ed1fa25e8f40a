"""Random calls, as lists of calls have them: names mostly within bounds, sizes and places small."""

import random
from typing import Any, Sequence

from call_rules import RULES

# What is drawn for each number among the arguments of interface/rules.json.
NUMBERS = {
    "process": [*range(3, 13)], "code": [129, 133, 134, 140, 141, 142, 255, 5, 128, 136], "timer": [*range(9)], "callback": [*range(5)],
    "interval": [0, 1, 5, 10, 30, 4294967295], "handle": [*range(5)], "heap_block": [*range(5)], "size": [0, 1, 8, 13, 20, 40, 100, 5000],
    "at": [0, 0, 1, 5, 12, 70], "length": [0, 1, 5, 20, 70], "pool": [0, 0, 1, 3, 4], "block": [*range(5)], "chain": [0, 0, 1, 2, 8],
    "previous": [*range(5)], "source": [*range(5)], "target": [*range(5)],
}


def random_bytes(chance: random.Random, most: int) -> str:
    return chance.randbytes(chance.choice([0, 1, 5, most])).hex()


def random_call(chance: random.Random, rules: Sequence[dict[str, Any]] = RULES["calls"]) -> str:
    rule = chance.choice(rules)
    words = [str(rule["name"])]
    for argument in rule["arguments"]:
        if argument == "data":
            words.append(random_bytes(chance, 64) or "-")
        elif argument == "payload":
            words.append(chance.choice(["-", str(chance.randrange(1 << 32)), "x" + random_bytes(chance, 127)]))
        else:
            words.append(str(chance.choice(NUMBERS[argument])))
    return " ".join(words)


def random_lists(chance: random.Random) -> str:
    """Eight lists of calls, of which some are empty."""
    lists = [", ".join("wait" if chance.random() < 0.07 else random_call(chance) for _ in range(chance.choice([0, 5, 40, 128])))
             for _ in range(8)]
    return "".join(f"calls {calls}".rstrip() + "\n" for calls in lists)
