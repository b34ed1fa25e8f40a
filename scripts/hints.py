"""Says more about arguments that mote refuses briefly: a file with a script, and sizes that no mote has."""
from __future__ import annotations

import json
import os
from typing import Any, Iterator, Sequence

# Options of mote-picture that have a number, too, and are no sizes.
CLOCKS = ("from", "to")
RULES = os.path.join(os.path.dirname(os.path.dirname(os.path.realpath(__file__))), "interface/rules.json")


def hints(words: Sequence[str], input_name: str) -> Iterator[str]:
    """A line for each argument that has a hint. `input_name` is what the program reads from standard input."""
    with open(RULES, encoding="utf-8") as opened:
        rules = json.load(opened)
    sizes, names = split(words, [row["name"] for row in rules["sizes"]])
    for name in names:
        if name not in rules["applications"] and os.path.isfile(name):
            yield f"{name} is a file; the {input_name} is read from standard input: < {name}"
    for row in rules["sizes"]:
        word = sizes.get(row["name"], "")
        if is_number(word) and not is_allowed(row, int(word)):
            yield f"--{row['name']} {word}: {allowed(row)} is allowed"
    default = next(row["default"] for row in rules["sizes"] if row["name"] == "mmem")
    quota, mmem, parts = sizes.get("quota", ""), sizes.get("mmem", str(default)), len(names) + 1
    if is_number(quota) and is_number(mmem) and int(quota) * parts > int(mmem):
        yield f"--quota {quota} for each application and the frames is {int(quota) * parts} bytes; --mmem has {mmem}"


def split(words: Sequence[str], options: Sequence[str]) -> tuple[dict[str, str], list[str]]:
    """The sizes by name, and the arguments that are no options."""
    sizes: dict[str, str] = {}
    names: list[str] = []
    left = iter(words)
    for word in left:
        name, equals, number = word[2:].partition("=")
        if word == "--":
            names += left
        elif word.startswith("--") and name in options:
            sizes[name] = number if equals else next(left, "")
        elif word in [f"--{clock}" for clock in CLOCKS]:
            next(left, "")
        elif not word.startswith("-"):
            names.append(word)
    return sizes, names


def is_number(word: str) -> bool:
    """Whether it is a number of at most twenty digits: Python refuses to read one of some thousands."""
    return word.isascii() and word.isdigit() and len(word) <= 20


def is_allowed(row: dict[str, Any], number: int) -> bool:
    if "one_of" in row:
        return number in row["one_of"]
    return bool(row["least"] <= number <= row["most"] and number % row["multiple_of"] == 0)


def allowed(row: dict[str, Any]) -> str:
    """The numbers that a size may be, in words."""
    if "one_of" in row:
        return " or ".join(map(str, row["one_of"]))
    return f"a multiple of {row['multiple_of']} from {row['least']} to {row['most']}"
