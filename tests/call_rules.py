"""interface/rules.json, as several tests take it."""

import json
from typing import Any

from tools import ROOT

RULES: dict[str, Any] = json.loads((ROOT / "interface/rules.json").read_text(encoding="utf-8"))
ARGUMENTS: dict[str, Any] = {rule["name"]: rule for rule in RULES["arguments"]}
CALLS: dict[str, Any] = {rule["name"]: rule for rule in RULES["calls"]}
OF_MOTE = [name for name in RULES["applications"] if name not in RULES["not_of_mote"]]


def letter(argument: str) -> str:
    """An argument's letter: s for a number that fits in a byte, n for one of 32 bits, p for the data of an event, b for bytes."""
    return {"payload": "p", "data": "b"}.get(argument) or {255: "s", 4294967295: "n"}[ARGUMENTS[argument]["most"]]


# Each call with the letters of what follows its word.
LETTERS: dict[str, str] = {name: "".join(map(letter, rule["arguments"])) for name, rule in CALLS.items()}
