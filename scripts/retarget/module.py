"""Rewrites a whole module, or says which line it refuses."""
from __future__ import annotations

import re

from .forms import COMMENT, DATA_LAYOUT, NAME
from .refusal import Refused
from .rewrite import rewrite_constant, rewrite_declaration, rewrite_definition, rewrite_operation
from .targets import Target

LABEL = re.compile(rf"{NAME}:")
PROCESSOR_ATTRIBUTES = re.compile(r' "(?:probe-stack|stack-probe-size|target-cpu|target-features)"="[^"]*"')
UNCHANGED = ("!", ";", "source_filename = ")


def retargeted(text: str, target: Target) -> str:
    """The text of a module of the proved build for x86-64, as it is for another target.

    Raises ``Refused``, with the line's number, where a line's form isn't on the closed list.
    """
    if not re.search(r"^target datalayout = ", text, re.M):
        raise Refused("a module without a data layout")
    lines: list[str] = []
    is_inside = False
    for number, line in enumerate(text.splitlines(), 1):
        try:
            if is_inside and line != "}":
                lines += within_function(line, number, target)
            else:
                is_inside = line.startswith("define ")
                lines.append(at_top(line, target))
        except Refused as why:
            raise Refused(f"line {number}: {why}") from None
    return "\n".join(lines) + "\n"


def within_function(line: str, number: int, target: Target) -> list[str]:
    text = COMMENT.sub("", line)
    if not text.strip() or LABEL.fullmatch(text):
        return [text]
    return [f"  {it}" for it in rewrite_operation(text.strip(), number, target)]


def at_top(line: str, target: Target) -> str:
    """A line outside all functions, or the last one of a function."""
    if line == "}" or not line.strip() or line.startswith(UNCHANGED):
        return line
    word = line.split(" ", 1)[0]
    if word == "define":
        return rewrite_definition(line, target)
    if word == "declare":
        return rewrite_declaration(line, target)
    if word.startswith("@"):
        return rewrite_constant(line, target)
    if word == "attributes":
        return PROCESSOR_ATTRIBUTES.sub("", line)
    if line.startswith("target datalayout = "):
        if line != f'target datalayout = "{DATA_LAYOUT}"':
            raise Refused(f"another data layout than that of the proved build: {line}")
        return f'target datalayout = "{target.data_layout}"'
    if line.startswith("target triple = "):
        return f'target triple = "{target.triple}"'
    raise Refused(f"a line of a form that isn't on the list: {line}")
