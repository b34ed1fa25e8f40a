"""Turns a hint around: what isn't to be inlined is inlined wherever it is called. It changes nothing that a function does."""
from __future__ import annotations

import re
from collections.abc import Iterable

HINT = "noinline "
INSTEAD = "alwaysinline "


def with_inlining(text: str, names: Iterable[str]) -> str:
    """A module's text, where the functions with these names are inlined. One that isn't there, or has no such hint, stays as it is."""
    groups = dict(re.findall(r"^attributes #(\d+) = \{ (.*) \}$", text, re.M))
    plain = max((int(it) for it in groups), default=0) + 1
    added = ""
    for name in names:
        found = re.search(rf'^define .*@"{re.escape(name)}(?:::<[^"]*)?"\(.* #(\d+) \{{$', text, re.M)
        if found and HINT in f"{groups[found[1]]} ":
            start, end = found.span(1)
            text = f"{text[:start]}{plain}{text[end:]}"
            added += f"attributes #{plain} = {{ {f'{groups[found[1]]} '.replace(HINT, INSTEAD).strip()} }}\n"
            plain += 1
    return text + added
