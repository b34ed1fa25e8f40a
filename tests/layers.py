"""The figure of the layers in docs/map.md, made from crates.txt. `python3 tests/layers.py` prints it.

A crate's height is one more than that of the highest crate it uses, and 0 where it uses none. Each part of crates.txt that has a heading is
a column.
"""

import re
import textwrap
from pathlib import Path
from typing import NamedTuple

ROOT = Path(__file__).resolve().parent.parent

WIDTH = 140


class Crate(NamedTuple):
    """A crate of crates.txt: the number of its column, its name, and its height."""

    column: int
    name: str
    height: int


def parts() -> list[tuple[str, list[str]]]:
    """The parts of crates.txt, each with its heading and its lines. The first part only explains the file."""
    found = re.findall(r"^# (.*)\n((?:\w.*\n)+)", (ROOT / "crates.txt").read_text(encoding="utf-8"), re.M)
    return [(heading, lines.splitlines()) for heading, lines in found]


def crates() -> list[Crate]:
    heights: dict[str, int] = {}
    found = []
    for column, (_, lines) in enumerate(parts()):
        for line in lines:
            before, _, after = line.partition(":")
            name = before.split()[0]
            heights[name] = max((heights[word] + 1 for word in after.split() if word in heights), default=0)
            found.append(Crate(column, name, heights[name]))
    return found


def titles() -> list[str]:
    """The heading of each column, up to its first comma or stop."""
    return [re.split(r"[,:.]", heading)[0] for heading, _ in parts()]


def rows(cells: list[list[str]], widths: list[int], label: str) -> list[str]:
    lines = []
    for number in range(max(len(cell) for cell in cells)):
        texts = (cell[number] if number < len(cell) else "" for cell in cells)
        columns = "  ".join(f"{text:{width}}" for text, width in zip(texts, widths))
        lines.append(f"{label if number == 0 else '':>2} | {columns}".rstrip())
    return lines


def figure() -> str:
    all_crates = crates()
    columns = range(len(parts()))
    widths = [max(map(len, [*title.split(), *(crate.name for crate in all_crates if crate.column == column)]))
              for column, title in enumerate(titles())]
    rule = "---+-" + "--".join("-" * width for width in widths)
    lines = rows([textwrap.wrap(title, width) for title, width in zip(titles(), widths)], widths, "")
    for height in range(max(crate.height for crate in all_crates), -1, -1):
        cells = [[crate.name for crate in all_crates if (crate.column, crate.height) == (column, height)] for column in columns]
        lines += [rule, *rows(cells, widths, str(height))]
    assert max(map(len, lines)) <= WIDTH, "the figure is too wide"
    return "\n".join(lines)


if __name__ == "__main__":
    print(figure())
