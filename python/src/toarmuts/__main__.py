"""``python -m toarmuts``: what was built, and how to begin. ``--version`` prints only the version."""
from __future__ import annotations

import argparse

from . import __version__, run
from .library import HERE, library, repository
from .picture import program

BEGIN = """
>>> import toarmuts
>>> run = toarmuts.run(["blink"], "tick 10\\n")
>>> print(run)
{transcript}
>>> print(run.transcript[3].explain())
{words}

More: help(toarmuts.run), help(toarmuts.Mote), help(toarmuts.Network), help(toarmuts.strategies).
The guide: {guide}
"""


def tell() -> str:
    """What this program prints."""
    root = repository()
    first = run(["blink"], "tick 10\n")
    guide = root / "docs/python.md" if root is not None else "docs/python.md of the repository"
    about = [f"toarmuts {__version__}, in {HERE}", f"the library is called by {library().backend}",
             f"pictures are drawn by {program() or 'no program: ./prove mote_picture in the repository builds it'}"]
    return "\n".join(about) + "\n" + BEGIN.format(transcript=first.text.rstrip(), words=first.transcript[3].explain(), guide=guide)


def main(words: list[str] | None = None) -> int:
    """The program; its status is 0."""
    parser = argparse.ArgumentParser(prog="python -m toarmuts", description="Shows what was built, and how to begin.")
    parser.add_argument("--version", action="version", version=f"toarmuts {__version__}")
    parser.parse_args(words)
    print(tell(), end="")
    return 0


if __name__ == "__main__":
    raise SystemExit(main())
