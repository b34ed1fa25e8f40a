"""Proves the library in the current folder and builds it with its statements only, as `rt ci` does: `prove_library.py --jobs N`.

The check of a crate above it then loads no proofs, and takes half the time. `rt lib` builds a library with its proofs, and stores work for
its next check. It is run where the kit can't build statements only, or where another rt stands in for the kit's.
"""
from __future__ import annotations

import functools
import hashlib
import os
import shutil
import sys
from pathlib import Path
from typing import Any

sys.dont_write_bytecode = True
from kit_rt import load_rt  # noqa: E402  it is beside this file


def load_kit() -> Any | None:
    """The module of rt, where that can build statements only."""
    rt = load_rt()
    found = shutil.which("rt")
    is_of_kit = found is not None and Path(found).resolve().parent == Path(rt.__file__).resolve().parent
    return rt if is_of_kit and "--statements" in rt.help_of("build") else None


def note_of(crate: Any) -> Path:
    """The file that says what the library was built from: its statements fit only the builds below over which it was built."""
    return Path(crate.rlib).with_name("over")


@functools.lru_cache(maxsize=None)
def sum_of_files(folder: Path) -> str:
    """A sum of the names and contents of all files in a folder."""
    files = sorted(path for path in folder.rglob("*") if path.is_file())
    sums = "".join(f"{path.relative_to(folder)} {hashlib.sha256(path.read_bytes()).hexdigest()}\n" for path in files)
    return hashlib.sha256(sums.encode()).hexdigest()


def built_from(rt: Any, crate: Any) -> str:
    """What a library is built from: the kit, the crate's own sources, and the build of each library below it; a line for each."""
    own = [crate.said, crate.has_c, *((file.removeprefix(crate.folder), Path(file).read_bytes()) for file in rt.files_of(crate.folder))]
    sums = {"kit": hashlib.sha256(Path(rt.KIT, "WHAT").read_bytes()).hexdigest(), "own": hashlib.sha256(repr(own).encode()).hexdigest(),
            **{f"crate {it.name}": sum_of_files(Path(it.rlib)) for it in crate.below()}}
    return "".join(f"{name} {told}\n" for name, told in sums.items())


def stamp(crate: Any) -> None:
    """Writes the stamp by which rt knows that the library is of the present sources."""
    Path(crate.rlib).with_name("stamp").write_text(crate.stamp(), encoding="utf-8")


def is_current(rt: Any, crate: Any) -> bool:
    """Whether it was built from the present sources, over the present builds. One that rt built has no note of that.

    A library whose own sources are the same, over builds that are the same byte for byte, gets the present stamp: a comment in a crate
    below changes the stamps of all above it, and nothing that their proofs read."""
    note = note_of(crate)
    if not note.exists():
        return bool(crate.is_built())
    if note.read_text(encoding="utf-8") != built_from(rt, crate):
        return False
    if not crate.is_built():
        stamp(crate)
    return True


def build(rt: Any, folder: Path, options: list[str]) -> int:
    """Proves and builds it, unless it is current. Returns the status."""
    crate = next(it for it in rt.crates_below(str(folder.parent.parent)) if it.name == folder.name)
    if is_current(rt, crate):
        return 0
    library, made_from = Path(crate.rlib), built_from(rt, crate)
    shutil.rmtree(library.parent, ignore_errors=True)
    library.parent.mkdir(parents=True)
    status: int = crate.call(rt.RATTLE, "build", *crate.words(options, keeps=False), "--statements", "-o", crate.rlib)
    if status == 0:
        note_of(crate).write_text(made_from, encoding="utf-8")
        stamp(crate)
    return status


def main() -> int:
    """Builds the library, or has `rt lib` build it."""
    options = sys.argv[1:]
    rt = load_kit()
    if rt is None:
        os.execvp("rt", ["rt", "lib", *options])
    return build(rt, Path.cwd(), options)


if __name__ == "__main__":
    sys.exit(main())
