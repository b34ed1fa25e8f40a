"""The crates of a repository, the crates below each, and whether what ./prove built of one is from the present sources."""
from __future__ import annotations

import hashlib
import os
import re
import subprocess
import time
from pathlib import Path

PARTS = ("src", "specs", "proofs")
# A file's time may be earlier than the clock by this much, in nanoseconds: it is that of the last tick.
GRAIN = 10_000_000
# Other names of a program, which does what the name says that it is started by.
OTHER_NAMES = {"network_picture": "mote_picture"}


def link_names(program: Path) -> None:
    """Makes the other names of a program that was built, beside it: hard links, since rt refuses a folder with symbolic ones."""
    for name in (other for other, of in OTHER_NAMES.items() if of == program.name):
        new = program.with_name(f"{name}.new")
        new.unlink(missing_ok=True)
        os.link(program, new)
        new.rename(program.with_name(name))
        # Where both names were links to one file, nothing was renamed.
        new.unlink(missing_ok=True)


class Sources:
    """A folder with crates.txt and crates/."""

    def __init__(self, root: Path) -> None:
        self.root = root
        self.lines: dict[str, str] = {}
        self.below: dict[str, list[str]] = {}
        self.libraries_for_c: set[str] = set()
        for line in (root / "crates.txt").read_text(encoding="utf-8").splitlines():
            told = re.match(r"(\w+)( staticlib)?:(.*)", line)
            if told is None:
                continue
            name, for_c, below = told.groups()
            self.lines[name] = line
            # Libraries of the kit have no folder.
            self.below[name] = [it for it in below.partition("#")[0].split() if (root / "crates" / it).is_dir()]
            if for_c:
                self.libraries_for_c.add(name)

    def is_program(self, name: str) -> bool:
        return (self.root / "crates" / name / "src/main.rt").is_file()

    def is_product(self, name: str) -> bool:
        """Whether this names what ./prove builds: a program, or a library for C."""
        return name in self.lines and (self.is_program(name) or name in self.libraries_for_c)

    def built_as(self, name: str) -> str:
        return name if self.is_program(name) else f"lib{name}.a"

    def product(self, name: str) -> Path:
        return self.root / "crates" / name / "out" / self.built_as(name)

    def mark(self, name: str) -> Path:
        """The mark beside the product: a hash of the sources, one of the product, the kit, and the folders of the sources, a line for
        each. Its time is that at which the sources were read: a newer source was not proved."""
        return self.root / "crates" / name / "out/proved"

    def note(self, name: str) -> Path:
        """What `rt ci` stored of a program that it proved, and tests/proofs copied: rattle builds the program again from that."""
        return self.root / "crates" / name / "out/checked"

    def with_all_below(self, *wanted: str) -> dict[str, list[str]]:
        """These crates and all below them, the lowest first, each with the crates below it."""
        found: dict[str, list[str]] = {}

        def add(name: str) -> None:
            if name not in found:
                for lower in self.below[name]:
                    add(lower)
                found[name] = self.below[name]

        for name in wanted:
            add(name)
        return found

    def places(self, *wanted: str) -> list[str]:
        """The folders with the sources of these crates and of all below them."""
        parts = (f"crates/{name}/{part}" for name in self.with_all_below(*wanted) for part in PARTS)
        return ["crates.txt", *(it for it in parts if (self.root / it).is_dir())]

    def files(self, name: str) -> list[str]:
        places = self.places(name)[1:]
        return sorted((os.path.relpath(os.path.join(at, file), self.root) for place in places
                       for at, _, files in os.walk(self.root / place) for file in files), key=os.fsencode)

    def name_of_sources(self, name: str) -> str:
        names = self.with_all_below(name)
        told = hashlib.sha256("".join(f"{line}\n" for it, line in self.lines.items() if it in names).encode())
        for file in self.files(name):
            told.update(os.fsencode(f"{sum_of(self.root / file)}  {file}\n"))
        return f"{told.hexdigest()}  -"

    def are_older_than(self, when: int) -> bool:
        """Whether no source was written, moved or made since then, in nanoseconds: by the times that no program can set."""
        places = [self.root / it for it in self.places(*self.below)]
        inner = (Path(at, it) for place in places for at, folders, files in os.walk(place) for it in folders + files)
        return all(it.lstat().st_ctime_ns < when for it in [*places, *inner])

    def mark_text(self, name: str, product: Path) -> str:
        lines = [self.name_of_sources(name), f"{sum_of(product)}  -", kit(), *self.places(name)]
        return "".join(f"{line}\n" for line in lines)

    def is_current(self, name: str) -> bool:
        """Whether a program or a library was built from the present sources, by hashes. If so, the mark gets the time at which they were
        read, so that scripts/launch sees by times alone that none is newer."""
        before = time.time_ns() - GRAIN
        product, mark = self.product(name), self.mark(name)
        if not (os.access(product, os.R_OK) and os.access(mark, os.R_OK)):
            return False
        if mark.read_text(encoding="utf-8").splitlines()[:2] != [self.name_of_sources(name), f"{sum_of(product)}  -"]:
            return False
        try:
            os.utime(mark, ns=(before, before))
        except OSError:
            pass
        return True

    def kit_of(self, name: str) -> str:
        return (self.mark(name).read_text(encoding="utf-8").splitlines() + [""] * 3)[2]


def kit() -> str:
    return subprocess.run(["rt", "version"], check=True, capture_output=True, text=True).stdout.rstrip("\n")


def sum_of(file: Path) -> str:
    return hashlib.sha256(file.read_bytes()).hexdigest()
