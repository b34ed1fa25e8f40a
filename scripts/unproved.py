#!/usr/bin/env python3
"""Builds a program, or the library for C, without a proof, and stores it: a later unproved run of the same sources starts at once.

    scripts/unproved.py CRATE

prints the path of what was built. It is in crates/CRATE/out/unproved, or in the folder for temporary files where that can't be written.
"""
from __future__ import annotations

import contextlib
import ctypes
import fcntl
import hashlib
import os
import shutil
import signal
import sys
import tempfile
import time
from pathlib import Path
from typing import Callable, Iterator

sys.path.insert(0, str(Path(__file__).resolve().parent))
from sources import GRAIN, OTHER_NAMES, Sources, link_names, sum_of  # noqa: E402
from unproved_build import Building, Refused  # noqa: E402

ENDING = (signal.SIGINT, signal.SIGTERM, signal.SIGHUP)
# The option of prctl by which a process gets a signal when its parent ends.
PR_SET_PDEATHSIG = 1
Tell = Callable[[str], None]


class Store:
    """A folder with what was built, and its mark. The lines of the mark: a hash of the sources, one of what was built, `unproved`, and the
    folders of the sources. Its time is that at which the sources were read."""

    def __init__(self, folder: Path, name: str) -> None:
        self.folder = folder
        self.built = folder / name
        self.mark = folder / "sources"

    def has(self, sources: str) -> bool:
        """Whether what is stored was built from these sources."""
        try:
            return self.mark.read_text(encoding="utf-8").splitlines()[:2] == [sources, sum_of(self.built)]
        except OSError:
            return False

    def is_owned(self) -> bool:
        """Whether this user made the folder. In the folder for temporary files another one may have made it first."""
        return not self.folder.is_symlink() and self.folder.is_dir() and self.folder.stat().st_uid == os.getuid()

    def can_be_written(self) -> bool:
        try:
            self.folder.mkdir(mode=0o755, parents=True, exist_ok=True)
        except OSError:
            return False
        return os.access(self.folder, os.W_OK)

    @contextlib.contextmanager
    def alone(self, tell: Tell) -> Iterator[None]:
        """Waits until no other process builds here."""
        with open(self.folder / "lock", "a", encoding="utf-8") as lock:
            try:
                fcntl.flock(lock, fcntl.LOCK_EX | fcntl.LOCK_NB)
            except BlockingIOError:
                tell("another run builds the same: waiting until it has ended")
                fcntl.flock(lock, fcntl.LOCK_EX)
            yield


class Unproved:
    """What is built without a proof: a program, or a library for C."""

    def __init__(self, root: Path, crate: str) -> None:
        self.tree, self.crate = Sources(root), crate
        name = self.tree.built_as(crate)
        beside = f"unproved-{os.getuid()}{root}-{crate}".replace("/", "-")
        self.own = Store(root / "crates" / crate / "out/unproved", name)
        self.other = Store(Path(tempfile.gettempdir()) / beside, name)

    def places(self) -> list[str]:
        """The folders of the sources. Definitions and proofs aren't among them."""
        return ["crates.txt", *(f"crates/{name}/src" for name in self.tree.with_all_below(self.crate))]

    def name_of_sources(self) -> str:
        """A hash of the sources."""
        names = self.tree.with_all_below(self.crate)
        told = hashlib.sha256("".join(f"{line}\n" for it, line in self.tree.lines.items() if it in names).encode())
        for place in self.places()[1:]:
            for file in sorted(it for it in (self.tree.root / place).rglob("*") if it.is_file()):
                told.update(os.fsencode(f"{sum_of(file)}  {file.relative_to(self.tree.root)}\n"))
        return told.hexdigest()

    def current(self) -> Path | None:
        """What is stored and was built from the present sources. Its mark gets the time at which they were read, so that scripts/launch
        sees by times alone that none is newer."""
        before, sources = time.time_ns() - GRAIN, self.name_of_sources()
        for store in (self.own, self.other):
            if store.has(sources) and (store is self.own or store.is_owned()):
                with contextlib.suppress(OSError):
                    os.utime(store.mark, ns=(before, before))
                return store.built
        return None

    def give(self, tell: Tell, begin: Callable[[], None]) -> Path:
        """Returns what is current, or builds it. `begin` is called before a build."""
        found = self.current()
        if found is not None:
            return found
        store = self.own if self.own.can_be_written() else self.other
        try:
            if store is self.other:
                store.folder.mkdir(mode=0o700, exist_ok=True)
                if not store.is_owned():
                    raise Refused(f"{store.folder} is another user's")
            with store.alone(tell):
                found = self.current()
                if found is None:
                    begin()
                    found = self._build(store)
        except OSError as fault:
            raise Refused(f"nothing can be built in {store.folder}: {fault.strerror}") from fault
        return found

    def _build(self, store: Store) -> Path:
        # What a build that was killed has left.
        for left in store.folder.glob("new-*"):
            shutil.rmtree(left, ignore_errors=True)
        began, sources = time.time_ns() - GRAIN, self.name_of_sources()
        with tempfile.TemporaryDirectory(prefix="new-", dir=store.folder) as room:
            new = Building(self.tree, self.crate, Path(room)).build()
            if self.name_of_sources() != sources:
                raise Refused("a source was changed meanwhile")
            mark = Path(room) / "sources"
            mark.write_text("".join(f"{line}\n" for line in (sources, sum_of(new), "unproved", *self.places())), encoding="utf-8")
            for it in (new, mark):
                os.utime(it, ns=(began, began))
            # Without a mark nothing is current, so another run waits for the lock.
            store.mark.unlink(missing_ok=True)
            new.rename(store.built)
            link_names(store.built)
            mark.rename(store.mark)
        return store.built


@contextlib.contextmanager
def ending_by_signals() -> Iterator[None]:
    """Ends by an exception where a signal ends this process, so that what is under way is ended and removed. A signal that is ignored
    stays so."""
    numbers = [it for it in ENDING if signal.getsignal(it) != signal.SIG_IGN]
    for number in numbers:
        signal.signal(number, lambda number, _: sys.exit(128 + number))
    try:
        yield
    finally:
        for number in numbers:
            signal.signal(number, signal.SIG_DFL)


def has_rt() -> bool:
    return shutil.which("rt") is not None


def main() -> int:
    """Builds what the argument names, for a script, and ends with it."""
    ctypes.CDLL(None).prctl(PR_SET_PDEATHSIG, signal.SIGTERM)

    def tell(text: str) -> None:
        # Where standard error is closed or full, it is built all the same.
        with contextlib.suppress(OSError):
            os.write(2, f"unproved: {text}\n".encode("utf-8", "backslashreplace"))

    def begin() -> None:
        if not has_rt():
            raise Refused("there is no rt in PATH to build it")
        tell(f"{sys.argv[1]} is built without a proof, which takes one to two minutes, once for these sources")

    try:
        with ending_by_signals():
            crate = OTHER_NAMES.get(sys.argv[1], sys.argv[1])
            built = Unproved(Path(__file__).resolve().parent.parent, crate).give(tell, begin)
            print(built if crate == sys.argv[1] else built.with_name(sys.argv[1]))
    except Refused as why:
        tell(str(why))
        return 1
    return 0


if __name__ == "__main__":
    sys.exit(main())
