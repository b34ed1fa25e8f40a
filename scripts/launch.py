"""Runs a program with the arguments that follow, and passes on input, output and exit status.

    scripts/launch PROGRAM READS ARGUMENT..

Where ./prove has built it, and no source is newer, that program runs. Otherwise the run is unproved: scripts/unproved.py builds the
program, once for these sources, and a line on standard error says so. READS is what the program reads: `input` for standard input,
or `files` for the files that its arguments name, relative to the current folder. A first line that is malformed since the file was
written on Windows is reported on standard error.
"""
from __future__ import annotations

# A proved program starts in a few milliseconds: modules that only an unproved run needs are imported there.
import os
import sys

TYPE_CHECKING = False
if TYPE_CHECKING:
    from typing import BinaryIO, Iterable, NoReturn, Sequence

ROOT = os.path.dirname(os.path.dirname(os.path.realpath(__file__)))
BYTE_ORDER_MARK = b"\xef\xbb\xbf"
# Another name of a program, which does what the name says that it is started by: as in scripts/sources.py, which takes longer to read.
OTHER_NAMES = {"network_picture": "mote_picture"}


class Launch:
    """A program to run: its crate and name, and the command that proves and builds it."""

    def __init__(self, named: str, reads: str, words: Sequence[str]) -> None:
        self.named = named
        self.crate = crate = OTHER_NAMES.get(named, named)
        self.reads = reads
        self.words = list(words)
        self.name = named.replace("_", "-")
        self.folder = os.path.join(ROOT, "crates", crate)
        self.program = os.path.join(self.folder, "out", crate)
        self.proving = "./prove" if named == "mote" else f"./prove {named}"

    def tell(self, text: str) -> None:
        """Prints a line on standard error. Where that is closed or full, the program runs all the same."""
        try:
            os.write(2, f"{self.name}: {text}\n".encode("utf-8", "backslashreplace"))
        except OSError:
            pass

    def give_up(self, why: str, status: int = 125) -> NoReturn:
        """Ends with a status that the program never has, since it did not run to its end."""
        self.tell(why)
        sys.exit(status)

    def run(self) -> NoReturn:
        mark = os.path.join(self.folder, "out/proved")
        if os.access(self.program, os.X_OK) and os.access(mark, os.R_OK) and (
                are_older(mark, self.program) or self.is_proved_by_hashes()):
            self.start(self.program)
        self.run_unproved()

    def start(self, program: str) -> NoReturn:
        self.tell_of_words()
        self.tell_of_input()
        os.execv(program, [os.path.join(os.path.dirname(program), self.named), *self.words])

    # ---- A proved program ----

    def is_proved_by_hashes(self) -> bool:
        import subprocess
        return subprocess.run([os.path.join(ROOT, "prove"), "--is-current", self.crate], check=False).returncode == 0

    def tell_of_words(self) -> None:
        """Says more about arguments that mote and mote-picture refuse briefly."""
        is_strange = any(it.startswith(("--mmem", "--heap", "--quota", "--header")) or os.path.isfile(it) for it in self.words)
        if is_strange and self.named in ("mote", "mote_picture"):
            sys.path.insert(0, os.path.join(ROOT, "scripts"))
            from hints import hints
            for hint in hints(self.words, "script" if self.named == "mote" else "transcript"):
                self.tell(hint)

    def tell_of_input(self) -> None:
        """Checks the input of a program, where it can be read twice: files, and standard input from the start of a file."""
        places = [(f"{word}: line", word) for word in self.words if os.path.isfile(word)]
        if self.reads == "input":
            stdin = "/proc/self/fd/0"
            places = [("line", stdin)] if os.path.isfile(stdin) and os.lseek(0, 0, os.SEEK_CUR) == 0 else []
        for what, path in places:
            try:
                with open(path, "rb") as opened:
                    self.tell_of_windows(what, opened)
            except OSError:
                pass

    def tell_of_windows(self, what: str, opened: BinaryIO) -> None:
        """Reports a byte order mark at the start of a file, and a line end of Windows in its first line that is neither empty nor a
        comment."""
        for number, line in enumerate(opened, 1):
            line = line.removesuffix(b"\n")
            if number == 1 and line.startswith(BYTE_ORDER_MARK):
                self.tell(f"{what} 1 begins with a byte order mark, as text of Windows does; here none is allowed")
            if line and not line.startswith(b"#"):
                if line.endswith(b"\r"):
                    self.tell(f"{what} {number} ends with byte 13, as lines of Windows do; here a line ends with byte 10 only")
                return

    # ---- An unproved run ----

    def run_unproved(self) -> NoReturn:
        folder = os.path.join(self.folder, "out/unproved")
        program = os.path.join(folder, self.crate)
        if not are_older(os.path.join(folder, "sources"), program):
            program = self.build_unproved()
        self.tell(f"this run is unproved; {self.proving} proves and builds the program")
        self.start(program)

    def build_unproved(self) -> str:
        """Builds the program, unless one is stored whose sources have the hashes of the present ones."""
        from pathlib import Path
        sys.path.insert(0, os.path.join(ROOT, "scripts"))
        from unproved import Unproved, ending_by_signals
        from unproved_build import Refused
        try:
            with ending_by_signals():
                return str(Unproved(Path(ROOT), self.crate).give(self.tell, self.begin))
        except Refused as why:
            self.give_up(f"no program is built from the present sources, neither proved nor unproved: {why}")

    def begin(self) -> None:
        from unproved import has_rt
        if not has_rt():
            self.give_up("no proved program is built from the present sources, and there is no rt in PATH to build one", 127)
        self.tell("the program is built without a proof, which takes half a minute to two minutes, once for these sources")


def are_older(mark: str, program: str) -> bool:
    """Whether the program, and all sources in the folders that the mark names from its fourth line on, are no newer than the mark."""
    try:
        with open(mark, encoding="utf-8") as opened:
            places = opened.read().splitlines()[3:]
        when = os.stat(mark).st_mtime_ns
        return bool(places) and os.access(program, os.X_OK) and max(os.stat(program).st_mtime_ns, *times(places)) <= when
    except OSError:
        return False


def times(places: Iterable[str]) -> Iterable[int]:
    """When each source was written, and each folder of sources changed."""
    for place in places:
        path = os.path.join(ROOT, place)
        yield os.stat(path).st_mtime_ns
        if os.path.isdir(path):
            with os.scandir(path) as inner:
                yield from times(entry.path for entry in inner)


if __name__ == "__main__":
    Launch(sys.argv[1], sys.argv[2], sys.argv[3:]).run()
