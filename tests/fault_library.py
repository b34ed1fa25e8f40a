"""Runs a built program with a fault, by the library of tests/c/faults.c; `rt try --fail-alloc N` does so in a build of its own."""

import shutil
from dataclasses import dataclass
from pathlib import Path

import pytest

from tools import ROOT, Word, once, run, succeed


@dataclass
class Outcome:
    """What a run came to, and how many growths of memory, reads and writes, and those of several bytes there were."""

    status: int
    stdout: bytes
    stderr: str
    growths: int
    transfers: int
    wide: int

    @property
    def told(self) -> tuple[int, bytes, str]:
        return self.status, self.stdout, self.stderr


@dataclass
class Faults:
    library: Path
    counts: Path

    def __call__(self, script: Path, kind: str, number: int, *words: Word) -> Outcome:
        """Runs a program on a script with the fault of this kind and number; all memory is freed."""
        self.counts.unlink(missing_ok=True)
        settings = {"LD_PRELOAD": str(self.library), "COUNTS": str(self.counts), kind: str(number)}
        ran = run("env", *(f"{name}={value}" for name, value in settings.items()), *words, stdin=script, timeout=600)
        growths, transfers, wide, live = map(int, self.counts.read_text(encoding="utf-8").split())
        assert live == 0, f"{kind} {number}: {live} blocks of memory are not given back"
        return Outcome(ran.returncode, ran.stdout, ran.stderr.decode(), growths, transfers, wide)


@pytest.fixture
def faults(shared: Path, tmp_path: Path) -> Faults:
    """The library, made by a compiler of this machine, or by the kit's if there is none."""
    def make(built: Path) -> None:
        compiler = shutil.which("gcc") or shutil.which("clang")
        if compiler is None:
            compiler = str(Path(succeed("rt", "doc").stdout.decode().strip()).parent / "toolchain/bin/clang")
        succeed(compiler, "-O1", "-fno-builtin", "-shared", "-fPIC", "-nostdlib", ROOT / "tests/c/faults.c", "-o", built)
    return Faults(once(shared / "faults.so", make), tmp_path / "counts")
