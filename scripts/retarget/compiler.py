"""The kit's clang: prints a module as text, and compiles text for a target."""
from __future__ import annotations

import shutil
import subprocess
from collections.abc import Sequence
from pathlib import Path

from .refusal import Refused
from .targets import Target

# What rattle itself passes to clang for a module, less what is for x86-64 and for shared libraries. The checks of LLVM's verifier
# after each pass on machine code are added.
OPTIONS = (
    "-mllvm", "-no-trap-after-noreturn", "-mllvm", "-trap-unreachable", "-mllvm", "-disable-machine-licm",
    "-mllvm", "-disable-postra-machine-licm", "-mllvm", "-sink-common-insts=false", "-mllvm", "-verify-machineinstrs",
    "--no-default-config", "-no-canonical-prefixes", "-fintegrated-cc1", "-fno-crash-diagnostics", "-Werror",
)


def kit_folder() -> Path:
    """Where the kit is: rt in PATH leads there."""
    found = shutil.which("rt")
    if found is None:
        raise Refused("there is no rt, which proves, in PATH")
    return Path(found).resolve().parent.parent


def clang() -> Path:
    return kit_folder() / "toolchain/bin/clang"


def run_tool(words: Sequence[str | Path], cwd: Path | None = None) -> str:
    ran = subprocess.run(words, cwd=cwd, capture_output=True, text=True, encoding="utf-8", check=False)
    if ran.returncode:
        raise Refused(f"{Path(words[0]).name} failed with status {ran.returncode}:\n{ran.stderr}")
    return ran.stdout


def text_of(module: Path) -> str:
    """A module, which may be bitcode, as LLVM prints it."""
    return run_tool([clang(), "--target=x86_64-unknown-linux-gnu", "-x", "ir", "-S", "-emit-llvm", "-Xclang", "-disable-llvm-passes",
                     "-o", "-", module])


def compile_text(text: Path, target: Target, to: Path, *more: str, level: str = "-Os", runs: int = 1) -> None:
    """Compiles a module, after so many runs of LLVM's passes in all: a further one leaves out copies that the one before couldn't."""
    words: list[str | Path] = [clang(), *target.options, level, "-x", "ir", *OPTIONS, *more]
    for number in range(1, runs):
        optimized = to.with_suffix(f".{number}.ll")
        run_tool([*words, "-S", "-emit-llvm", text, "-o", optimized])
        text = optimized
    run_tool([*words, "-c", text, "-o", to])


def make_archive(objects: Sequence[Path], to: Path) -> None:
    """Makes an archive anew, the same bytes of the same objects."""
    to.unlink(missing_ok=True)
    run_tool([kit_folder() / "toolchain/bin/llvm-ar", "--format=gnu", "rcD", to, *objects])
