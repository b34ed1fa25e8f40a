"""Keeps the LLVM module of a proved build.

rattle hands a crate to the clang of its toolchain as one module, in a file. Here a product is built once more, in a room of its own,
and from a view of the kit, made of links, whose clang keeps a copy of that file. Nothing is proved once more where ./prove has kept its
work, or where tests/proofs has copied what `rt ci` noted of a program. What comes out must be byte for byte what was built: then the
module is that of the proved product.
"""
from __future__ import annotations

import contextlib
import fcntl
import os
import re
import shutil
import subprocess
import sys
import tempfile
from collections.abc import Callable, Iterator
from pathlib import Path

from .compiler import kit_folder, run_tool
from .refusal import Refused

sys.path.insert(0, str(Path(__file__).resolve().parent.parent))
from kit_rt import words_of_build  # noqa: E402  they are beside this package
from sources import Sources, kit, sum_of  # noqa: E402

TOOLS = ("ld.lld", "llvm-ar", "rattle-x64")

# Keeps each module that is compiled, and goes on to the kit's clang. rattle runs it with no environment.
CLANG = """#!/bin/sh
for word; do
    case $word in
    *.bc) cp "$word" '{room}'/kept.$$.bc ;;
    esac
done
exec '{clang}' "$@"
"""


def keep_module(root: Path, name: str, anew: bool = True) -> Path:
    """Returns where the module of a program or library is kept, as bitcode. Builds only where it isn't there yet; without ``anew`` not
    where it would be proved once more."""
    tree = Sources(root)
    if not tree.is_product(name):
        raise Refused(f"{name} is no program and no library for C of this repository")
    if not tree.is_current(name):
        raise Refused(f"{name} isn't proved, or older than its sources: ./prove {name}")
    module = tree.product(name).parent / "llvm" / f"{name}.bc"
    module.parent.mkdir(exist_ok=True)
    with open(module.with_suffix(".lock"), "ab") as lock:
        # Another one may be keeping it.
        fcntl.flock(lock, fcntl.LOCK_EX)
        if not is_kept(tree, name, module) and not is_kept_by_note(tree, name, module):
            # `rt ci` leaves none, ./prove does.
            work = tree.product(name).parent / "incremental"
            if not anew and not work.exists():
                raise Refused(f"no work is kept of {name}, and to prove it once more takes minutes: --anew")
            keep(tree, name, module, work, run_rt)
    return module


def is_kept_by_note(tree: Sources, name: str, module: Path) -> bool:
    """Keeps a module by what `rt ci` noted, if it noted that of the proved sources, and the libraries below are those that it built."""
    sources = tree.note(name).with_suffix(".sources")
    if not sources.exists() or [sources.read_text(encoding="utf-8")] != proved(tree, name)[:1]:
        return False
    try:
        keep(tree, name, module, tree.note(name), build_noted)
    except Refused as why:
        print(f"{name} isn't built of what rt ci noted: {why}", file=sys.stderr)
        return False
    return True


def proved(tree: Sources, name: str) -> list[str]:
    """What the mark of ./prove names: the sources, and what was built of them."""
    return tree.mark(name).read_text(encoding="utf-8").splitlines()[:2]


def mark_text(of: list[str], module: Path) -> str:
    """What the mark beside a module says: names of the sources and of the product that it was kept for, of the module, and the kit."""
    return "".join(f"{line}\n" for line in [*of, sum_of(module), kit()])


def is_kept(tree: Sources, name: str, module: Path) -> bool:
    mark = module.with_suffix(".proved")
    return module.exists() and mark.exists() and mark.read_text(encoding="utf-8") == mark_text(proved(tree, name), module)


def keep(tree: Sources, name: str, module: Path, work: Path, build: Callable[[Sources, str, Path], None]) -> None:
    """Builds a product once more over this work, and keeps its module where the same bytes come out. What is there isn't touched."""
    git = tree.root / ".git"
    with tempfile.TemporaryDirectory(prefix="retarget-", dir=git if git.is_dir() else None) as folder:
        room = Path(folder).resolve()
        with alone_in(tree.root):
            of = proved(tree, name)
            fill(tree, name, work, room / "tree")
        build(tree, name, room)
        built = room / "tree" / tree.product(name).relative_to(tree.root)
        if not built.exists() or of[1] != f"{sum_of(built)}  -":
            raise Refused(f"{name} comes out with other bytes than ./prove built, so its module isn't that of the proved build")
        modules = {it.read_bytes(): it for it in sorted(room.glob("kept.*.bc"))}
        if len(modules) != 1:
            raise Refused(f"rt compiled {len(modules)} modules of {name}, where one was expected")
        mark = module.with_suffix(".proved")
        mark.unlink(missing_ok=True)
        shutil.copyfile(next(iter(modules.values())), module)
        mark.write_text(mark_text(of, module), encoding="utf-8")


@contextlib.contextmanager
def alone_in(root: Path) -> Iterator[None]:
    """Keeps ./prove and `rt ci` out of this repository while what they keep is copied."""
    git = root / ".git"
    if not git.is_dir():
        yield
        return
    with open(git / "rt-ci.lock", "ab") as lock:
        fcntl.flock(lock, fcntl.LOCK_SH)
        yield


def fill(tree: Sources, name: str, work: Path, room: Path) -> None:
    """Fills a room: the sources of a crate and of all below it, the libraries of these, and the crate's stored work."""
    names = tree.with_all_below(name)
    room.mkdir()
    (room / "MODULE.bazel").touch()
    (room / "crates.txt").write_text("".join(f"{line}\n" for it, line in tree.lines.items() if it in names), encoding="utf-8")
    for place in tree.places(name)[1:]:
        shutil.copytree(tree.root / place, room / place)
    for it in names:
        there, here = (root / "crates" / it / "out" for root in (tree.root, room))
        here.mkdir()
        if (there / "rlib").exists():
            link(there / "rlib", here / "rlib")
    if work.exists():
        shutil.copytree(work, room / work.relative_to(tree.root))


def link(folder: Path, to: Path) -> None:
    try:
        shutil.copytree(folder, to, symlinks=True, copy_function=os.link)
    except OSError:
        shutil.rmtree(to, ignore_errors=True)
        shutil.copytree(folder, to, symlinks=True)


def make_view(room: Path) -> Path:
    """A view of the kit with another clang. rt finds its kit by its own real path, so its files are copied."""
    there, view = kit_folder(), room / "kit"
    for folder in ("bin", "toolchain/bin"):
        (view / folder).mkdir(parents=True)
    for part in there.iterdir():
        if part.name not in ("bin", "toolchain"):
            (view / part.name).symlink_to(part)
    for part in (there / "bin").iterdir():
        if part.name.startswith("rt"):
            shutil.copy2(part, view / "bin")
        else:
            (view / "bin" / part.name).symlink_to(part)
    (view / "toolchain/lib").symlink_to(there / "toolchain/lib")
    for tool in TOOLS:
        (view / "toolchain/bin" / tool).symlink_to(there / "toolchain/bin" / tool)
    clang = view / "toolchain/bin/clang"
    clang.write_text(CLANG.format(room=room, clang=there / "toolchain/bin/clang"), encoding="utf-8")
    clang.chmod(0o755)
    return view


def build_noted(tree: Sources, name: str, room: Path) -> None:
    """Builds a program in its room of what `rt ci` noted, by the commands of rt."""
    there, toolchain = kit_folder(), make_view(room) / "toolchain"
    note, built = (room / "tree" / it.relative_to(tree.root) for it in (tree.note(name), tree.product(name)))
    words = words_of_build(room / "tree", name)
    run_tool([there / "bin/rattle", "build", *words, "--crate-checked", note, "--toolchain", toolchain, "--backend", "llvm", "-o",
              f"{built}.o"], cwd=built.parent.parent)
    run_tool([there / "bin/rattle-link", "--target", "x86_64-unknown-linux-gnu", "--toolchain", there / "toolchain", "-o", built,
              f"{built}.o", there / "c/libos_c.a", there / "c/liblibc_c.a"])


def run_rt(tree: Sources, name: str, room: Path) -> None:
    """Has rt build a product in its room. `rt run` runs a program, too, whose status says nothing here."""
    is_program = tree.is_program(name)
    words = [str(make_view(room) / "bin/rt"), "run" if is_program else "lib"]
    ran = subprocess.run(words, cwd=room / "tree/crates" / name, stdin=subprocess.DEVNULL, stdout=subprocess.PIPE,
                         stderr=subprocess.STDOUT, text=True, encoding="utf-8", errors="replace", check=False)
    if not re.search(r"^logic=proved ", ran.stdout, re.M) or ran.returncode and not is_program:
        raise Refused(f"rt doesn't prove {name}:\n{ran.stdout[-2000:]}")
