"""Compiles the modules of proved builds for WebAssembly, with the shim of web/shim and wasi-libc's malloc."""
from __future__ import annotations

import hashlib
import tempfile
from dataclasses import dataclass
from pathlib import Path

from retarget.compiler import clang, compile_text, run_tool, text_of
from retarget.keep_module import keep_module
from retarget.module import retargeted
from retarget.refusal import Refused
from retarget.targets.wasm32 import WASM32
from sources import Sources, kit, sum_of

ROOT = Path(__file__).resolve().parent.parent.parent
SHIM = ROOT / "web/shim"
# The memory that an instance has from the start; web/js/memory.js gives it as much. A run needs 256 KB of stack.
FIRST_MEMORY = 4 << 20
STACK = 1 << 20
LIBC = Path("/usr/lib/wasm32-wasi/libc.a")
BUILTINS = "usr/lib/llvm-*/lib/clang/*/lib/wasi/libclang_rt.builtins-wasm32.a"
# Debian's packages of these two.
PACKAGES = {"libc.a": "wasi-libc", "builtins": "libclang-rt-14-dev-wasm32"}
C_FLAGS = ("-std=c23", "-ffreestanding", "-fno-builtin", "-Wall", "-Wextra", "-Wno-incompatible-library-redeclaration", "-Werror")


@dataclass(frozen=True)
class Module:
    """A module of the page: the proved product that it is made of, the files of the shim, and what the page calls."""

    product: str
    shim: tuple[str, ...]
    exports: tuple[str, ...]


STEPS = ("run", "open", "feed", "next", "submit", "line", "clock", "close")
MODULES = {
    "library": Module("toarmuts", ("memory.c",), tuple(f"toarmuts_{step}" for step in STEPS)),
    "picture": Module("mote_picture", ("memory.c", "program.c"), ()),
    "scenario": Module("scenario", ("memory.c", "program.c"), ()),
    "network": Module("network", ("memory.c", "program.c"), ()),
}


def archives() -> list[Path]:
    """The libraries that modules are linked with. Raises ``Refused`` where a package is missing."""
    builtins = sorted(Path("/").glob(BUILTINS))
    if not LIBC.exists():
        raise Refused(f"{LIBC} is missing (Debian: {PACKAGES['libc.a']})")
    if not builtins:
        raise Refused(f"/{BUILTINS} is missing (Debian: {PACKAGES['builtins']})")
    return [LIBC, builtins[-1]]


def name_of_build() -> str:
    """A name of all that is not proved: what rewrites, compiles, and is linked."""
    here = ROOT / "scripts"
    rewriting = [it for kind in ("*.py", "*.ll") for it in sorted((here / "retarget").rglob(kind))]
    files = [*rewriting, here / "webpage/modules.py", *sorted(SHIM.iterdir()), *archives()]
    return hashlib.sha256("".join(f"{sum_of(it)}\n" for it in files).encode()).hexdigest()


def mark_text(product: str, made: Path) -> str:
    """What the mark beside a module says: names of the proved sources, of the module, of all that is not proved, and the kit."""
    sources = Sources(ROOT).mark(product).read_text(encoding="utf-8").splitlines()[0]
    return "".join(f"{line}\n" for line in [sources, sum_of(made), name_of_build(), kit()])


def link(module: Module, objects: list[Path], to: Path, room: Path) -> None:
    """Links a module. Its memory is the page's, so that the page says how much there is at most."""
    linker = room / "wasm-ld"
    linker.symlink_to(clang())
    run_tool([linker, "-mwasm32", "--no-entry", "--gc-sections", "--stack-first", "-z", f"stack-size={STACK}", "--strip-all",
              "--import-memory", f"--initial-memory={FIRST_MEMORY}", "--fatal-warnings", *(f"--export={it}" for it in module.exports),
              "-o", to, *objects, *archives()])


def compile_module(module: Module, kept: Path, to: Path) -> None:
    with tempfile.TemporaryDirectory(prefix="for-web-") as folder:
        room = Path(folder)
        text, main = room / "main.ll", room / "main.o"
        text.write_text(retargeted(text_of(kept), WASM32), encoding="utf-8")
        compile_text(text, WASM32, main)
        objects = [main]
        for source in module.shim:
            objects.append(room / f"{source}.o")
            run_tool([clang(), *WASM32.options, "-Os", *C_FLAGS, "-c", SHIM / source, "-o", objects[-1]])
        link(module, objects, to, room)


def places(name: str) -> tuple[Path, Path]:
    product = MODULES[name].product
    folder = Sources(ROOT).product(product).parent / "wasm32"
    return folder / f"{product}.wasm", folder / "proved"


def is_current(name: str) -> bool:
    product, (made, mark) = MODULES[name].product, places(name)
    return (Sources(ROOT).is_current(product) and made.exists() and mark.exists()
            and mark.read_text(encoding="utf-8") == mark_text(product, made))


def build(name: str, anew: bool = False) -> Path:
    """Builds a module where it isn't the one that these sources make, and returns where it is. ``anew`` is that of keep_module."""
    module, (made, mark) = MODULES[name], places(name)
    if is_current(name):
        return made
    kept = keep_module(ROOT, module.product, anew)
    made.parent.mkdir(exist_ok=True)
    mark.unlink(missing_ok=True)
    compile_module(module, kept, made)
    mark.write_text(mark_text(module.product, made), encoding="utf-8")
    return made
