"""The memory modules for C, by the names that Contiki-NG gives them: each beside a plain model, with all warnings and the sanitizers."""

import re
import shutil
from pathlib import Path

import pytest

from tools import (EXAMPLES, ROOT, SANITIZERS, all_hold, current_library, library_for_aarch64, needs, once, output_of, run, succeed,
                   with_sanitizers, write_program)

MODULES = ROOT / "c/modules"
SOURCES = ROOT / "tests/c/modules"
TESTS = ("memb_test", "managed_test", "mmem_test", "heapmem_test", "ringbuf_test", "list_test")
# The sizes of memory that the tests want.
SIZES = ("-DMMEM_CONF_SIZE=256", "-DHEAPMEM_CONF_ARENA_SIZE=1024", "-DHEAPMEM_CONF_MAX_ZONES=3")
# Those that are plain C.
PLAIN_MODULES = [MODULES / f"src/{name}.c" for name in ("list", "circular-list", "dbl-list", "dbl-circ-list", "ringbufindex", "unit-test")]
WARNINGS = ("-Wall", "-Wextra", "-Wconversion", "-Wsign-conversion", "-Wpedantic", "-Wundef", "-Werror")
LANGUAGES = (*(f"c -std={standard} -Wshadow -Wstrict-prototypes" for standard in ("c99", "c11", "c17")),
             "c++ -std=c++17 -Wshadow -Wold-style-cast")
SANITIZED = ("-O1", "-g", *SANITIZERS)


def build_modules(folder: Path, archive: Path, compiler: str, *flags: str) -> Path:
    def make(place: Path) -> None:
        succeed("make", "-s", "-C", MODULES, f"OUT={place}", f"CC={compiler}", f"CFLAGS={' '.join(flags)}", f"LIBS={archive}")
    return once(folder, make) / "libtoarmuts_modules.a"


def compile_test(name: str, modules: Path, built: Path, *compiler: str) -> Path:
    succeed(*compiler, "-std=c11", "-Wall", "-Wextra", "-Werror", "-Wno-overlength-strings", *SIZES, f"-I{MODULES}/include",
            f"-I{SOURCES}", f"-I{SOURCES.parent}", SOURCES / f"{name}.c", MODULES / "src/mmem-memory.c", MODULES / "src/heapmem-memory.c",
            modules, "-pthread", "-o", built)
    return built


@pytest.fixture(scope="module")
def checked(modules_library: Path, shared: Path) -> Path:
    return build_modules(shared / "modules-checked", modules_library, "gcc", *SANITIZED)


@pytest.fixture(scope="module")
def plain(modules_library: Path, shared: Path) -> Path:
    return build_modules(shared / "modules-plain", modules_library, "gcc", "-O2")


def install(modules: Path, archive: Path, *settings: str) -> None:
    succeed("make", "-s", "-C", MODULES, "install", f"OUT={modules.parent}", f"LIBS={archive}", *settings)


@pytest.fixture(scope="module")
def prefix(plain: Path, modules_library: Path, shared: Path) -> Path:
    return once(shared / "modules-prefix", lambda place: install(plain, modules_library, f"PREFIX={place}"))


@with_sanitizers
@pytest.mark.parametrize("name", TESTS)
def test_module(checked: Path, tmp_path: Path, name: str) -> None:
    """Worked calls of a module, wrong arguments, and a million random calls beside a plain model."""
    all_hold(run(compile_test(name, checked, tmp_path / name, "gcc", *SANITIZED), timeout=3600))


@needs("aarch64-linux-gnu-gcc", "qemu-aarch64")
@pytest.mark.parametrize("name", TESTS)
def test_module_for_aarch64(modules_library: Path, shared: Path, tmp_path: Path, name: str) -> None:
    archive = library_for_aarch64("modules_c").parent
    modules = build_modules(shared / "modules-aarch64", archive, "aarch64-linux-gnu-gcc", "-O1")
    built = compile_test(name, modules, tmp_path / name, "aarch64-linux-gnu-gcc", "-static", "-O1", "-DRANDOM_CALLS=20000")
    all_hold(run("qemu-aarch64", built, timeout=3600))


# ---- A source in Contiki-NG's own form ----

@pytest.fixture(scope="module")
def original(shared: Path) -> bytes:
    """What the source writes with plain stand-ins for the original's headers; the sanitizers see these too."""
    def make(built: Path) -> None:
        succeed("gcc", *SANITIZED, "-std=c11", "-fno-strict-aliasing", f"-I{SOURCES}/original", SOURCES / "source.c",
                SOURCES / "original/original.c", "-o", built)
    written = succeed(once(shared / "modules-original", make), settings={"ASAN_OPTIONS": "detect_leaks=0"}).stdout
    assert written
    return written


@with_sanitizers
def test_source(checked: Path, original: bytes, tmp_path: Path) -> None:
    succeed("gcc", *SANITIZED, "-std=c11", f"-I{MODULES}/include", SOURCES / "source.c", checked, "-o", tmp_path / "source")
    assert succeed(tmp_path / "source").stdout == original


@pytest.mark.parametrize("compiler", ["gcc", "clang"])
@pytest.mark.parametrize("language", LANGUAGES)
def test_headers(tmp_path: Path, compiler: str, language: str) -> None:
    if shutil.which(compiler) is None:
        pytest.skip(f"no {compiler} here")
    succeed(compiler, "-x", *language.split(), *WARNINGS, f"-I{MODULES}/include", "-c", SOURCES / "headers.c", "-o", tmp_path / "none.o")


@pytest.mark.parametrize("statement", ["MEMB(pool, struct large, 1);", "MEMB(pool, char, 65536);", "MEMB(pool, char, 0);",
                                       "TOARMUTS_MANAGED(memory, 0, 1);", "TOARMUTS_MANAGED(memory, 1, 0);"])
def test_refused_pool(tmp_path: Path, statement: str) -> None:
    source = f'#include "lib/memb.h"\n#include "toarmuts/managed.h"\nstruct large {{ char bytes[65536]; }};\n{statement}\n'
    made = run("gcc", "-std=c11", f"-I{MODULES}/include", "-x", "c", "-c", "-", "-o", tmp_path / "none.o", stdin=source.encode())
    assert made.returncode != 0 and b"static assertion failed" in made.stderr, output_of(made)


# ---- As it is installed ----

# Blocks take multiples of 16, and one in a gap the rest of 16, too. The general zone is one of eight.
HEAP = b"""\
heap: 176 bytes allocated, 0 overhead, 65360 available, footprint 176, at most 240, 3 chunks
heap: 176 bytes allocated, 0 overhead, 65360 available, footprint 176, at most 240, 3 chunks
chunk 0: place 0, size 48, room 48
chunk 1: place 48, size 96, room 112
chunk 2: place 160, size 16, room 16
1 1 1
6
"""


def pkg_config(prefix: Path, *words: str) -> list[str]:
    ran = succeed("pkg-config", *words, "toarmuts-modules", settings={"PKG_CONFIG_PATH": str(prefix / "lib/pkgconfig")})
    return ran.stdout.decode().split()


@needs("pkg-config")
@pytest.mark.parametrize("name", ["source", "installed"])
def test_installed(prefix: Path, original: bytes, tmp_path: Path, name: str) -> None:
    """The source above, and what the heap prints, with the installed modules, whose version pkg-config prints."""
    succeed("gcc", "-std=c11", SOURCES / f"{name}.c", *pkg_config(prefix, "--cflags", "--libs"), "-o", tmp_path / name)
    assert succeed(tmp_path / name).stdout == {"source": original, "installed": HEAP}[name]
    assert pkg_config(prefix, "--modversion") == [(ROOT / "VERSION").read_text(encoding="utf-8").strip()]


def test_destination(prefix: Path, plain: Path, modules_library: Path, tmp_path: Path) -> None:
    """With DESTDIR the same files are installed there."""
    install(plain, modules_library, f"DESTDIR={tmp_path}", "PREFIX=/opt/it")

    def files(folder: Path) -> list[str]:
        return sorted(str(path.relative_to(folder)) for path in folder.rglob("*") if path.is_file())
    assert files(prefix) == files(tmp_path / "opt/it") != []


def test_sizes_of_its_own(prefix: Path, tmp_path: Path) -> None:
    """A program with other sizes compiles the sources that were installed for that, and includes headers by their bare names."""
    source = "".join(f'#include "{name}.h"\n' for name in ("heapmem", "mmem", "memb", "list", "ringbuf")) + (
        "int main(void) { struct mmem m; return !(heapmem_alloc(64) && !heapmem_alloc(1) && mmem_alloc(&m, 32) && !mmem_alloc(&m, 1)); }\n")
    (tmp_path / "sizes.c").write_text(source, encoding="utf-8")
    succeed("gcc", "-std=c11", f"-I{prefix}/include/toarmuts-modules", "-DHEAPMEM_CONF_ARENA_SIZE=64", "-DMMEM_CONF_SIZE=32",
            tmp_path / "sizes.c", *(prefix / f"share/toarmuts-modules/{name}-memory.c" for name in ("heapmem", "mmem")),
            prefix / "lib/libtoarmuts_modules.a", "-o", tmp_path / "sizes")
    succeed(tmp_path / "sizes")


@pytest.mark.parametrize("size, is_built", [("0x7fffff0", True), ("0x7fffff1", False), ("0x8000000", False), ("0", False)])
def test_size_of_a_heap(tmp_path: Path, size: str, is_built: bool) -> None:
    """A heap has at least 1 byte, and less than 128 MB, rounded up: its rows have 27 bits for a size."""
    words = (f"-DHEAPMEM_CONF_ARENA_SIZE={size}", "-DHEAPMEM_CONF_MAX_BLOCKS=1", "-c", MODULES / "src/heapmem-memory.c")
    made = run("gcc", "-std=c11", f"-I{MODULES}/include", *words, "-o", tmp_path / "none.o")
    assert (made.returncode == 0) == is_built, output_of(made)
    assert is_built or b"static assertion failed" in made.stderr, output_of(made)


def test_program_of_one_module(modules_library: Path, tmp_path: Path) -> None:
    """A program links only the proved calls of its module. The folder of the archive may have a blank in its path."""
    (tmp_path / "a blank").symlink_to(modules_library)
    modules = build_modules(tmp_path / "modules", tmp_path / "a blank", "gcc", "-O2")
    source = '#include "lib/memb.h"\nMEMB(pool, int, 2);\nint main(void) { memb_init(&pool); return memb_alloc(&pool) != pool.mem; }\n'
    (tmp_path / "one.c").write_text(source, encoding="utf-8")
    succeed("gcc", "-std=c11", f"-I{MODULES}/include", tmp_path / "one.c", modules, "-o", tmp_path / "one")
    succeed(tmp_path / "one")
    assert set(re.findall(rb"toarmuts_[a-z]+_", succeed("nm", tmp_path / "one").stdout)) == {b"toarmuts_memb_"}


@needs("make")
def test_archive_of_a_core(tmp_path: Path) -> None:
    """What is built for a core stays for the next make; who builds it may say that it takes long. Here a stand-in builds it."""
    shutil.copytree(MODULES, tmp_path / "c/modules", ignore=shutil.ignore_patterns("out"))
    proved = tmp_path / "crates/modules_c/out"
    (tmp_path / "scripts").mkdir()
    (tmp_path / "VERSION").touch()
    write_program(tmp_path / "prove", f"#!/bin/bash\nmkdir -p {proved} && touch {proved}/libmodules_c.a\n")
    write_program(tmp_path / "scripts/for-cortex-m", (
        f'#!/bin/bash\necho "$@" slow >&2\nmkdir -p {proved}/$2 && touch {proved}/$2/libmodules_c.a\n'))
    for wanted in b"modules_c cortex-m3 slow\n", b"":
        made = run("make", "-s", "-C", tmp_path / "c/modules", "CORE=cortex-m3", "CC=true", "AR=true")
        assert (made.returncode, made.stderr) == (0, wanted), output_of(made)
        assert (proved / "cortex-m3/libmodules_c.a").exists()


@needs("make")
def test_example(modules_library: Path) -> None:
    current_library("modules_c")
    succeed("make", "-s", "-C", EXAMPLES / "c", "readings")
    assert succeed(EXAMPLES / "c/readings").stdout.endswith(b"21 degrees\n")


def test_cost_is_measured(plain: Path, tmp_path: Path) -> None:
    """What docs/modules.md says that it costs is measured by a program that compiles."""
    succeed("gcc", "-std=gnu11", "-O2", "-Wall", "-Wextra", "-Werror", f"-I{MODULES}/include", ROOT / "bench/heapmem_cost.c", plain, "-o",
            tmp_path / "cost")
