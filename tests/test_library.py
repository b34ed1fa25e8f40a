"""The library for C: runs, motes and networks step by step, by programs in C with all warnings and the sanitizers, and for aarch64."""

import re
from pathlib import Path
from typing import Callable, NamedTuple

import pytest

from tools import (EXAMPLES, ROOT, SANITIZERS, all_hold, current_library, library_for_aarch64, needs, once, output_of, run, succeed,
                   with_sanitizers)

WARNINGS = ("-Wall", "-Wextra", "-Werror")
SOURCES = ROOT / "tests/c"
NETWORKS = 200


class Program(NamedTuple):
    """A program in C, its arguments here and for aarch64, and the sources that it is compiled with."""
    name: str
    words: list[str]
    words_for_aarch64: list[str]
    others: list[str]


STEPS = Program("steps_test", ["1000000", "1000"], ["10000"], ["toarmuts_memory.c", "-pthread"])
NETWORK = Program("network_test", ["1000000"], ["10000"], ["toarmuts_memory.c"])
PROGRAMS = [Program("library_test", ["1000000"], ["10000"], ["toarmuts_memory.c"]), STEPS, Program("steps_memory_test", [], ["0"], []),
            NETWORK, Program("network_memory_test", [], [], []), Program("block_test", [], [], ["toarmuts_block.c"])]
of_each_program = pytest.mark.parametrize("program", PROGRAMS, ids=[program.name for program in PROGRAMS])


def compile_over(library: Path, archive: Path, program: Program, built: Path, *compiler: str) -> Path:
    def make(place: Path) -> None:
        others = [other if other.startswith("-") else str(library / other) for other in program.others]
        succeed(*compiler, "-std=c11", *WARNINGS, f"-I{library}", SOURCES / f"{program.name}.c", *others, archive, "-o", place)
    return once(built, make)


@pytest.fixture(scope="module")
def sanitized(toarmuts_library: Path, shared: Path) -> Callable[[Program], Path]:
    return lambda program: compile_over(toarmuts_library, toarmuts_library / "libtoarmuts.a", program, shared / program.name,
                                        "gcc", "-O1", "-g", *SANITIZERS)


@pytest.mark.parametrize("name", ["toarmuts", "modules_c"])
def test_is_current(toarmuts_library: Path, modules_library: Path, name: str) -> None:
    """The library that is tested is the one of the sources as they are."""
    assert toarmuts_library.exists() and modules_library.exists() and current_library(name).exists()


@with_sanitizers
@of_each_program
def test_program(sanitized: Callable[[Program], Path], program: Program) -> None:
    """Worked replies, and as many random calls as the arguments say."""
    all_hold(run(sanitized(program), *program.words, timeout=3600))


@with_sanitizers
@pytest.mark.parametrize("program", [STEPS, NETWORK], ids=[STEPS.name, NETWORK.name])
def test_forgotten_close_is_found(sanitized: Callable[[Program], Path], program: Program) -> None:
    ran = run(sanitized(program), "forget")
    assert ran.returncode != 0 and b"leaked in" in ran.stderr, output_of(ran)


@with_sanitizers
def test_networks_like_the_program(network: Path, sanitized: Callable[[Program], Path], tmp_path: Path) -> None:
    """Random networks whose applications are lists of calls have the bytes that the program network writes for the same script."""
    all_hold(run(sanitized(NETWORK), "write", str(NETWORKS), tmp_path, timeout=3600))
    scripts = sorted(tmp_path.glob("*.net"))
    assert len(scripts) == NETWORKS
    seen = b""
    for script in scripts:
        ran = run(network, stdin=script)
        transcript = script.with_suffix(".transcript").read_bytes()
        assert ran.stdout == transcript and ran.returncode in (0, 3), script.read_text(encoding="ascii")
        seen += transcript
    # Each kind of line is among them.
    for line in (rb"^= \d+$", rb"^\d note sent ", rb"^lost \d \d$", rb"^full \d \d$", rb"^halt$", rb"^\d > frame ", rb"^\d > serial "):
        assert re.search(line, seen, re.MULTILINE), line


@pytest.mark.parametrize("compiler", ["gcc -std=c99 -x c", "g++ -std=c++11 -x c++"])
def test_header(toarmuts_library: Path, compiler: str) -> None:
    succeed(*compiler.split(), "-Wall", "-Wextra", "-Wpedantic", "-Wshadow", "-Werror", "-fsyntax-only", toarmuts_library / "toarmuts.h")


@needs("make")
def test_examples(c_examples: Path) -> None:
    """The examples are built by their Makefile; blink runs, and beat writes its transcript."""
    assert b"timer-set" in succeed(c_examples / "blink").stdout
    assert succeed(c_examples / "beat").stdout == (c_examples / "beat.transcript").read_bytes()
    # Without a target, blink is built and run.
    assert b"timer-set" in succeed("make", "-s", "-C", c_examples).stdout


@pytest.mark.parametrize("compiler", ["gcc", "clang"])
def test_example_in_a_block(toarmuts_library: Path, tmp_path: Path, compiler: str) -> None:
    """An example with its mote in a block, linked with nothing that allocates, writes the same transcript."""
    source = (EXAMPLES / "c/beat.c").read_text(encoding="utf-8").replace("toarmuts.h", "toarmuts_block.h")
    source = source.replace("toarmuts_open(", "static char block[1 << 17];\ntoarmuts_open_in(block, sizeof block, ")
    (tmp_path / "beat.c").write_text(source, encoding="utf-8")
    succeed(compiler, "-std=c11", "-O2", "-Wall", "-Wextra", "-Werror", f"-I{toarmuts_library}", tmp_path / "beat.c",
            toarmuts_library / "toarmuts_block.c", toarmuts_library / "libtoarmuts.a", "-Wl,--wrap=malloc,--wrap=calloc,--wrap=realloc",
            "-o", tmp_path / "beat")
    assert succeed(tmp_path / "beat").stdout == (EXAMPLES / "c/beat.transcript").read_bytes()


@needs("aarch64-linux-gnu-gcc", "qemu-aarch64")
@of_each_program
def test_program_for_aarch64(toarmuts_library: Path, tmp_path: Path, program: Program) -> None:
    archive = library_for_aarch64("toarmuts")
    built = compile_over(toarmuts_library, archive, program, tmp_path / program.name, "aarch64-linux-gnu-gcc", "-static", "-O1")
    all_hold(run("qemu-aarch64", built, *program.words_for_aarch64, timeout=3600))
