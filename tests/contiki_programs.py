"""Programs in C for Contiki-NG: how tests write, build and run them."""

import re
from dataclasses import dataclass
from pathlib import Path
from typing import Mapping

from tools import EXAMPLES, ROOT, Completed, Word, once, output_of, run

SOURCES = ROOT / "tests/c/contiki"
STRICT = ("-std=c11", "-Wall", "-Wextra", "-pedantic", "-Wshadow", "-Wstrict-prototypes", "-Werror")
BLINKER = EXAMPLES / "contiki/blinker.c"
HELLO = EXAMPLES / "contiki/hello-world.c"

PROGRAM = """#include "contiki.h"
#include "contiki-net.h"
#include "dev/leds.h"
#include "sys/log.h"
#include <stdlib.h>
PROCESS(only, "Only");
AUTOSTART_PROCESSES(&only);
{}
PROCESS_THREAD(only, ev, data)
{{
  PROCESS_BEGIN();
  {}
  PROCESS_END();
}}
"""
# The line of the statement below.
STATEMENT_LINE = 12


def program_of(statement: str, functions: str = "") -> str:
    """The source of a program whose one process executes this statement. Functions are on one line."""
    return PROGRAM.format(functions, statement)


def write_source(folder: Path, text: str) -> Path:
    source = folder / "program.c"
    source.write_text(text, encoding="utf-8")
    return source


def script_of(source: Path) -> bytes:
    return source.with_suffix(".script").read_bytes()


def transcript_of(source: Path) -> bytes:
    return source.with_suffix(".transcript").read_bytes()


def place(process: str, stimulus: str, line: int, calls: object) -> str:
    return f"contiki: process {process}, handling {stimulus} at line {line} of the transcript, after {calls} calls: "


def outcome(ran: Completed) -> tuple[int, str, str]:
    return ran.returncode, ran.stdout.decode(errors="replace"), ran.stderr.decode(errors="replace")


def messages(text: bytes) -> list[str]:
    """The messages of the command itself among all that was written to standard error."""
    return re.findall("^contiki: (.*)$", text.decode(), re.M)


@dataclass
class Contiki:
    """The command `contiki` over a library, and a folder for programs that are built once."""

    library: Path
    room: Path

    def __call__(self, *words: Word, stdin: bytes | Path = b"", settings: Mapping[str, str] | None = None,
                 cwd: Path | None = None) -> Completed:
        return run(ROOT / "contiki", "--library", self.library, *words, stdin=stdin, settings=settings, cwd=cwd)

    def build(self, source: Path, compiler: str = "gcc", *words: str) -> Path:
        """Builds a program, from one source or from those of a folder, once. There is no warning, also none in the driver."""
        name = "-".join([source.stem, compiler, *(word.strip("-") for word in words)])

        def make(program: Path) -> None:
            sources = sorted(source.glob("*.c")) if source.is_dir() else [source]
            made = self("--cc", compiler, "--build", program, *STRICT, *words, *sources)
            assert (made.returncode, made.stderr) == (0, b""), output_of(made)
        return once(self.room / name, make)
