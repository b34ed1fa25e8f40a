"""What the mote doesn't have: a program that uses it doesn't compile, with a reason."""

import re
from pathlib import Path

import pytest

from contiki_programs import Contiki, messages, program_of
from tools import once, table

# A statement that doesn't compile, and why, as a pattern.
STATEMENTS: dict[str, str] = table("contiki_refused_statements")
# Headers that aren't there, and the messages about them.
HEADERS: dict[str, str] = {header: why for why, headers in table("contiki_refused_headers").items() for header in headers}
NO_PROGRAM = "the sources don't compile; docs/contiki.md lists what there is"


def compile_all(contiki: Contiki, compiler: str, name: str, texts: list[str]) -> bytes:
    """Compiles one source for each text, by one command, and returns its standard error."""
    def make(folder: Path) -> None:
        folder.mkdir()
        sources = [folder / f"refused-{number}.c" for number in range(len(texts))]
        for source, text in zip(sources, texts):
            source.write_text(text, encoding="utf-8")
        made = contiki("--cc", compiler, *sources)
        assert made.returncode == 65
        (folder / "said").write_bytes(made.stderr)
    return (once(contiki.room / f"{name}-{compiler}", make) / "said").read_bytes()


@pytest.mark.parametrize("statement", STATEMENTS)
def test_statement(contiki: Contiki, sanitizing_compiler: str, statement: str) -> None:
    said = compile_all(contiki, sanitizing_compiler, "statements", [program_of(each) for each in STATEMENTS]).decode()
    parts = re.split(r"refused-(\d+)\.c\b", said)
    number = str(list(STATEMENTS).index(statement))
    of_it = "".join(text for of, text in zip(parts[1::2], parts[2::2]) if of == number)
    assert re.search(f"error: .*{STATEMENTS[statement]}", of_it), of_it


@pytest.mark.parametrize("header", HEADERS)
def test_header(contiki: Contiki, sanitizing_compiler: str, header: str) -> None:
    """Of a header of Contiki-NG's that isn't there the command says why; of another one the compiler alone tells."""
    told = messages(compile_all(contiki, sanitizing_compiler, "headers", [f'#include "{each}"\n' + program_of("") for each in HEADERS]))
    assert [text for text in told if text.startswith(f"there is no {header}: ")] == (
        [f"there is no {header}: {HEADERS[header]}"] if HEADERS[header] else [])
    assert len(told) == len([why for why in HEADERS.values() if why]) + 1 and told[-1] == NO_PROGRAM
