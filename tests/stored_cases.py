"""Stored runs of programs, a file each: the folders tests/cases (of `mote`) and tests/networks (of `network`).

The first line is the command after `$ `, with words as bash reads them. Below a line `-- stdin`, `-- stdout` or `-- stderr` is that text;
below `-- stdout begins` or `-- stderr begins` its beginning alone, where it is the text of the command line's parser. A text that isn't
there is empty. A line `-- status N` has the status, where that isn't 0. All texts were written out from the rules.
"""

import re
from dataclasses import dataclass
from pathlib import Path

from tools import ROOT, Completed, run

HEADING = re.compile(rb"^-- ", re.M)
HEADINGS = {"stdin", "stdout", "stdout begins", "stderr", "stderr begins"}


@dataclass(frozen=True)
class StoredCase:
    """A stored run: its name, the words after the program's name, the texts by their headings, and the status."""
    name: str
    words: bytes
    texts: dict[str, bytes]
    status: int = 0

    def text(self, heading: str) -> bytes:
        return self.texts.get(heading, b"")

    def ran(self, program: Path, before: str = "", stdin: Path | None = None) -> Completed:
        """What the program does, on the text for it: from this file that has it, or from a pipe, in which a command may be before it."""
        command = b'program=$0; ' + before.encode() + b'"$program" ' + self.words
        return run("bash", "-c", command, program, stdin=stdin or self.text("stdin"))

    def judge(self, ran: Completed) -> None:
        """Compares what was written, and the status, with what is stored."""
        for stream, written in (("stdout", ran.stdout), ("stderr", ran.stderr)):
            begin = self.text(f"{stream} begins")
            assert written.startswith(begin) if begin else written == self.text(stream)
        assert ran.returncode == self.status


def read_case(file: Path) -> StoredCase:
    command, *parts = HEADING.split(file.read_bytes())
    texts, status = {}, 0
    for part in parts:
        heading, _, text = part.partition(b"\n")
        if heading.startswith(b"status "):
            status = int(heading.removeprefix(b"status "))
        else:
            texts[heading.decode()] = text
    match = re.fullmatch(rb"\$ (?:mote|network)( .*)?\n", command)
    assert match and texts.keys() <= HEADINGS, file
    return StoredCase(file.stem, match[1] or b"", texts, status)


def stored_cases(folder: str) -> list[StoredCase]:
    """Those of a folder of tests."""
    return [read_case(file) for file in sorted((ROOT / "tests" / folder).iterdir())]
