"""What is there because it was asked for, by the table tests/tables/asked_for.json: public calls and types, worked runs, tests with their
numbers, and wrong bodies. Code and tests may become shorter, but none of these may be lost.

Each row names what it is, the file that shows it, and what must be written there. A worked run is named by its file in crates/scenario/data
and its heading there, and what it must have are regular expressions.
"""

import re
from pathlib import Path

import pytest

import public_calls
from tools import CRATES, ROOT, table

ASKED_FOR = table("asked_for")
LISTED = {(row.crate, row.owner, named[1]) for row in public_calls.rows_of(public_calls.PAGE.read_text(encoding="utf-8"))
          if (named := re.search(r"(?:(?:fn|enum|struct|type) |::)(\w+)(?=[^:\w]|$)", row.signature))}


def is_listed(crate: str, name: str) -> bool:
    """`TYPE::CALL`, or the name of a type, or of a call, whether it belongs to a type or not."""
    owner, _, call = name.rpartition("::")
    if owner:
        return (crate, owner, call) in LISTED
    return any(row == (crate, row[1], name) for row in LISTED)


@pytest.mark.parametrize("crate", ASKED_FOR["public calls"])
def test_public_calls(crate: str) -> None:
    """interface/public-calls.md lists them; tests/public_calls.py compares it with the sources."""
    assert [name for name in ASKED_FOR["public calls"][crate] if not is_listed(crate, name)] == []


def run_of(file: str, name: str) -> str:
    """The run of this name, with its heading."""
    text = (CRATES / "scenario/data" / f"{file}.scenario").read_text(encoding="utf-8")
    found = re.findall(rf"^== {re.escape(name)}\n(?:(?!== ).*\n)*", text + "\n", re.M)
    assert len(found) == 1, f"{file}.scenario: no run {name}"
    return re.sub(r"\n+$", "\n", re.sub(r"^#.*\n", "", str(found[0]), flags=re.M))


@pytest.mark.parametrize(("file", "name", "patterns"), ASKED_FOR["worked runs"])
def test_worked_run(file: str, name: str, patterns: list[str]) -> None:
    run = run_of(file, name)
    assert [pattern for pattern in patterns if not re.search(pattern, run)] == []


@pytest.mark.parametrize(("case", "texts"), ASKED_FOR["runs of the program"])
def test_run_of_program(case: str, texts: list[str]) -> None:
    """A file of tests/cases, which tests/test_program.py runs."""
    stored = (ROOT / "tests/cases" / f"{case}.case").read_text(encoding="utf-8")
    assert [text for text in texts if text not in stored] == []


@pytest.mark.parametrize(("what", "file", "texts"), ASKED_FOR["tests"])
def test_test(what: str, file: str, texts: list[str]) -> None:
    text = (ROOT / file).read_text(encoding="utf-8")
    assert [part for part in texts if part not in text] == [], what


@pytest.mark.parametrize(("what", "edits"), ASKED_FOR["wrong bodies"])
def test_wrong_body(what: str, edits: list[str]) -> None:
    """An edit in must-fail/ of its crate, which the gate tries and the check must refuse. What it changes is in the source."""
    for edit in edits:
        crate, _, name = edit.partition("/")
        lines = (CRATES / crate / "must-fail" / f"{name}.edit").read_text(encoding="utf-8").splitlines()
        file, old, new = (line.partition(":")[2] for line in lines[:3])
        source: Path = CRATES / crate / file.strip()
        assert source.read_text(encoding="utf-8").count(old.strip()) == 1 and old != new, f"{what}: {edit}"
