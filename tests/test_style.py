"""The style of what isn't proved: flake8 and mypy for Python, shellcheck for shell, clang-format for C; shebangs and endings."""

import functools
import re
from pathlib import Path

import pytest

from tools import ROOT, needs, output_of, run, succeed

# Each kind of script has one first line. A script that takes Debian's packages for Python names Debian's.
SHEBANGS = {"#!/usr/bin/env python3": "python", "#!/usr/bin/python3": "python", "#!/bin/bash": "shell", "#!/bin/sh": "shell",
            "#!/usr/bin/env bash": "shell"}


@functools.lru_cache(maxsize=None)
def files() -> list[Path]:
    listed = run("git", "ls-files", "--cached", "--others", "--exclude-standard", cwd=ROOT)
    if listed.returncode == 0:
        return [path for name in listed.stdout.decode().splitlines() if (path := ROOT / name).is_file() and not path.is_symlink()]
    return [path for path in ROOT.rglob("*") if path.is_file() and not path.is_symlink() and "out" not in path.relative_to(ROOT).parts]


def first_line(path: Path) -> str:
    with path.open("rb") as opened:
        return opened.readline(200).decode(errors="replace").rstrip("\n")


def kind(path: Path) -> str:
    """What kind of source a file is: by its first line, or by its ending."""
    by_ending = {".py": "python", ".sh": "shell", ".c": "C", ".h": "C"}.get(path.suffix, "")
    return SHEBANGS.get(first_line(path), by_ending)


def sources(*kinds: str) -> list[Path]:
    return [path for path in files() if kind(path) in kinds]


def test_first_lines() -> None:
    """A command begins with one of the first lines above, and is executable; other files have an ending, and aren't."""
    faults = []
    for path in files():
        first, is_command = first_line(path), bool(path.stat().st_mode & 0o100)
        if first.startswith("#!") and first not in SHEBANGS:
            faults.append(f"{path}: {first}")
        if first.startswith("#!") and path.suffix not in (".py", ".sh") and not is_command:
            faults.append(f"{path}: no command")
        if is_command and not first.startswith("#!"):
            faults.append(f"{path}: no first line")
    assert not faults, "\n".join(faults)


def test_text() -> None:
    """Sources end with a line end. (Of Python flake8 says so, and of tabs.)"""
    faults = [str(path) for path in sources("shell", "C") if not path.read_text(encoding="utf-8").endswith("\n")]
    assert not faults, "\n".join(faults)


def long_lines(text: str) -> list[int]:
    """The numbers of the lines that are longer than editors have them."""
    return [number for number, line in enumerate(text.splitlines(), 1) if len(line) > longest_line()]


def test_long_lines() -> None:
    """clang-format leaves comments as they are. (Of Python flake8 says so.)"""
    assert long_lines("/*" + 136 * "-" + "*/\n/*" + 137 * "-" + "*/\n") == [2]
    faults = [f"{path}:{number}" for path in sources("shell", "C") for number in long_lines(path.read_text(encoding="utf-8"))]
    assert not faults, "\n".join(faults)


@needs("flake8")
def test_flake8() -> None:
    succeed("flake8", *sources("python"), cwd=ROOT)


@needs("mypy")
def test_mypy(tmp_path: Path) -> None:
    checked = [path for path in sources("python") if path.parent in (ROOT, ROOT / "tests", ROOT / "scripts")]
    succeed("mypy", "--cache-dir", tmp_path, *checked, cwd=ROOT)


@needs("shellcheck")
@pytest.mark.parametrize("path", sources("shell"), ids=lambda path: str(path.relative_to(ROOT)))
def test_shellcheck(path: Path) -> None:
    ran = run("shellcheck", "--external-sources", "--severity=warning", path, cwd=ROOT)
    assert ran.returncode == 0, output_of(ran)


@needs("clang-format")
def test_clang_format() -> None:
    checked = sources("C")
    assert checked
    ran = run("clang-format", "--dry-run", *checked, cwd=ROOT)
    assert ran.returncode == 0 and ran.stderr == b"", output_of(ran)


def longest_line() -> int:
    longest, = re.findall(r"max_line_length = (\d+)", (ROOT / ".editorconfig").read_text(encoding="utf-8"))
    return int(longest)


def test_lines_of_editorconfig() -> None:
    """Editors have the same settings as flake8 and clang-format."""
    assert f"max-line-length = {longest_line()}\n" in (ROOT / ".flake8").read_text(encoding="utf-8")
    assert f"ColumnLimit: {longest_line()}\n" in (ROOT / ".clang-format").read_text(encoding="utf-8")
