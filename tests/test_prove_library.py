"""scripts/prove_library.py with stand-ins for the kit: how a library is proved, and what is left of it."""

import os
import shutil
import sys
from pathlib import Path

import pytest

from tools import ROOT, Completed, run


class Library:
    """The crate `tool` and a kit, and what the script says there."""

    def __init__(self, room: Path) -> None:
        self.kit, self.begun, self.built = room / "kit", room / "begun", room / "crates/tool/out/rlib"
        shutil.copytree(ROOT / "tests/stand_in_kit", self.kit)
        (self.kit / "WHAT").write_text("a kit", encoding="utf-8")
        self.built.mkdir(parents=True)
        self.source = room / "crates/tool/src/lib.rt"
        self.source.parent.mkdir()
        self.source.write_text("first", encoding="utf-8")
        for name in ("stamp", "old"):
            (self.built / name).write_text("old", encoding="utf-8")
        self.lower = room / "crates/lower/out/rlib/lower.rlib/file"
        self.lower.parent.mkdir(parents=True)
        self.lower.write_text("first", encoding="utf-8")

    def prove(self, path: str = "", **settings: str) -> Completed:
        known = {"PATH": f"{path}{self.kit}/bin:{os.environ['PATH']}", "BEGUN": str(self.begun), "HELP": "--statements", "BUILT": "0",
                 "STATUS": "0"}
        return run(sys.executable, ROOT / "scripts/prove_library.py", "--jobs", "2", cwd=self.built.parent.parent,
                   settings={**known, **settings})

    def files(self) -> list[str]:
        return sorted(it.name for it in self.built.iterdir())


@pytest.fixture
def library(tmp_path: Path) -> Library:
    return Library(tmp_path)


def test_library_has_only_statements(library: Library) -> None:
    """Nothing is left of the one before, and the stamp is that of the sources."""
    ran = library.prove()
    assert ran.returncode == 0 and library.files() == ["over", "stamp", "tool.rlib"]
    assert ran.stdout.decode().split()[:2] == ["rattle", "build"] and b" --jobs 2 keeps=False --statements -o " in ran.stdout
    assert (library.built / "stamp").read_text(encoding="utf-8") == "stamp" and not library.begun.exists()


def test_current_library(library: Library) -> None:
    """It isn't built again."""
    ran = library.prove(BUILT="1")
    assert (ran.returncode, ran.stdout, library.files()) == (0, b"", ["old", "stamp"])


@pytest.mark.parametrize("changed", ["lower", "source"])
def test_library_is_built_again(library: Library, changed: str) -> None:
    """The library is built from other sources, or over another build, whatever the stamp says; from the same ones it isn't built again."""
    library.prove()
    assert library.prove(BUILT="1").stdout == b""
    getattr(library, changed).write_text("second", encoding="utf-8")
    assert library.prove(BUILT="1").stdout.startswith(b"rattle build") and library.prove(BUILT="1").stdout == b""


def test_library_below_is_the_same_again(library: Library) -> None:
    """The stamp of a library fits no more after any change below it. Where its own sources, the builds below and the kit are the same, it
    gets the present one, and isn't built again."""
    library.prove()
    (library.built / "stamp").write_text("of other sources below", encoding="utf-8")
    library.lower.unlink()
    library.lower.write_text("first", encoding="utf-8")
    assert library.prove().stdout == b"" and (library.built / "stamp").read_text(encoding="utf-8") == "stamp"
    (library.kit / "WHAT").write_text("another kit", encoding="utf-8")
    assert library.prove().stdout.startswith(b"rattle build")
    (library.lower.parent / "more").touch()
    assert library.prove().stdout.startswith(b"rattle build") and library.prove().stdout == b""


def test_library_that_is_not_proved(library: Library) -> None:
    """It has no stamp, and the status is rattle's."""
    assert library.prove(STATUS="3").returncode == 3
    assert library.files() == ["tool.rlib"]


@pytest.mark.parametrize("is_old", [True, False], ids=["an-old-kit", "another-rt"])
def test_rt_lib_is_run(library: Library, tmp_path: Path, is_old: bool) -> None:
    """A kit that can't build statements only, or an rt in PATH that isn't the kit's."""
    (tmp_path / "bin").mkdir()
    shutil.copy2(library.kit / "bin/rt", tmp_path / "bin")
    (tmp_path / "bin/rt").write_text(f'#!/bin/sh\n[ "$1" != doc ] || exec "{library.kit}/bin/rt" doc\necho "$*" >"$BEGUN"\nexit 4\n')
    ran = library.prove(HELP="") if is_old else library.prove(f"{tmp_path}/bin:")
    assert ran.returncode == (9 if is_old else 4) and library.files() == ["old", "stamp"]
    assert library.begun.read_text(encoding="utf-8").startswith("lib --jobs 2")
