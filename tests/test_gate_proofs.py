"""tests/proofs on a small tree of crates, with a stand-in for `rt ci`: what that proved counts as proved, for exactly these sources."""

import re
import shutil
import sys
import threading
import time
from importlib.machinery import SourceFileLoader
from importlib.util import module_from_spec, spec_from_loader
from pathlib import Path

import pytest

from small_tree import Tree, wait_until
from tools import ROOT, needs, succeed

pytestmark = needs("rt")
BUILT = """import sys
sys.path.insert(0, sys.argv[2])
import rtlib
print(*(it.name for it in rtlib.crates_below(sys.argv[1]) if it.makes_rlib() and it.is_built()))
"""
LAST = "7 passed, 0 failed"


def built(tree: Tree) -> list[str]:
    """The libraries that rt itself takes as those of the sources as they are."""
    kit = Path(succeed("rt", "doc").stdout.decode().strip()).parent
    return succeed(sys.executable, "-B", "-c", BUILT, tree.root, kit / "bin").stdout.decode().split()


def prove_all(tree: Tree, **settings: str) -> list[str]:
    """The lines of a run: `rt ci` on a copy, or without TOARMUTS_EDITS in the tree."""
    tree.run("tests/proofs", stdin=b"", cwd=None, **{"TOARMUTS_EDITS": "together", "TOP": str(tree.root), **settings})
    assert not list((tree.root / ".git").glob("proofs-*"))
    return tree.stdout.splitlines()


in_both = pytest.mark.parametrize("edits", ["together", ""], ids=["on a copy", "in the tree"])


def takes(libraries: int, programs: int) -> list[str]:
    """The last lines where so much is taken as proved."""
    return [f"tests/proofs: ./prove takes {libraries} libraries and {programs} programs of this as proved", LAST]


@in_both
def test_all_is_taken(tree: Tree, edits: str) -> None:
    """What `rt ci` proved is taken as proved, until a source is edited."""
    assert prove_all(tree, TOARMUTS_EDITS=edits)[-2:] == takes(3, 2) and tree.ran.returncode == 0
    assert built(tree) == ["beside", "low", "high"]
    assert tree.runs_proved()
    assert tree.run("prove", "--is-current", "scenario").returncode == 0
    assert tree.run("prove", "--is-current", "toarmuts").returncode == 1
    assert prove_all(tree, TOARMUTS_EDITS=edits)[-2:] == takes(0, 2) and built(tree) == ["beside", "low", "high"]
    tree.edit("low")
    assert tree.runs_unproved() and built(tree) == ["beside"]
    # What is left of other sources doesn't come in the place of what was proved.
    shutil.rmtree(tree.crate("beside") / "out")
    assert prove_all(tree, TOARMUTS_EDITS=edits)[-2:] == takes(3, 2)
    assert (tree.crate("low") / "out/rlib/low.rlib/lib.rt").read_bytes() == tree.source("low").read_bytes()
    assert built(tree) == ["beside", "low", "high"]


@in_both
@pytest.mark.parametrize("meanwhile", [
    'echo "// more" >>crates/low/src/lib.rt',
    'sed -i "s/fn/gn/" crates/low/src/lib.rt && sed -i "s/gn/fn/" crates/low/src/lib.rt',
    "touch crates/high/src/other.rt && rm crates/high/src/other.rt",
    "cp -p crates.txt kept && echo more: >>crates.txt && mv kept crates.txt",
], ids=["edited", "edited back", "added and taken away", "another list"])
def test_touched_meanwhile(tree: Tree, meanwhile: str, edits: str) -> None:
    """Where a source was touched meanwhile, nothing is taken as proved."""
    touched = "tests/proofs: a source was touched meanwhile, so ./prove takes nothing of this as proved"
    assert prove_all(tree, MEANWHILE=meanwhile, TOARMUTS_EDITS=edits)[-2:] == [touched, LAST]
    assert tree.ran.returncode == 0 and not built(tree) and not (tree.crate("mote") / "out/proved").exists()


def test_some_are_current_before(tree: Tree) -> None:
    """A copy's libraries come in the place of all that are there, of which some are current: otherwise the others are proved."""
    assert prove_all(tree)[-2:] == takes(3, 2)
    tree.edit("low")
    assert built(tree) == ["beside"]
    assert prove_all(tree)[-2:] == takes(3, 2) and built(tree) == ["beside", "low", "high"]
    assert tree.run("prove", "--is-current", "scenario").returncode == 0


def test_built_after_it(tree: Tree) -> None:
    """Where a library was built over others, none is taken."""
    assert prove_all(tree, BEHIND="touch crates/low/out/rlib/stamp", TOARMUTS_EDITS="")[-2:] == takes(0, 2)


def test_built_beside_it(tree: Tree) -> None:
    """A library that was built in the tree while `rt ci` ran on a copy stays, and none is taken."""
    kit = Path(succeed("rt", "doc").stdout.decode().strip()).parent
    stamp = "import sys, rtlib; print(next(it for it in rtlib.crates_below(sys.argv[1]) if it.name == 'low').stamp(), end='')"
    command = f'PYTHONPATH={kit}/bin {sys.executable} -Bc "{stamp}" "$PWD" >crates/low/out/rlib/stamp'
    build = f"mkdir -p crates/low/out/rlib/low.rlib && {command}"
    assert prove_all(tree, MEANWHILE=build)[-2:] == takes(0, 2)
    assert built(tree) == ["low"] and tree.runs_proved()


@pytest.mark.parametrize(("wish", "told"), [("3", "jobs 3"), ("0", r"jobs [1-9]\d*"), ("", r"jobs [1-9]\d*")])
def test_jobs_of_rt_ci(tree: Tree, wish: str, told: str) -> None:
    """`rt ci` gets a number of jobs: that of RT_JOBS, or one that suits the machine."""
    lines = prove_all(tree, RT_JOBS=wish)
    assert [line for line in lines if re.fullmatch(told, line)], lines


def test_list_that_rt_refuses(tree: Tree) -> None:
    """Then nothing is taken, and `rt ci` says the rest."""
    with (tree.root / "crates.txt").open("a", encoding="utf-8") as opened:
        opened.write("high: nothing\n")
    assert prove_all(tree)[-1] == LAST and tree.ran.returncode == 0
    assert not (tree.crate("mote") / "out/proved").exists()


@in_both
def test_notes_of_programs(tree: Tree, edits: str) -> None:
    """What `rt ci` notes of a program, and soon removes, is copied beside it with a name of its sources. Nothing is left elsewhere."""
    room = tree.room / "temporary"
    room.mkdir()
    removed = 'until compgen -G "$TMPDIR/proofs-*/mote" && compgen -G "$TMPDIR/proofs-*/scenario"; do sleep 0.05; done >/dev/null; '
    removed += 'rm -r "$TMPDIR"/rt-proved-*'
    assert prove_all(tree, MEANWHILE=removed, TMPDIR=str(room), TOARMUTS_EDITS=edits)[-2:] == takes(3, 2) and not list(room.iterdir())
    for name in ("mote", "scenario"):
        note = tree.crate(name) / "out/checked"
        assert [(it.name, it.read_text(encoding="utf-8")) for it in note.iterdir()] == [("inputs", f"crate {name} program\n")]
        named = note.with_name("checked.sources").read_text(encoding="utf-8")
        assert named == (tree.crate(name) / "out/proved").read_text(encoding="utf-8").splitlines()[0]
    assert not (tree.crate("low") / "out/checked").exists()


def test_notes_are_kept(tree: Tree) -> None:
    """A note that an earlier run copied serves a later one of the same sources, in which `rt ci` writes none. Three are kept."""
    room, note, main = tree.room / "temporary", tree.crate("mote") / "out/checked", tree.crate("mote") / "src/main.rt"
    room.mkdir()
    first = main.read_bytes()
    for number in range(4):
        main.write_bytes(first + b"\n" * number)
        assert prove_all(tree, MEANWHILE='sleep 1; rm -r "$TMPDIR"/rt-proved-*', TMPDIR=str(room))[-1] == LAST
        shutil.rmtree(note)
    for number, is_kept in ((3, True), (1, True), (0, False)):
        main.write_bytes(first + b"\n" * number)
        assert prove_all(tree, FROM_STORE="1", TMPDIR=str(room))[-1] == LAST and note.exists() == is_kept
        assert not is_kept or (note / "inputs").read_text(encoding="utf-8") == "crate mote program\n"
        shutil.rmtree(note, ignore_errors=True)
    assert len(list((tree.room / "cache/toarmuts/notes").glob("mote-*"))) == 3


def test_notes_cannot_be_kept(tree: Tree) -> None:
    """Where there can be no folder for notes, they serve this run alone."""
    room, cache = tree.room / "temporary", tree.room / "cache"
    room.mkdir()
    cache.write_text("no folder", encoding="utf-8")
    assert prove_all(tree, MEANWHILE="sleep 1", TMPDIR=str(room))[-1] == LAST and (tree.crate("mote") / "out/checked").exists()


@in_both
def test_failure(tree: Tree, edits: str) -> None:
    """What fails isn't taken as proved, and its last line and status are those of `rt ci`."""
    assert prove_all(tree, FAULTS="1", TOARMUTS_EDITS=edits)[-1] == "7 passed, 1 failed" and tree.ran.returncode == 1
    assert not built(tree) and not (tree.crate("mote") / "out/proved").exists() and not (tree.crate("mote") / "out/checked").exists()


@pytest.mark.parametrize(("most", "beside"), [(4, 2), (3, 1), (1, 1)])
def test_checks_at_once(most: int, beside: int) -> None:
    """Half as many edits as there may be are tried beside `rt ci`, and all after it."""
    loader = SourceFileLoader("tests_proofs", str(ROOT / "tests/proofs"))
    spec = spec_from_loader("tests_proofs", loader)
    assert spec is not None
    module = module_from_spec(spec)
    loader.exec_module(module)
    begun, may_end = [], threading.Event()
    checks = module.Checks(most)

    def check(number: int) -> int:
        begun.append(number)
        assert may_end.wait(60)
        return number

    wanted = [checks.submit(check, number) for number in range(6)]
    for number in beside, most:
        wait_until(lambda: len(begun) >= number)
        time.sleep(0.2)
        assert len(begun) == number
        checks.run_all()
    may_end.set()
    assert sorted(it.result(60) for it in wanted) == list(range(6))
    checks.shutdown()
