"""The wrong bodies, the edits of must-fail/: several in one check, with a stand-in for rattle, and those of a small crate by the kit."""
from __future__ import annotations

import re
import shutil
from pathlib import Path

import pytest

from must_fail import leave_out, read_edit, rounds_of
from rattle_functions import Source
from small_tree import Tree
from tools import CRATES, ROOT, needs, run

pytestmark = needs("rt")
FIRST = """const NUMBER: u8 = right;

fn one() {right one}
fn two() {right two calls one}
fn three() {right three NUMBER}
fn four() {right four}
"""
# What each edit puts in the place of a text.
EDITS = {
    "one_is_wrong": ("right one", "wrong"),
    "one_is_open": ("right one", "open"),
    "two_is_wrong": ("right two", "wrong two"),
    "four_is_open": ("right four", "open"),
}
ONE, TWO = "it is not proved that what the function ensures holds when it returns (`returns`)", "no proof: expected answers in ./proofs"
REFUSED = {
    "four_is_open": f"four: {TWO}/four/Answers.antt; `search` did not prove `returns`",
    "one_is_open": f"one: {TWO}/one/Answers.antt; `search` did not prove `returns`",
    "one_is_wrong": f"one: note: src/lib.rt:3:1: {ONE}",
    "two_is_wrong": f"two: note: src/lib.rt:4:1: {ONE}",
}


def write_edit(folder: Path, name: str, old: str, new: str, file: str = "src/lib.rt") -> None:
    folder.mkdir(exist_ok=True)
    (folder / f"{name}.edit").write_text(f"file: {file}\nold: {old}\nnew: {new}\n", encoding="utf-8")


class Wrong:
    """A small tree with these edits in its crate `low`, and a stand-in for rattle."""

    def __init__(self, tree: Tree) -> None:
        self.tree, self.edits = tree, tree.crate("low") / "must-fail"
        for name in ("tests/wrong_bodies", "tests/proofs"):
            shutil.copy2(ROOT / name, tree.root / name)
        tree.source("low").write_text(FIRST, encoding="utf-8")

    def add(self, **edits: tuple[str, str]) -> None:
        for name, (old, new) in edits.items():
            write_edit(self.edits, name, old, new)

    def __call__(self, *words: str, script: str = "tests/wrong_bodies", **settings: str) -> list[str]:
        """The lines that are written; the last one comes first. The status is 0 where nothing failed."""
        self.tree.began.unlink(missing_ok=True)
        settings = {"RATTLE": str(self.tree.bin / "kit/bin/rattle"), "TOARMUTS_EDITS": "together", **settings}
        ran = self.tree.run(script, *words, stdin=b"", cwd=None, **settings)
        lines = self.tree.stdout.splitlines()
        assert lines and (ran.returncode == 0) == lines[-1].endswith(" 0 failed"), self.tree.stderr
        return [lines[-1], *lines[:-1]]

    def begun(self) -> list[str]:
        """What was checked, the functions or all, and without which proofs."""
        began = self.tree.began
        return sorted(began.read_text(encoding="utf-8").splitlines()) if began.exists() else []

    def checks(self) -> list[str]:
        """What was checked, the functions or all."""
        return sorted(line.partition(",")[0] for line in self.begun())


@pytest.fixture
def wrong(tree: Tree) -> Wrong:
    return Wrong(tree)


def test_rounds(wrong: Wrong) -> None:
    """Edits of different functions are tried in one check, those of one function in several, and each is refused by its own function."""
    wrong.add(**EDITS)
    assert wrong("low") == ["4 passed, 0 failed", *(f"low/{name}.edit: refused: {why}" for name, why in REFUSED.items())]
    # `one` is unproved beside `two`, which calls it, but `two` has a fault of its own.
    assert wrong.checks() == ["low: four one two", "low: one"]


def test_without_other_proofs(wrong: Wrong) -> None:
    """The proofs of functions that aren't edited are left out, but not where an edit isn't refused: then the whole crate is checked."""
    wrong.add(three_is_as_before=("right three", "right"), four_is_open=EDITS["four_is_open"])
    assert wrong("low") == ["1 passed, 1 failed", f"low/four_is_open.edit: refused: {REFUSED['four_is_open']}",
                            "low/three_is_as_before.edit: NOT REFUSED: the crate is still proved with it"]
    assert wrong.begun() == ["low: all", "low: four three, without one two", "low: three, without one two four"]


def test_callee_is_a_hole(wrong: Wrong) -> None:
    """An edit that is proved over the hole of another function isn't refused."""
    wrong.add(two_is_as_before=("right two calls one", "right calls one"))
    assert wrong("low") == ["0 passed, 1 failed", "low/two_is_as_before.edit: NOT REFUSED: the crate is still proved with it"]
    assert wrong.begun() == ["low: all", "low: two, without one three four"]


@pytest.mark.parametrize(("new", "told", "checks"), [
    ("wrong rests one", "refused: two: not proved; it stands on `Rattle.low.proofs.two.Answers.returns`, `Rattle.low.proofs.one.Answers."
     "returns`, which antt refuses; it calls `low::one`, which is not proved", ["low: one two"]),
    ("right rests one", "NOT REFUSED: the crate is still proved with it", ["low: all", "low: one two", "low: two"]),
    ("right waits calls one", "NOT REFUSED: the crate is still proved with it", ["low: all", "low: one two", "low: two"]),
    ("right cites one", "NOT REFUSED: the crate is still proved with it", ["low: all", "low: one two", "low: two"]),
], ids=["own", "callee", "waits", "cited"])
def test_proof_that_rests_on_an_edited_one(wrong: Wrong, new: str, told: str, checks: list[str]) -> None:
    """A fault of the function's own refuses the edit. Where only the proof of another edited one is refused, it is tried alone."""
    wrong.add(one_is_wrong=("right one", "wrong"), two_is_other=("right two calls one", new))
    lines = wrong("low")
    assert lines[1:] == [f"low/one_is_wrong.edit: refused: {REFUSED['one_is_wrong']}", f"low/two_is_other.edit: {told}"]
    assert wrong.checks() == checks


def test_callee_is_edited_too(wrong: Wrong) -> None:
    """An edit of which a check says only that its function calls another one that isn't proved is tried alone."""
    wrong.add(one_is_wrong=("right one", "wrong"), two_is_as_before=("right two calls one", "right calls one"))
    assert wrong("low") == ["1 passed, 1 failed", f"low/one_is_wrong.edit: refused: {REFUSED['one_is_wrong']}",
                            "low/two_is_as_before.edit: NOT REFUSED: the crate is still proved with it"]
    assert wrong.checks() == ["low: all", "low: one two", "low: two"]


@pytest.mark.parametrize(("new", "told", "checks"), [
    ("right", "NOT REFUSED: the crate is still proved with it", ["all", "four", "four two"]),
    ("hidden", f"refused: note: src/lib.rt:6:1: {ONE}", ["all", "four", "four two"]),
    ("nameless", "refused: only since a proof file names what it took away, which says little of the contract: "
     "./proofs/four/Answers.antt:3:5: error: `returns`: `c.gone` is not in scope", ["four two"]),
    ("nonsense", "BAD EDIT: its text can't be compiled or read: error[E0308]: mismatched types", ["all", "four", "four two", "two"]),
    ("endless", "NOT TRIED: its check ended with status -9: ", ["all", "four", "four two", "two"]),
], ids=lambda value: value if isinstance(value, str) and " " not in value else "")
def test_edit_that_is_not_refused_by_its_contract(wrong: Wrong, new: str, told: str, checks: list[str]) -> None:
    """What a round doesn't refuse is tried alone, and then by a check of the whole crate. The round's other one is refused all the same."""
    wrong.add(four_is_other=("right four", new), two_is_wrong=EDITS["two_is_wrong"])
    lines = wrong("low")
    refused = 1 + told.startswith("refused")
    if told.startswith("NOT REFUSED") or new == "hidden":
        checks = [it for it in checks if it != "two"]
    assert lines == [f"{refused} passed, {2 - refused} failed", f"low/four_is_other.edit: {told}",
                     f"low/two_is_wrong.edit: refused: {REFUSED['two_is_wrong']}"]
    assert wrong.checks() == sorted(f"low: {it}" for it in checks)


@pytest.mark.parametrize(("name", "text", "why"), [
    ("a.edit", "file: src/lib.rt\nold: right five\nnew: wrong\n", "its old text is in src/lib.rt 0 times, and not once"),
    ("a.edit", "file: src/lib.rt\nold: right\nnew: wrong\n", "its old text is in src/lib.rt 5 times, and not once"),
    ("a.edit", "file: src/none.rt\nold: right\nnew: wrong\n", "there is no file src/none.rt in src/, specs/ or proofs/"),
    ("a.edit", "file: ../low/src/lib.rt\nold: right\nnew: wrong\n", "there is no file ../low/src/lib.rt in src/, specs/ or proofs/"),
    ("a.edit", "file: src/lib.rt\nnew: wrong\n", "a 'new:' line is before any 'file:' or 'old:' line"),
    ("a.edit", "file: src/lib.rt\nold: right one\nnew: right one\n", "it changes nothing"),
    ("a.edit", "nothing\n", "it changes nothing"),
    ("a", "", "an edit is a file of must-fail/ whose name ends in .edit"),
])
def test_edit_that_cannot_be_applied(wrong: Wrong, name: str, text: str, why: str) -> None:
    """It fails, and the others are tried."""
    wrong.add(two_is_wrong=EDITS["two_is_wrong"])
    (wrong.edits / name).write_text(text, encoding="utf-8")
    assert wrong("low") == ["1 passed, 1 failed", f"low/{name}: BAD EDIT: {why}",
                            f"low/two_is_wrong.edit: refused: {REFUSED['two_is_wrong']}"]


def test_constant(wrong: Wrong) -> None:
    """For a constant the functions are checked that name it, with no other edit beside; where there are none, the whole crate."""
    wrong.add(number_is_wrong=("NUMBER: u8 = right", "NUMBER: u8 = wrong"), two_is_wrong=EDITS["two_is_wrong"])
    write_edit(wrong.edits, "specs_are_other", "Of low", "Of high", "specs/Lib.antt")
    (wrong.tree.crate("low") / "specs/Lib.antt").write_text("-- Of low.\n", encoding="utf-8")
    assert wrong("low") == ["2 passed, 1 failed", f"low/number_is_wrong.edit: refused: three: note: src/lib.rt:5:1: {ONE}",
                            "low/specs_are_other.edit: NOT REFUSED: the crate is still proved with it",
                            f"low/two_is_wrong.edit: refused: {REFUSED['two_is_wrong']}"]
    assert wrong.checks() == ["low: all", "low: three", "low: two"]


def test_refused_before(wrong: Wrong) -> None:
    """What was refused isn't tried again while all is the same."""
    wrong.add(**EDITS)
    first = wrong("low")
    assert wrong("low") == [first[0], *(f"{line} (before, of the same sources)" for line in first[1:])] and wrong.checks() == []
    assert wrong("--anew", "low") == first and wrong.checks()
    wrong.tree.edit("low")
    assert wrong("low") == first and wrong.checks()
    wrong.add(four_is_open=("right four", "wrong"))
    assert wrong("low")[0] == first[0] and wrong.checks()
    wrong.add(four_is_open=("right four", "right"))
    for _ in range(2):
        assert wrong("low")[0] == "3 passed, 1 failed" and wrong.checks()


def test_library_below(wrong: Wrong) -> None:
    """A library below that isn't built is built first. Where it can't be, nothing is tried over it."""
    wrong.tree.source("high").write_text(FIRST, encoding="utf-8")
    write_edit(wrong.tree.crate("high") / "must-fail", "two_is_wrong", *EDITS["two_is_wrong"])
    assert wrong("high")[0] == "1 passed, 0 failed" and wrong.checks() == ["high: two"]
    assert (wrong.tree.crate("low") / "out/rlib/stamp").exists()
    assert wrong("high", FAILS="high")[:2] == ["0 passed, 1 failed", "high: a library below it can't be built, so its edits aren't tried"]


def test_all_crates_and_none(wrong: Wrong) -> None:
    assert wrong() == ["0 passed, 0 failed"]
    wrong.add(two_is_wrong=EDITS["two_is_wrong"])
    write_edit(wrong.tree.crate("beside") / "must-fail", "beside_is_wrong", "beside", "right")
    assert wrong()[0] == "1 passed, 1 failed"
    ran = wrong.tree.run("tests/wrong_bodies", "nothing", stdin=b"")
    assert (ran.returncode, wrong.tree.stderr) == (1, "wrong_bodies: there is no crate nothing\n")


def test_contract(tmp_path: Path) -> None:
    """An edit of a head or a contract is alone in its round: the proofs of callers rest on these, so that another edit could seem refused.
    """
    (tmp_path / "src").mkdir()
    (tmp_path / "src/lib.rt").write_text("""pub fn one(a: u8) -> u8
    requires { a ≤ 8 }
    ensures {
        result ≡ 1
    }
{
    a + 2
}

fn two(
    b: u8,
) -> u8 {
    one(b)
}

fn three() -> u8 { 7 }
""", encoding="utf-8")
    source, edits = Source(tmp_path), []
    for place, old in enumerate(["a ≤ 8", "result ≡ 1", "    b: u8", "a + 2", "one(b)", "7"]):
        write_edit(tmp_path / "must-fail", f"edit{place}", old, "other")
        edits.append(read_edit(tmp_path / f"must-fail/edit{place}.edit", tmp_path, source))
    assert [[it.name[4] for it in together] for together in rounds_of(edits)] == [["0"], ["1"], ["2"], ["3", "4", "5"]]


LEFT_OUT = """use Rattle.it.proofs.LeftOut.{left_out}
use Rattle.it.proofs.%s.Statement.{statement}

pub %s_spec : {M : Type 1} → statement M
%s_spec = left_out
"""


def test_left_out(tmp_path: Path) -> None:
    """What isn't checked has neither body nor proof, and each line stays where it is. A function keeps both where another file names more
    of its proof than its theorem, as does one whose body is on the line of its head keep that."""
    files = {
        "src/lib.rt": """pub fn one(a: u8) -> u8
    ensures { result ≡ 1 }
{
    1
}

pub fn two() -> u8 {
    one(0)
}

fn three() -> u8 { 3 }
""",
        "src/more.rt": """pub struct Kept;

impl Kept {
    fn four(&self) {
        four
    }

    fn five(&self) {
        if self.is_five() {
            five
        }
    }
}
""",
        "proofs/Lib.antt": "pub mod Lemmas\n",
        "proofs/Lemmas.antt": "use Rattle.it.proofs.more.Kept.four.Answers.{found}\nuse Rattle.it.proofs.one.Met.{met}\n",
        "proofs/one/Answers.antt": "use Rattle.it.proofs.one.Goals as goal\n",
        "proofs/two/Answers.antt": "use Rattle.it.proofs.two.Goals as goal\n",
        "proofs/more/Kept/four/Answers.antt": "use Rattle.it.proofs.more.Kept.four.Goals as goal\n",
        "proofs/more/Kept/five/Invariants.antt": "use Rattle.it.proofs.more.Kept.five.Reads as reads\n",
    }
    for name, text in files.items():
        (tmp_path / name).parent.mkdir(parents=True, exist_ok=True)
        (tmp_path / name).write_text(text, encoding="utf-8")
    leave_out(tmp_path, "it", [it for it in Source(tmp_path).functions if it.path == "two"])
    files["src/lib.rt"] = files["src/lib.rt"].replace("\n    1\n", "\nunreachable!()\n")
    body = "        if self.is_five() {\n            five\n        }\n"
    files["src/more.rt"] = files["src/more.rt"].replace(body, "unreachable!()\n\n\n")
    files["proofs/Lib.antt"] += "mod LeftOut\n"
    files["proofs/LeftOut.antt"] = "pub left_out {ℓ} : {A : Type ℓ} → A\nleft_out = ?\n"
    for path in ("one", "three", "more.Kept.five"):
        name = path.rpartition(".")[2]
        files[f"proofs/{path.replace('.', '/')}/Proof.antt"] = LEFT_OUT % (path, name, name)
    for name in ("proofs/one/Answers.antt", "proofs/more/Kept/five/Invariants.antt"):
        del files[name]
    found = {path.relative_to(tmp_path).as_posix(): path.read_text(encoding="utf-8") for path in tmp_path.rglob("*") if path.is_file()}
    assert found == files


@pytest.mark.parametrize(("file", "text", "is_kept"), [
    ("Lemmas", "use Rattle.it.proofs.a.one.Met.{met}", False),
    ("Lemmas", "use Rattle.it.proofs.a.one_more.Answers.{found}", False),
    ("Lemmas", "use Rattle.other.proofs.a.one.Answers.{found}", False),
    ("Lemmas", "use Rattle.it.proofs.a.one.Metrics.{found}", True),
    ("Lemmas", "use Rattle.it.proofs.a.one as one", True),
    ("Lemmas", "use Rattle.it.proofs.a.{one}", True),
    ("a/two/Answers", "use Rattle.it.proofs.a.one.Lts.{found}", True),
    ("a/one/Answers", "use Rattle.it.proofs.a.one.Lts.{found}", False),
    ("a/one/Lemmas", "use Rattle.it.proofs.a.one.Lts.{found}", True),
])
def test_named_proof(tmp_path: Path, file: str, text: str, is_kept: bool) -> None:
    """Which names keep the proof of a function."""
    for place in ("src/a.rt", f"proofs/{file}.antt"):
        (tmp_path / place).parent.mkdir(parents=True, exist_ok=True)
    (tmp_path / "src/a.rt").write_text("fn one() {\n    1\n}\n\nfn two() {\n    2\n}\n", encoding="utf-8")
    (tmp_path / f"proofs/{file}.antt").write_text(f"{text}\n", encoding="utf-8")
    leave_out(tmp_path, "it", [it for it in Source(tmp_path).functions if it.path == "a::two"])
    assert (tmp_path / "proofs/a/one/Proof.antt").exists() != is_kept
    assert ("    1\n" in (tmp_path / "src/a.rt").read_text(encoding="utf-8")) == is_kept


# ---- As a stage of the gate ----

def test_stage(wrong: Wrong) -> None:
    """`rt ci` sees no edits. They are tried beside it, and counted with what it counts."""
    wrong.add(**EDITS)
    lines = wrong(script="tests/proofs")
    assert lines[0] == "11 passed, 0 failed"
    told = [f"wrong body low/{name}.edit: refused: {why}" for name, why in REFUSED.items()]
    assert sorted(line for line in lines if ".edit" in line) == told
    assert "7 passed, 0 failed, without the wrong bodies, of which 4 were refused and 0 were not" in lines
    assert any("./prove takes 3 libraries and 2 programs of this as proved" in line for line in lines)
    assert wrong.checks() and wrong(script="tests/proofs")[0] == "11 passed, 0 failed" and wrong.checks() == []
    assert sorted(path.stem for path in wrong.edits.iterdir()) == sorted(EDITS)


def test_stage_with_an_edit_that_is_not_refused(wrong: Wrong) -> None:
    """Then the stage fails, and nothing is taken as proved."""
    wrong.add(two_is_wrong=EDITS["two_is_wrong"], four_is_other=("right four", "right"))
    lines = wrong(script="tests/proofs")
    assert lines[0] == "8 passed, 1 failed" and not any("./prove takes" in line for line in lines)
    assert "wrong body low/four_is_other.edit: NOT REFUSED: the crate is still proved with it" in lines


def test_stage_where_a_proof_failed(wrong: Wrong) -> None:
    """The edits of what was proved are tried."""
    wrong.add(two_is_wrong=EDITS["two_is_wrong"])
    assert wrong(script="tests/proofs", FAULTS="1")[0] == "8 passed, 1 failed"


def test_edits_by_rt_ci(wrong: Wrong) -> None:
    """Without the setting `rt ci` sees the edits, and tries them itself."""
    wrong.add(two_is_wrong=EDITS["two_is_wrong"])
    lines = wrong(script="tests/proofs", TOARMUTS_EDITS="")
    assert lines[0] == "7 passed, 0 failed" and "crates/low/must-fail/two_is_wrong.edit" in lines and wrong.checks() == []
    assert (ROOT / ".ci/run").read_text(encoding="utf-8").splitlines()[1:] == ["tests/all"]


# ---- By the kit itself ----

def test_real_crate(tmp_path: Path) -> None:
    """The kit refuses an edit of mote_types by a contract. One that means the same as before isn't refused, and one that can't be compiled
    is bad."""
    shutil.copytree(CRATES / "mote_types", tmp_path / "crates/mote_types", ignore=shutil.ignore_patterns("out", "must-fail"))
    for name in ("scripts", "tests"):
        (tmp_path / name).mkdir()
    for name in ("scripts/must_fail.py", "scripts/rattle_functions.py", "scripts/kit_rt.py", "scripts/schedule.py", "tests/wrong_bodies"):
        shutil.copy2(ROOT / name, tmp_path / name)
    line = re.search(r"^mote_types:.*\n", (ROOT / "crates.txt").read_text(encoding="utf-8"), re.M)
    assert line is not None
    (tmp_path / "crates.txt").write_text(line[0], encoding="utf-8")
    folder, name, old = tmp_path / "crates/mote_types/must-fail", "lets_a_packet_event_be_posted.edit", "| SERIAL_LINE | PACKET"
    folder.mkdir()
    shutil.copy2(CRATES / "mote_types/must-fail" / name, folder / name)
    # This function has answers by hand, and calls one that is left out.
    write_edit(folder, "z_same", "(pid.0 - FIRST_APPLICATION)", "(pid.0 - 4)", "src/ask.rt")
    write_edit(folder, "z_unknown_name", old, "| SERIAL_LINE | NOBODY", "src/event.rt")
    ran = run(tmp_path / "tests/wrong_bodies", "--jobs", "2", "mote_types", timeout=1800)
    lines = ran.stdout.decode().splitlines()
    told = rf"mote_types/{name}: refused: [\w:]+: note: src/event.rt:\d+:\d+: it is not proved that what the function ensures"
    assert re.match(told, lines[0]), lines
    assert lines[1] == "mote_types/z_same.edit: NOT REFUSED: the crate is still proved with it"
    assert lines[2].startswith("mote_types/z_unknown_name.edit: BAD EDIT: its text can't be compiled or read: ")
    assert (lines[3:], ran.returncode) == (["1 passed, 2 failed"], 1)
