"""scripts/retarget/keep_module.py on a small repository with a stand-in for the kit: which module is stored, and when none is."""

import shutil
from concurrent.futures import ThreadPoolExecutor
from pathlib import Path

import pytest

from retarget.keep_module import keep_module
from retarget.refusal import Refused
from sources import Sources
from tools import ROOT

# What ./prove built and kept of a library, of one below it, and of a crate that it doesn't need.
LOW, KEPT = "crates/low", "crates/low/out/incremental"
FILES = {
    "crates.txt": "low staticlib: core lower\nlower: core\nother: lower\n", ".git/config": "",
    f"{LOW}/src/lib.rt": "pub fn f() {}\n", f"{LOW}/specs/Lib.antt": "", f"{LOW}/out/liblow.a": "archive of\nthe module\n",
    f"{KEPT}/modules/1": "the module\n", f"{KEPT}/status": "0\n", f"{KEPT}/said": "logic=proved functions=1\n",
    "crates/lower/src/lib.rt": "", "crates/lower/out/rlib/built": "lower", "crates/other/src/lib.rt": "",
}
# A program that `rt ci` has proved: no work is kept of it, but what was noted.
NOTED = {"crates/tool/src/main.rt": "fn main() {}\n", "crates/tool/out/tool": "archive of\nnoted\n",
         "crates/tool/out/checked/inputs": "noted\n"}


def write(root: Path, files: dict[str, str]) -> None:
    for name, text in files.items():
        (root / name).parent.mkdir(parents=True, exist_ok=True)
        (root / name).write_text(text, encoding="utf-8")


def mark(root: Path, name: str) -> Sources:
    """Marks what is there as ./prove does what it has built."""
    tree = Sources(root)
    tree.mark(name).write_text(tree.mark_text(name, tree.product(name)), encoding="utf-8")
    return tree


@pytest.fixture
def repository(tmp_path: Path, monkeypatch: pytest.MonkeyPatch) -> Path:
    """A repository whose library `low` is proved and built, and a kit in PATH."""
    shutil.copytree(ROOT / "tests/stand_in_kit", tmp_path / "kit")
    write(tmp_path / "kit", {"KIT-ID": "kit\n", "rlibs/std": ""})
    monkeypatch.setenv("PATH", f"{tmp_path}/kit/bin", prepend=":")
    monkeypatch.setenv("BEGUN", str(tmp_path / "begun"))
    monkeypatch.setenv("MEANWHILE", "")
    write(tmp_path / "repository", FILES)
    mark(tmp_path / "repository", "low")
    return tmp_path / "repository"


@pytest.fixture
def noted(repository: Path) -> Sources:
    write(repository, {**NOTED, "crates.txt": FILES["crates.txt"] + "tool: lower\n"})
    tree = mark(repository, "tool")
    (repository / "crates/tool/out/checked.sources").write_text(tree.name_of_sources("tool"), encoding="utf-8")
    return tree


def runs(root: Path) -> int:
    """How often rt was asked to build."""
    told = root.parent / "begun"
    return len(told.read_text(encoding="utf-8").splitlines()) if told.exists() else 0


def state(root: Path) -> dict[str, tuple[bytes, int]]:
    """What ./prove built and kept, with the times, but for that of its mark, which each look makes anew; and what is left of rooms."""
    files = [it for place in ("crates/low/out", "crates/lower", ".git") for it in (root / place).rglob("*") if it.is_file()]
    return {str(it): (it.read_bytes(), 0 if it.name == "proved" else it.stat().st_mtime_ns) for it in files
            if "llvm" not in it.parts and it.name != "rt-ci.lock"}


def test_module_is_kept_once(repository: Path) -> None:
    """A second call finds it. What ./prove built and kept is as it was: rt works in a room."""
    before = state(repository)
    module = keep_module(repository, "low")
    assert module == repository / "crates/low/out/llvm/low.bc" and module.read_text(encoding="utf-8") == "the module\n"
    assert keep_module(repository, "low") == module and runs(repository) == 1
    assert state(repository) == before and Sources(repository).is_current("low")


def test_module_is_kept_once_by_several(repository: Path) -> None:
    with ThreadPoolExecutor(3) as pool:
        kept_by = [pool.submit(keep_module, repository, "low") for _ in range(3)]
        assert len({it.result() for it in kept_by}) == runs(repository) == 1


def test_archive_that_is_built_anew_meanwhile(repository: Path, monkeypatch: pytest.MonkeyPatch) -> None:
    """The module is that of the archive whose sources were copied. For another one it is kept anew."""
    archive, tree = repository / "crates/low/out/liblow.a", Sources(repository)
    monkeypatch.setenv("MEANWHILE", f"echo another >'{archive}'; sed -i 's/.*  -/other  -/' '{tree.mark('low')}'")
    assert keep_module(repository, "low").read_text(encoding="utf-8") == "the module\n"
    monkeypatch.setenv("MEANWHILE", "")
    mark(repository, "low")
    with pytest.raises(Refused, match="other bytes than ./prove built"):
        keep_module(repository, "low")
    assert runs(repository) == 2


def test_spoilt_module_is_kept_anew(repository: Path) -> None:
    """The mark names what the module holds."""
    keep_module(repository, "low").write_text("another\n", encoding="utf-8")
    assert keep_module(repository, "low").read_text(encoding="utf-8") == "the module\n" and runs(repository) == 2


@pytest.mark.parametrize(("files", "why", "times"), [
    ({f"{KEPT}/modules/1": "another module\n"}, "other bytes than ./prove built", 1),
    ({f"{KEPT}/said": "logic=trusted functions=1\n"}, "rt doesn't prove low", 1),
    ({f"{KEPT}/status": "1\n"}, "rt doesn't prove low", 1),
    ({f"{KEPT}/modules/0": "one more\n"}, "2 modules", 1),
    ({f"{LOW}/src/lib.rt": "pub fn g() {}\n"}, "low isn't proved, or older than its sources: ./prove low", 0),
    ({f"{LOW}/out/liblow.a": "another\n"}, "low isn't proved, or older than its sources: ./prove low", 0),
], ids=["other bytes", "trusted", "fails", "two modules", "edited source", "another archive"])
def test_refusal(repository: Path, files: dict[str, str], why: str, times: int) -> None:
    """Nothing is stored, and what ./prove built is unchanged. Of a product that isn't current rt isn't asked at all."""
    write(repository, files)
    before = state(repository)
    with pytest.raises(Refused, match=why):
        keep_module(repository, "low")
    assert state(repository) == before and not list((repository / "crates/low/out").glob("llvm/*.[bp]*"))
    assert runs(repository) == times


def test_work_that_was_not_kept(repository: Path) -> None:
    """After `rt ci` the product would be proved once more, which must be wanted."""
    shutil.rmtree(repository / KEPT)
    with pytest.raises(Refused, match="no work is kept of low"):
        keep_module(repository, "low", anew=False)
    assert runs(repository) == 0
    with pytest.raises(Refused, match="rt doesn't prove low"):
        keep_module(repository, "low")
    assert runs(repository) == 1


def test_module_of_a_note(noted: Sources) -> None:
    """rattle builds a program of what `rt ci` noted, and nothing is proved once more."""
    assert keep_module(noted.root, "tool", anew=False).read_text(encoding="utf-8") == "noted\n" and runs(noted.root) == 1


@pytest.mark.parametrize(("file", "times"), [("inputs", 1), ("../checked.sources", 0)], ids=["another build", "other sources"])
def test_note_of_another(noted: Sources, file: str, times: int) -> None:
    """What a note makes must have the bytes of the program that is there, and one of other sources is none. Else it is as if there were
    none."""
    (noted.note("tool") / file).write_text("of another\n", encoding="utf-8")
    with pytest.raises(Refused, match="to prove it once more takes minutes"):
        keep_module(noted.root, "tool", anew=False)
    assert runs(noted.root) == times and not (noted.root / "crates/tool/out/llvm/tool.bc").exists()


def test_other_names_are_refused(repository: Path) -> None:
    with pytest.raises(Refused, match="high is no program and no library for C"):
        keep_module(repository, "high")
