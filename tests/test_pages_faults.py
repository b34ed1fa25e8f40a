"""A copy of the tree with faults in its pages, of each kind that tests/test_pages.py looks for; and what makes files of others."""

import re
import shutil
import sys
from pathlib import Path
from typing import Callable

import pytest

from tools import ROOT, once, output_of, run, succeed

ROW = re.compile(r"^- `(crates/[^`]+)` \((\d+)\):.*\n", re.M)
DEFINITION = "\nabbrev pub unreached : Nat\nunreached = 0\n"
SPOILT_DEFINITIONS = "spoilt : Call → Bool\nspoilt Call.Wait = true\nspoilt call = false\n"
SPOILT_CODE = """/// As `no_such_thing` of `none.antt`.
fn spoilt(call: &Call) -> bool {
    let Call::Wait = call else { return matches!(call, Call::Exit) };
    match call { Call::Exit => {}, _ => unreachable!() }
    match call { Call::Wait => true, _ => false }
    if let Call::Wait = call { return true; }
    false
}
fn passes(call: &Call) -> bool {
    if let Call::Wait = call { return true; }
    is_other(1, call)
}
fn waits(call: &mut Call) {
    if !matches!(call, Call::Wait) { *call = Call::Wait; }
}
"""
ORDER = (ROOT / "docs/reading-order.md").read_text(encoding="utf-8")
ROWS = [(row[1], row[2]) for row in ROW.finditer(ORDER)]
FIRST_DEFINITIONS = next(file for file, _ in ROWS if file.endswith(".antt"))
# The line of docs/pools.md that is spoilt: below its last one, and an empty one.
LAST_LINE = (ROOT / "docs/pools.md").read_text(encoding="utf-8").count("\n") + 2
# A name that is nowhere else, and so not here.
NO_NAME = "no_such_" + "name"


def copy_tree(place: Path) -> None:
    def ignored(folder: str, names: list[str]) -> set[str]:
        return {name for name in names if name in (".git", "out", "__pycache__") or name.endswith("_cache")
                or (name == "release" and Path(folder) == ROOT)}
    shutil.copytree(ROOT, place, symlinks=True, ignore=ignored)


def spoil(order: str) -> str:
    """The page with its first row below all others, and the second with another number."""
    first, second = list(ROW.finditer(order))[:2]
    order = order.replace(second[0], f"- `{second[1]}` (9{second[2]}):\n").replace(first[0], "")
    return f"{order}\n- `{first[1]}` ({first[2]}): below all\n"


def append(text: str) -> Callable[[str], str]:
    return lambda before: before + text


SPOILT: dict[str, Callable[[str], str]] = {
    "docs/pools.md": append(f"\n`{NO_NAME}`, `none.script`, `tests/none.py` and [none](none.md)\n"),
    "README.md": append("\n`examples/hello.script`:\n\n```text\nno such listing\n```\n"),
    "docs/devices.md": append("\n\n    nonsense words\n"),
    "docs/tested.md": lambda text: text.replace("`hex`, ", ""),
    "docs/reading-order.md": spoil,
    "docs/map.md": lambda text: text.replace(" 3 | kernel_core", " 4 | kernel_core"),
    "python/LICENSE": append("And more.\n"),
    "interface/public-calls.md": lambda text: text.replace("(&mut self, bytes: &[u8])", "(&self, bytes: &[u8])"),
    FIRST_DEFINITIONS: append(DEFINITION),
}
FAULTS = [
    "interface/public-calls.md: mote_types has no ByteSink: fn write(&self, bytes: &[u8])",
    "no row: mote_types, ByteSink: fn write(&mut self, bytes: &[u8])",
    *(f"docs/pools.md:{LAST_LINE}: {text} isn't there" for text in (NO_NAME, "none.md", "none.script", "tests/none.py")),
    "Extra items in the right set:\nE         'hex'",
    "docs/map.md: its figure isn't what `python3 tests/layers.py` prints",
    "another licence than LICENSE: python/LICENSE",
    "README.md: listing: in no file that the paragraph above it names is: no such listing",
    "docs/devices.md: listing: no command line, so it must be fenced:     nonsense words",
    f"speaks of {ROWS[0][0]}, which stands below it",
    f"{ROWS[1][0]}: isn't listed with {ROWS[1][1]} lines",
    f"{FIRST_DEFINITIONS}: has what no clause of run reaches: unreached",
    "cases for all other calls: mote_apps/specs/Spoilt.antt: spoilt",
    "cases for all other calls: mote_apps/src/spoilt.rt: ",
    "crates/mote_apps/src/spoilt.rt: comment: there is no no_such_thing",
    "crates/mote_apps/src/spoilt.rt: comment: there is no none.antt",
]


@pytest.fixture(scope="module")
def found(shared: Path) -> str:
    def make(place: Path) -> None:
        copy_tree(place)
        for file, change in SPOILT.items():
            (place / file).write_text(change((ROOT / file).read_text(encoding="utf-8")), encoding="utf-8")
        (place / "crates/mote_apps/specs/Spoilt.antt").write_text(SPOILT_DEFINITIONS, encoding="utf-8")
        (place / "crates/mote_apps/src/spoilt.rt").write_text(SPOILT_CODE, encoding="utf-8")
        ran = run(sys.executable, "-m", "pytest", "-q", "-p", "no:cacheprovider", "tests/test_pages.py", cwd=place)
        assert ran.returncode == 1, output_of(ran)
        (place / "found").write_bytes(ran.stdout)
    return (once(shared / "spoilt-pages", make) / "found").read_text(encoding="utf-8")


@pytest.mark.parametrize("fault", FAULTS)
def test_fault_is_found(found: str, fault: str) -> None:
    assert fault in found


@pytest.mark.parametrize(("maker", "file", "before", "after"), [
    ("scripts/version", "VERSION", r".*", "9.8.7"),
    ("scripts/page-template", "crates/mote_picture/web/page.css", r"^", " "),
    ("scripts/page-template", "crates/mote_picture/web/page.js", r"^", " "),
    ("scripts/page-template", "crates/mote_picture/web/page.html", r"\n", " \n"),
    ("scripts/make-calls", "interface/rules.json", '"timer-set"', '"timer-put"'),
])
def test_maker(tmp_path: Path, maker: str, file: str, before: str, after: str) -> None:
    """Scripts that make files from others report where these differ, and then make them again."""
    tree = tmp_path / "tree"
    copy_tree(tree)
    command = [*([sys.executable] if maker.endswith(".py") else []), str(tree / maker)]
    assert succeed(*command, "--check").stderr == b""
    (tree / file).write_text(re.sub(before, after, (tree / file).read_text(encoding="utf-8"), count=1), encoding="utf-8")
    assert run(*command, "--check").returncode == 1
    succeed(*command)
    succeed(*command, "--check")
    if maker == "scripts/version":
        assert 'version = "9.8.7"\n' in (tree / "python/pyproject.toml").read_text(encoding="utf-8")
        readme = tree / "README.md"
        readme.write_text(readme.read_text(encoding="utf-8").replace("toarmuts_9.8.7", "toarmuts"), encoding="utf-8")
        ran = run(*command, "--check")
        assert (ran.returncode, ran.stderr) == (1, b"version: README.md has no version\n")
