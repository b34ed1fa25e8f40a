"""The table of the dearest modules of proofs, which bench/proofs puts into docs/gate.md."""

import os
import sys
from importlib.machinery import SourceFileLoader
from importlib.util import module_from_spec, spec_from_loader
from pathlib import Path
from typing import Any

import pytest

from tools import ROOT

HEAD = "| Seconds | Crate | Module | What it is |\n|---|---|---|---|\n"


@pytest.fixture(scope="module")
def proofs() -> Any:
    """bench/proofs as a module."""
    loader = SourceFileLoader("bench_proofs", str(ROOT / "bench/proofs"))
    spec = spec_from_loader("bench_proofs", loader)
    assert spec is not None
    module = module_from_spec(spec)
    sys.modules["bench_proofs"] = module
    loader.exec_module(module)
    return module


def test_rows(proofs: Any) -> None:
    """A row has the module's seconds, its crate, its name, and what it is."""
    modules = [
        proofs.Module("kernel_core", "specs.declared.step.Step", 25.04, True),
        proofs.Module("kernel_core", "proofs.run_laws.Whole", 8.26, False),
        proofs.Module("kernel_core", "proofs.kernel.Kernel.step_to.Answers", 3.0, False),
        proofs.Module("kernel_core", "proofs.kernel.Kernel.step_to.Lts", 2.0, False),
    ]
    assert [proofs.row_of(module) for module in modules] == [
        "| 25.0 | kernel_core | - | start: libraries, front end, borrow checker |",
        "| 8.3 | kernel_core | run_laws.Whole | lemmas by hand |",
        "| 3.0 | kernel_core | kernel.Kernel.step_to.Answers | answers by hand |",
        "| 2.0 | kernel_core | kernel.Kernel.step_to.Lts | transition system |",
    ]


def test_table(proofs: Any) -> None:
    """The rows of a crate that is measured again go, those of others stay, and the dearest are first."""
    page = f"before\n\n{HEAD}| 12.0 | low | A | tie |\n| 9.0 | high | B | goals |\n\nbehind\n\n| 1 | 2 |\n"
    new = ["| 9.5 | high | C | goals |", "| 30.1 | high | D | other |"]
    want = f"before\n\n{HEAD}| 30.1 | high | D | other |\n| 12.0 | low | A | tie |\n| 9.5 | high | C | goals |\n\nbehind\n\n| 1 | 2 |\n"
    assert proofs.with_rows(page, new, ["high"], 30) == want
    assert proofs.with_rows(page, new, ["high"], 2) == want.replace("| 9.5 | high | C | goals |\n", "")
    assert proofs.with_rows(f"{HEAD}\n\nbehind", new[:1], ["high"], 30) == f"{HEAD}{new[0]}\n\nbehind"


def test_no_table(proofs: Any) -> None:
    with pytest.raises(SystemExit, match="docs/gate.md has no table of modules"):
        proofs.with_rows("a page\n", [], [], 30)


def test_new_files(proofs: Any, tmp_path: Path) -> None:
    """The modules that were stored since the last look, the oldest first, in any folder."""
    seen: dict[str, set[str]] = {}
    inner = tmp_path / "inner"
    inner.mkdir()
    for seconds, path in enumerate([inner / "a.oantt", tmp_path / "b.oantt", tmp_path / "c.txt"]):
        path.touch()
        os.utime(path, (seconds, seconds))
    assert proofs.new_files(tmp_path, seen) == [inner / "a.oantt", tmp_path / "b.oantt"]
    assert proofs.new_files(tmp_path, seen) == []
    (tmp_path / "d.oantt").touch()
    assert proofs.new_files(tmp_path, seen) == [tmp_path / "d.oantt"]
