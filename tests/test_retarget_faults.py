"""Wrong rewritings, each planted in a copy of scripts/retarget: a test of tests/test_retarget.py notices it."""

import shutil
import sys
from pathlib import Path

import pytest

from tools import ROOT, cases, output_of, run


# The file, what stands there in whose place, and the test that notices.
@pytest.mark.parametrize(("file", "before", "after", "test"), cases("retarget_faults"))
def test_fault_is_noticed(tmp_path: Path, file: str, before: str, after: str, test: str) -> None:
    """The test passes with the files as they are (tests/test_retarget.py), and fails with the wrong ones."""
    shutil.copytree(ROOT / "scripts/retarget", tmp_path / "scripts/retarget", ignore=shutil.ignore_patterns("__pycache__"))
    shutil.copytree(ROOT / "tests/tables", tmp_path / "tests/tables")
    for name in ("pytest.ini", "scripts/kit_rt.py", "scripts/sources.py", "tests/test_retarget.py", "tests/tools.py"):
        shutil.copy2(ROOT / name, tmp_path / name)
    planted = tmp_path / "scripts/retarget" / file
    text = planted.read_text(encoding="utf-8")
    assert before in text
    planted.write_text(text.replace(before, after), encoding="utf-8")
    ran = run(sys.executable, "-m", "pytest", "-q", "-x", "-p", "no:cacheprovider", "tests/test_retarget.py", "-k", test,
              cwd=tmp_path)
    assert ran.returncode == 1 and b"1 failed" in ran.stdout, output_of(ran)
