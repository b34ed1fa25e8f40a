"""Loads the module of the kit's rt: its list of crates, and the arguments that it passes to rattle."""
from __future__ import annotations

import functools
import importlib.util
import subprocess
import sys
from pathlib import Path
from typing import Any

# Options of a check that rattle refuses where it builds what was checked.
OF_CHECKS = ("--logic-built", "--jobs")


def load_rt() -> Any:
    told = subprocess.run(["rt", "doc"], check=True, capture_output=True, text=True).stdout.strip()
    spec = importlib.util.spec_from_file_location("rtlib", Path(told).parent / "bin/rtlib.py")
    assert spec is not None and spec.loader is not None
    module = importlib.util.module_from_spec(spec)
    sys.modules["rtlib"] = module
    spec.loader.exec_module(module)
    # A crate's stamp has those of all below it: each is computed once.
    module.Crate.stamp = functools.lru_cache(maxsize=None)(module.Crate.stamp)
    return module


def words_of_build(root: Path, name: str) -> list[str]:
    """The arguments by which `rt ci` has rattle build a crate that it has checked."""
    crate = next(it for it in load_rt().crates_below(str(root)) if it.name == name)
    words: list[str] = crate.words(["--jobs", "1"], keeps=False)
    for option in OF_CHECKS:
        at = words.index(option)
        words = [*words[:at], *words[at + 2:]]
    return words
