"""The corpora of the fuzz targets in tests/fuzz, replayed: each input runs without a fault. tests/fuzz_targets.py fuzzes for longer."""

import re
from pathlib import Path

import pytest

from fuzz_targets import FOLDER, NAMES, build, corpus, has_fuzzer, unpack
from tools import library, output_of, run

# The least number of inputs of each corpus: without them a replay would show nothing.
LEAST = {"network_files": 100, "library": 100, "ipv6": 100, "heapmem": 20, "mmem": 10, "memb": 2}
ARCHIVES = {"library": "toarmuts", "heapmem": "modules_c", "mmem": "modules_c", "memb": "modules_c"}


def test_each_target_has_a_corpus() -> None:
    assert sorted(path.stem for path in FOLDER.glob("*.c")) == sorted(NAMES)
    assert sorted(FOLDER.glob("corpus/*")) == sorted(map(corpus, NAMES))


@pytest.mark.skipif(not has_fuzzer(), reason="no clang with libFuzzer here (Debian: clang, libclang-rt-14-dev)")
@pytest.mark.parametrize("name", NAMES)
def test_corpus(tmp_path: Path, name: str) -> None:
    if name in ARCHIVES:
        library(ARCHIVES[name])
    inputs = unpack(name, tmp_path / "inputs")
    count = len(list(inputs.iterdir()))
    ran = run(build(name, tmp_path / name), "-runs=0", inputs, timeout=600)
    assert ran.returncode == 0, output_of(ran)
    read = re.search(rb"INFO: +(\d+) files found", ran.stderr)
    assert read is not None and int(read[1]) == count >= LEAST[name], output_of(ran)
    # The library's target prints the refusals and the steps of a network that no input had.
    assert ran.stdout == b"", output_of(ran)
