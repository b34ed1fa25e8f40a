"""Parts in plain C, on every input below a bound: frames, lists, and CCM* at each boundary; rings with two threads by the thread sanitizer.

The programs in tests/bounded compare each answer with a rule or a plain model.
"""

import re
from pathlib import Path

import pytest

from test_contiki_programs import has_crypto
from test_modules import MODULES, WARNINGS
from tools import CRATES, ROOT, SANITIZERS, all_hold, output_of, run, succeed, with_sanitizers

FOLDER = ROOT / "tests/bounded"
DRIVER = ROOT / "c/contiki"
OF_DRIVER = (f"-I{DRIVER}/include", f"-I{CRATES}/toarmuts/include", f"-I{DRIVER}/src")
OF_MODULES = (f"-I{MODULES}/include",)


def build(built: Path, name: str, *words: str | Path) -> Path:
    succeed("gcc", "-std=c11", "-O1", "-g", "-Wall", "-Wextra", "-Werror", FOLDER / f"{name}.c", *words, "-o", built)
    return built


@with_sanitizers
def test_frames(tmp_path: Path) -> None:
    """Frames of 0 to 24 bytes: 65,536 frame controls for each length, and where that makes a header nine pairs of PAN and receiver."""
    ran = run(build(tmp_path / "framer", "framer", *SANITIZERS, *OF_DRIVER))
    # Eight frame controls of 16 bits make a header to all, eight one to a mote: two bits of the low byte and one of the high byte are free.
    assert re.findall(r"^(\d+) frames$", ran.stdout.decode(), re.M) == [str(25 * (65536 + 8 * (2 * 8)))], output_of(ran)
    all_hold(ran)


@with_sanitizers
def test_lists(tmp_path: Path) -> None:
    sources = [MODULES / f"src/{name}.c" for name in ("list", "circular-list", "dbl-list", "dbl-circ-list")]
    ran = run(build(tmp_path / "lists", "lists", *SANITIZERS, "-Wconversion", "-Wpedantic", *OF_MODULES, *sources))
    # 65 states, 7 + 2 + 5 + 5 calls, and 7 arguments of each kind.
    assert re.findall(r"^(\d+) calls$", ran.stdout.decode(), re.M) == [str(65 * 19 * 7 * 7)], output_of(ran)
    all_hold(ran)


@with_sanitizers
def test_ccm_star(tmp_path: Path) -> None:
    if not has_crypto("gcc"):
        pytest.skip("no libssl-dev here")
    sources = [DRIVER / f"src/modules/{name}.c" for name in ("aes-128", "ccm-star")]
    all_hold(run(build(tmp_path / "ccm_star", "ccm_star", *SANITIZERS, *OF_DRIVER, *sources, "-lcrypto")))


def test_rings_with_two_threads(modules_library: Path, tmp_path: Path) -> None:
    """One thread puts and the other gets: the sanitizer finds an access without an order, also where it does no harm on this processor."""
    if run("gcc", "-fsanitize=thread", "-x", "c", "-", "-o", tmp_path / "none", stdin=b"int main(void) { return 0; }\n").returncode != 0:
        pytest.skip("no gcc with the thread sanitizer here")
    sources = [MODULES / f"src/{name}.c" for name in ("ringbufindex", "ringbuf")]
    built = build(tmp_path / "rings", "rings", "-fsanitize=thread", *WARNINGS, *OF_MODULES, *sources, modules_library / "libmodules_c.a",
                  "-pthread")
    all_hold(run(built, timeout=300))
