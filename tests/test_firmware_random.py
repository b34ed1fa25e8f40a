"""Random programs of calls in script mode: the transcript of each on an emulated board is that on Linux.

A program is data of one image: its lists of calls and its script are written into a copy of the image, so few images are compiled. For
more programs TOARMUTS_BOARD_LISTS is their number, and TOARMUTS_BOARD_LISTS_FROM the first one's.
"""

import os
import random
from pathlib import Path

import pytest

from contiki_programs import Contiki
from emulator import HAS_NEWLIB, Builder, kernels, run_script
from random_calls import random_lists
from test_contiki import random_script
from tools import ROOT, needs, output_of, run

pytestmark = [needs("arm-none-eabi-gcc", "qemu-system-arm"),
              pytest.mark.skipif(not HAS_NEWLIB, reason="not here: libnewlib-arm-none-eabi")]

LISTS = ROOT / "tests/c/firmware/lists.c"
BOARD = "mps2-an385"
PROGRAMS = int(os.environ.get("TOARMUTS_BOARD_LISTS", "48"))
FIRST = int(os.environ.get("TOARMUTS_BOARD_LISTS_FROM", "0"))
SCRIPT_MARK, SCRIPT_ROOM = b"#@SCRIPT@", 1 << 15
LISTS_MARK, LISTS_ROOM = b"@LISTS@", 1 << 18
# The sizes are compiled in. Where they are small, memory runs short.
SIZES: list[list[str]] = [[], ["--mmem", "256", "--heap", "512"], ["--mmem", "512", "--heap", "384", "--header", "8"],
                          ["--mmem", "504", "--quota", "56"]]


@pytest.fixture(scope="module")
def build(toarmuts_library: Path, shared: Path) -> Builder:
    return Builder(kernels(shared / "kernels"), shared / "images")


def written(data: bytes, mark: bytes, text: bytes, room: int, filler: bytes) -> bytes:
    """The bytes of a program with this text in place of a mark and what follows it."""
    at = data.index(mark)
    assert data.count(mark) == 1 and data[at + len(mark):at + room] == filler * (room - len(mark)) and len(text) < room
    return data[:at] + text.ljust(room, filler) + data[at + room:]


def program(seed: int) -> tuple[bytes, bytes]:
    """Lists of calls, and a script."""
    chance = random.Random(f"board {seed}")
    lists = random_lists(chance).replace("calls ", "").replace("calls", "").encode()
    return lists, random_script(chance).rstrip(b"\n") + b"\n"


@pytest.mark.parametrize("turn", range(len(SIZES)))
def test_random_programs(contiki: Contiki, build: Builder, tmp_path: Path, turn: int) -> None:
    template = tmp_path / "template.script"
    template.write_bytes(SCRIPT_MARK.ljust(SCRIPT_ROOM, b"\n"))
    image = build(BOARD, LISTS, "--script", template, *SIZES[turn]).read_bytes()
    built = contiki.build(LISTS).read_bytes()
    here, there = tmp_path / "here", tmp_path / "there.elf"
    lines, statuses = 0, set()
    for seed in range(FIRST + turn, FIRST + PROGRAMS, len(SIZES)):
        lists, script = program(seed)
        here.write_bytes(written(built, LISTS_MARK, lists, LISTS_ROOM, b"\0"))
        here.chmod(0o755)
        there.write_bytes(written(written(image, LISTS_MARK, lists, LISTS_ROOM, b"\0"), SCRIPT_MARK, script, SCRIPT_ROOM, b"\n"))
        wanted = run(here, *SIZES[turn], stdin=script)
        _, transcript, status = run_script(there, BOARD)
        assert (status, transcript) == (wanted.returncode, wanted.stdout), f"{seed}: {output_of(wanted)}"
        lines += transcript.count(b"\n")
        statuses.add(status)
        here.unlink()
    print(f"{turn}: {lines} lines, statuses {sorted(statuses)}")
    assert lines > 100 * (PROGRAMS // len(SIZES))
