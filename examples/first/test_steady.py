"""Tests steady.c: it prints at each second, whatever comes in between."""
import pathlib
import subprocess

import toarmuts

HERE = pathlib.Path(__file__).resolve().parent


def clocks_of_prints(source: str, script: str) -> list[int]:
    """The clocks at which process 4 of this program prints."""
    ran = subprocess.run([HERE.parents[1] / "contiki", HERE / source], input=script, stdout=subprocess.PIPE, text=True, check=True)
    turns = toarmuts.Transcript(ran.stdout).turns(4)
    return [turn.clock for turn in turns if isinstance(turn.call, toarmuts.Print)]


def test_prints_at_each_second() -> None:
    assert clocks_of_prints("steady.c", "tick 64\nserial 68690a\ntick 64\ntick 128\n") == [128, 256]
