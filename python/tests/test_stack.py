"""A thread whose stack is too small is told so, and nothing crashes."""
import pathlib
import subprocess
import sys

import pytest

PROGRAM = pathlib.Path(__file__).with_name("small_stacks.py")


def told_by(*words):
    """The lines of the program."""
    done = subprocess.run([sys.executable, PROGRAM, *words], capture_output=True, text=True, check=False)
    assert done.returncode == 0, (done.returncode, done.stdout, done.stderr[-2000:])
    return [line.split(" ", 1) for line in done.stdout.splitlines()]


@pytest.mark.parametrize("what, least", [("run", 288), ("step", 192), ("mote", 192), ("network", 192)])
def test_each_size_of_a_stack_has_an_answer(what, least):
    """docs/python.md promises what is done with so many KiB. What is refused for a small stack is refused for each smaller one."""
    answers = {int(size): answer for size, answer in told_by("sizes", what)}
    refused = [size for size, answer in answers.items() if answer == "too small"]
    assert refused == list(range(32, refused[-1] + 1, 16)) and refused[-1] < least
    assert {answers[size] for size in answers if size not in refused} == {"b'hi\\n'"}


@pytest.mark.parametrize("what, least", [("run", 288), ("step", 192)])
def test_what_is_taken_suffices(what, least):
    """The worked runs with as little stack as is taken."""
    ((size, count),) = told_by("least", what)
    assert int(size) <= least and int(count) > 190


def test_it_is_told_what_to_do_and_nothing_is_lost():
    assert told_by("refusals") == []
    assert told_by("elsewhere") == []


def test_the_main_thread_with_a_small_limit():
    code = "import toarmuts\ntry:\n    print(toarmuts.run(['hello']).printed())\nexcept MemoryError as fault:\n    print(fault)"
    for limit, wanted in ((200, "has less than 240 KiB left"), (8192, "b'hi\\n'")):
        words = ["bash", "-c", f'ulimit -s {limit} && exec "$0" -c "$1"', sys.executable, code]
        done = subprocess.run(words, capture_output=True, text=True, check=False)
        assert done.returncode == 0 and wanted in done.stdout, (limit, done)
