"""The page of `mote_picture --page`: for every stored transcript its data have the text, and tell at each line what a replay tells."""

import re

import pytest

from page_data import data_in, first_difference, marks_in, marks_wanted, picture, told_by_data, told_by_replay
from run_replay import answers_in, states_of
from stored_runs import ALL, stored_run
from tools import ROOT, succeed

# What ends the element of the data, or begins something in it, where it stands there as it is.
MARKUP = ["</script>", "</SCRIPT\n>", "<!--", "<script>", "-->", "a < b", "&lt;", "\\u003c", "\"</script>\""]
TICKS = "4 synch 129 - -> wait\n> tick 5\n> tick 5\n"
QUIET = "4 synch 129 - -> print 61\n"


def test_template() -> None:
    succeed(ROOT / "scripts/page-template", "--check")


@pytest.mark.parametrize("name", ALL)
def test_page(name: str) -> None:
    run = stored_run(name)
    page = picture(["--page", *run.sizes], run.transcript)
    text, data = data_in(page.stdout.decode())
    assert page.returncode == 0 and data, page.stderr
    assert "<" not in text and data["text"] == run.transcript
    assert data["run"][:3] == [len(run.lines), 0, 0]
    assert data["run"][6:] == [None, None], "memory isn't the run's"
    assert len(data["words"].splitlines()) == len(run.lines), "other than one line of words for each"
    if not data["quiet"]:
        states = states_of(run.lines)
        assert data["clocks"] == [state.clock for state in states]
        assert data["answers"] == answers_in(run.lines)
        told = [told_by_data(data, line) for line in range(len(run.lines))]
        assert not first_difference(told, [told_by_replay(state) for state in states])
        shown = [marks_in(data, line) for line in range(len(run.lines))]
        assert not first_difference(shown, [marks_wanted(state, run.lines) for state in states])


def test_markup() -> None:
    """Markup that is printed, and in names, stands in the data as text, and the element that holds them ends where the template ends it."""
    told = [f"4 {'answer done' if place else 'synch 129 -'} -> print {text.encode().hex()}\n" for place, text in enumerate(MARKUP)]
    transcript = "".join(told) + "4 answer done -> wait\n"
    page = picture(["--page", "--", *MARKUP], transcript).stdout.decode()
    text, data = data_in(page)
    # As HTML has it, a script ends at the first such tag, in letters of either case.
    scripts = re.findall(r"<script\b([^>]*)>(.*?)</script\b", page, re.S | re.I)
    assert ['id="data"' in attributes for attributes, _ in scripts] == [True, False]
    assert text != "" and scripts[0][1] == text and "<" not in text
    assert (data["text"], data["names"]) == (transcript, MARKUP)
    shown = ["“" + text.replace("\n", "⏎") + "”" for text in MARKUP]
    words = data["words"].splitlines()
    assert len(words) > len(shown) and all(text in line for text, line in zip(shown, words))


def test_two_forms() -> None:
    both = picture(["--page", "--vcd"], TICKS)
    assert (both.returncode, both.stdout) == (64, b"")
    assert both.stderr.startswith(b"error: the argument '--page' cannot be used with '--vcd'\n")


@pytest.mark.parametrize("form", ["--page", "--vcd"])
def test_malformed_line(form: str) -> None:
    told = picture([form], "> tick 1\nnonsense\n")
    assert (told.returncode, told.stdout, told.stderr) == (2, b"", b"mote_picture: line 2 is no line of a transcript\n")


def test_part() -> None:
    data = data_in(picture(["--page", "--from", "5", "--to", "9", "--heap", "64", "one", "two"], TICKS).stdout.decode())[1]
    assert (data["text"], data["run"]) == ("> tick 5\n", [3, 1, 0, 4096, 64, 16, None, None])
    assert (data["names"], data["title"]) == (["one", "two"], "mote --from 5 --to 9 --heap 64 one two")


def test_quiet_page() -> None:
    assert data_in(picture(["--page"], QUIET).stdout.decode())[1]["quiet"] is True
