"""Pages of `mote_picture --page` in Chromium: the script tells of each line what a replay tells; rows, filters, keys, the overview, names
with markup, widths and 100,000 lines are tried."""

import json
from pathlib import Path
from typing import Any, Callable, Sequence

import pytest

from devtools import Browser
from page_data import data_in, picture, template_parts, told_by_replay
from run_replay import states_of
from stored_runs import ALL, stored_run
from tools import ROOT
from web_page import in_chromium, script

pytestmark = in_chromium
MANY_LINES = 100_000
# A page of so many lines is to open within that, in seconds.
MOST_SECONDS = 3.0
# Longer runs are compared by their data alone.
MOST_COMPARED = 2_000
# The runs are compared in so many parts.
PARTS = 4
MARKUP_NAME = "</script><script>document.title='broken'</script><!--&\"'"
HANDS = script("explorer_hands")
HANDS_RUN = (ROOT / "tests/web/explorer_steps.transcript").read_text(encoding="utf-8")
# Expressions over that run's page, each with its value by the rules. Some press a key or a button, so their order counts.
STEPS: list[tuple[str, Any]] = json.loads((ROOT / "tests/web/explorer_steps.json").read_text(encoding="utf-8"))
Ask = Callable[..., Any]


def page_of(words: Sequence[str], transcript: str) -> str:
    return picture(["--page", *words], transcript).stdout.decode()


@pytest.fixture
def ask(browser: Browser, tmp_path: Path) -> Ask:
    """Opens a page, and returns what the body of a function in it returns."""
    def ask_page(page: str, body: str, width: int = 1200, fragment: str = "") -> Any:
        file = tmp_path / "page.html"
        file.write_text(page, encoding="utf-8")
        opened = browser.open(f"{file.as_uri()}{fragment}", width)
        opened.wait_for("document.readyState === 'complete'")
        told, errors = opened.ask(body), opened.errors()
        opened.close()
        assert errors == []
        return told
    return ask_page


@pytest.mark.parametrize("part", range(PARTS))
def test_states(ask: Ask, part: int) -> None:
    """The script shows of each line of each run what the replay computes."""
    runs = [run for run in map(stored_run, ALL[part::PARTS]) if len(run.lines) <= MOST_COMPARED]
    pages = [(run, data) for run in runs if not (data := data_in(page_of(run.sizes, run.transcript))[1])["quiet"]]
    front, back = template_parts()
    empty = json.dumps(pages[0][1]).replace("<", "\\u003c")
    told = ask(front + empty + back, f"const RUNS = {json.dumps([data for _, data in pages])};\n{script('explorer_states')}")
    for (run, _), own in zip(pages, told):
        wanted = [told_by_replay(state) for state in states_of(run.lines)]
        wrong = [line + 1 for line, (state, other) in enumerate(zip(own, wanted)) if state != other]
        assert len(own) == len(wanted) and not wrong, f"{run.name}: another state in lines {wrong[:3]}"


def test_hands(ask: Ask) -> None:
    told = ask(page_of(["one", "two"], HANDS_RUN), f"{HANDS} return [{', '.join(expression for expression, _ in STEPS)}];")
    for (expression, wanted), value in zip(STEPS, told):
        assert value == wanted, expression


def test_line_of_the_address(ask: Ask) -> None:
    assert ask(page_of(["one", "two"], HANDS_RUN), "return chosen + 1;", fragment="#6") == 6


def test_part(ask: Ask) -> None:
    part = page_of(["--from", "10", "--to", "11"], HANDS_RUN)
    told = ask(part, f"{HANDS} return [shown(), byId('tally').textContent, after('n'), byId('panel').innerText];")
    assert told[0] == [5, 6, 7, 8, 9] and "a part of 11 lines" in told[1]
    assert told[2] == 8 and "handle 0 of process 5: 10 bytes" in told[3]


def test_markup(ask: Ask) -> None:
    told = ask(page_of([MARKUP_NAME], HANDS_RUN), "return [document.title, byId('title').textContent,"
               " document.querySelector('#processes label').textContent, document.scripts.length];")
    assert told == [f"mote {MARKUP_NAME}", f"mote {MARKUP_NAME}", f" 4 {MARKUP_NAME}", 2]


def test_quiet_run(ask: Ask) -> None:
    told = ask(page_of([], "4 synch 129 - -> print 61\n"),
               "return [byId('faults').textContent, byId('tally').textContent, byId('panel').innerText];")
    assert "quiet" in told[0] and "clock" not in told[1] + told[2] and "memory" not in told[2]


def test_other_sizes(ask: Ask) -> None:
    told = ask(page_of(["--mmem", "8"], HANDS_RUN), "return byId('faults').textContent;")
    assert "line 3" in told and "managed memory" in told


def test_no_line(ask: Ask) -> None:
    assert ask(page_of([], ""), "return byId('count').textContent;") == "0 of 0 lines"


@pytest.mark.parametrize("width", [420, 760, 1024, 1600])
def test_width(ask: Ask, width: int) -> None:
    """Nothing is outside the window, and rows, words and panel have room."""
    told = ask(page_of(["a name that is longer than most"] * 16, HANDS_RUN), script("explorer_looks"), width)
    assert told["width"] == width and told["over"] <= 0 and told["right"] <= width + 1 and told["headsStay"], told
    assert told["rows"] >= 150 and told["panel"] >= 100 and told["words"] >= 100, told


def test_many_lines(browser: Browser, tmp_path: Path) -> None:
    """A page of many lines opens in time, and makes only the rows that can be seen."""
    part = "> tick 10\n4 event 136 0 -> print 6f6e0a\n4 answer done -> timer-reset 0\n4 answer done -> wait\n"
    file = tmp_path / "page.html"
    file.write_text(page_of(["blink"], "4 synch 129 - -> timer-set 0 10\n4 answer done -> wait\n" + part * (MANY_LINES // 4)))
    page = browser.open("about:blank")
    page.call("Performance.enable", timeDomain="threadTicks")
    page.call("Page.navigate", url=file.as_uri())
    page.wait_for("document.querySelector('.row')")
    told = page.ask(script("explorer_opens"))
    used = {it["name"]: it["value"] for it in page.call("Performance.getMetrics")["metrics"]}["TaskDuration"]
    page.close()
    print(f"opens in {told['laid'] / 1000:.2f} s, {used:.2f} s of the page's processor in all; to scroll on takes {told['scroll']:.1f} ms")
    # On a busy machine the time goes by while others run.
    assert min(told["laid"] / 1000, used) < MOST_SECONDS, told
    assert told["lines"] == MANY_LINES + 2 and told["rows"] < 150 and told["number"] == "77777", told
