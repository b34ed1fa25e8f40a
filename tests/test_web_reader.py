"""The page with the mote for its readers: lines as a grid for screen readers, headings, results in sight, widths, dark pictures."""

from pathlib import Path
from typing import Any

import pytest

from devtools import Browser, Page
from test_web import EXAMPLES
from web_page import Opened, in_chromium, opened, set_fields, set_network

pytestmark = in_chromium
# A phone's window.
NARROW, LOW = 420, 800


def nodes_of(page: Page, role: str) -> list[dict[str, Any]]:
    """The nodes of this role, as screen readers get them."""
    nodes = page.call("Accessibility.getFullAXTree")["nodes"]
    return [it for it in nodes if not it["ignored"] and it["role"]["value"] == role]


def properties(node: dict[str, Any]) -> dict[str, Any]:
    return {it["name"]: it["value"].get("value") for it in node["properties"]}


def test_lines_are_a_grid(mote_page: Opened) -> None:
    """The lines are one grid with rows and cells; the chosen row is the selected one, and the one that the focus names."""
    set_fields(mote_page, "hello\n", "tick 1\ntick 2\n")
    (grid,) = nodes_of(mote_page.page, "grid")
    assert grid["name"]["value"] == "Lines of the transcript" and properties(grid)["readonly"] is True
    rows = nodes_of(mote_page.page, "row")
    assert len(rows) == 5 and len(nodes_of(mote_page.page, "gridcell")) == 4 * 4
    assert [it["name"]["value"] for it in nodes_of(mote_page.page, "columnheader")] == ["Line", "Clock", "In words", "Transcript"]
    assert [properties(it).get("selected") for it in rows[1:]] == [False] * 4
    mote_page.ask("byId('lines').focus();")
    for _ in range(3):
        mote_page.page.press("ArrowDown")
    (grid,) = nodes_of(mote_page.page, "grid")
    assert properties(grid)["focused"] is True
    assert [properties(it).get("selected") for it in nodes_of(mote_page.page, "row")[1:]] == [False, False, True, False]
    told = mote_page.ask("const at = byId(byId('lines').getAttribute('aria-activedescendant')); return [at.ariaRowIndex, at.innerText];")
    assert told[0] == "4" and "tick 1" in told[1]
    counts = "return ['rowcount', 'colcount'].map((name) => byId('lines').getAttribute(`aria-${name}`));"
    assert mote_page.ask(counts) == ["5", "4"]
    set_network(mote_page, "mote 1 relay\n")
    assert mote_page.ask(counts) == ["3", "5"] and mote_page.ask("return byId('lines').hasAttribute('aria-activedescendant');") is False


def test_rows_far_below(mote_page: Opened) -> None:
    """A row that isn't made yet is made when it is chosen; the rows that aren't made are nothing to screen readers."""
    set_fields(mote_page, "calls wait\n", "".join(f"tick {number}\n" for number in range(1, 2001)))
    mote_page.ask("view.choose(1999);")
    assert mote_page.ask("return byId(byId('lines').getAttribute('aria-activedescendant')).ariaSelected;") == "true"
    assert mote_page.ask("return byId('lines').getAttribute('aria-rowcount');") == "2002"
    assert mote_page.ask("return [...document.querySelectorAll('#lines tr.gap')].every((it) => it.role === 'presentation');") is True


def test_headings_and_pictures(mote_page: Opened) -> None:
    """The results have a heading, and each picture is an image with a name."""
    headings = {it["name"]["value"] for it in nodes_of(mote_page.page, "heading")}
    assert headings >= {"A proved mote in your browser", "Experiment", "Applications", "Inputs", "Results"}
    mote_page.ask("await click('tab-picture');")
    assert [it["name"]["value"] for it in nodes_of(mote_page.page, "image")] == ["Picture of the run"]
    set_network(mote_page, "mote 1..2 relay\nlink 1 2 delay 1\n1 frame 00\ntick 1\n")
    mote_page.ask("await idle();")
    assert [it["name"]["value"] for it in nodes_of(mote_page.page, "image")] == ["Picture of mote 1"]
    mote_page.ask("await click('tab-chart');")
    assert [it["name"]["value"] for it in nodes_of(mote_page.page, "image")] == ["Chart of the network: 2 motes"]


def test_result_in_sight(browser: Browser, page_file: Path) -> None:
    """On a phone the first line of each example is in sight at once, the tabs are in one row, and what is folded is there by one press."""
    with opened(browser, page_file.as_uri(), NARROW, height=LOW) as it:
        for place, example in enumerate(EXAMPLES):
            told = it.ask(f"""await showExample({place}); await idle(); scrollTo(0, 0);
const tops = [...document.querySelectorAll("#tabs button:not([hidden])")].map((tab) => tab.getBoundingClientRect().top);
return [document.querySelector("#lines [data-row='0']").getBoundingClientRect().bottom, new Set(tops).size];""")
            assert told[0] <= LOW and told[1] == 1, example["name"]
        hidden = it.ask("return [byId('kind'), byId('save-transcript')].map((field) => field.checkVisibility());")
        shown = it.ask("for (const part of document.querySelectorAll('.more > summary')) part.click();"
                       "await showExample(0); return [byId('kind'), byId('save-transcript')].map((field) => field.checkVisibility());")
        assert (hidden, shown) == ([False, False], [True, True])


def test_folded_only_where_narrow(browser: Browser, page_file: Path) -> None:
    """A wide window folds nothing, also after it was narrow."""
    with opened(browser, page_file.as_uri(), NARROW) as it:
        it.page.call("Emulation.setDeviceMetricsOverride", width=1200, height=900, deviceScaleFactor=1, mobile=False)
        it.page.wait_for("byId('kind').checkVisibility() && byId('save-transcript').checkVisibility()")
        assert it.ask("return [...document.querySelectorAll('.more > summary')].some((it) => it.checkVisibility());") is False


def test_divider(browser: Browser, page_file: Path) -> None:
    """The experiment has a third of a wide window, and takes more by the mouse and by keys; its results keep some room."""
    with opened(browser, page_file.as_uri(), 1600) as it:
        width = "return Math.round(byId('experiment').getBoundingClientRect().width);"
        assert it.ask(width) == 576
        for kind, at in (("mousePressed", 576), ("mouseMoved", 700), ("mouseReleased", 700)):
            it.page.call("Input.dispatchMouseEvent", type=kind, x=at, y=500, button="left", buttons=1, clickCount=1)
        assert it.ask(width) == 700
        it.ask("byId('divider').focus();")
        it.page.press("ArrowRight")
        assert it.ask(f"{width.removeprefix('return ').removesuffix(';')}; {width}") == 724
        it.page.press("ArrowLeft")
        assert it.ask(width) == 700 and it.ask("return byId('divider').getAttribute('aria-valuenow');") == "700"
        for key, most in (("ArrowRight", 1240), ("ArrowLeft", 320)):
            for _ in range(60):
                it.page.press(key)
            assert it.ask(width) == most
    with opened(browser, page_file.as_uri(), NARROW) as it:
        assert it.ask("return byId('divider').checkVisibility();") is False


@pytest.mark.parametrize("is_dark", [False, True], ids=["light", "dark"])
def test_picture_in_the_dark(browser: Browser, page_file: Path, is_dark: bool) -> None:
    """A picture is drawn on white. Where dark colours are preferred, it is shown dark; the file that is saved is the same."""
    with opened(browser, page_file.as_uri(), dark=is_dark) as it:
        it.ask("await click('tab-picture');")
        assert it.ask("return getComputedStyle(byId('drawing').querySelector('svg')).filter.startsWith('invert');") is is_dark
        assert it.ask("return byId('drawing').querySelector('svg').outerHTML.includes('filter');") is False


def test_other_kind_with_a_fault(mote_page: Opened) -> None:
    """Nothing of a network is left where the mote that follows it has a fault."""
    set_network(mote_page, "mote 1..2 relay\nlink 1 2 delay 1\n1 frame 00\ntick 1\n")
    mote_page.ask("await click('tab-chart');")
    set_fields(mote_page, "nobody\n", "")
    told = mote_page.ask("""return [view.lines.length, byId("choice").hidden, byId("tab-chart").hidden, tabs.current,
byId("chart-drawing").childElementCount, SAVES.every((name) => byId(name).disabled), byId("said").textContent];""")
    assert told == [0, True, True, "transcript", 0, True, "Applications, line 1: no application nobody. Nothing was run."]
    set_fields(mote_page, "hello\n", "")
    assert mote_page.ask("return [view.lines.length, byId('save-picture').disabled];") == [2, False]
