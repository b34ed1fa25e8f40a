"""The page with the mote keeps the reader's own work: over a reload, beside the examples and links, until it is forgotten."""

import json
from pathlib import Path
from typing import Any

import pytest

from devtools import Browser
from test_web import EXAMPLES
from web_page import Opened, in_chromium, opened, set_fields, set_network, type_into

pytestmark = in_chromium
KEEPING = """return [byId("kept").checkVisibility() && byId("kept-words").textContent, byId("forget").checkVisibility(),
byId("example").options[0].hidden, localStorage.length];"""
KEPT = ["What you write is kept in this browser, and only there.", True, False, 1]
NOTHING_KEPT = [False, False, True, 0]


def test_kept_over_a_reload(mote_page: Opened) -> None:
    """What is typed, its sizes and the kind of experiment are there again after a reload, with their run; examples alone aren't kept."""
    assert mote_page.ask(KEEPING) == NOTHING_KEPT
    set_fields(mote_page, "blink\n", "tick 3\n", mmem=64)
    mote_page.reload()
    assert mote_page.ask("return [byId('example').value, editors.script.text];") == ["0", EXAMPLES[0]["experiment"]["script"]]
    set_fields(mote_page, "blink\n", "tick 3\n", mmem=64)
    type_into(mote_page, "script", "text ü<b>")
    assert mote_page.ask(KEEPING) == KEPT
    told = "return [readExperiment(), transcript(), byId('example').value];"
    before = mote_page.ask(told)
    assert before[0]["script"] == "tick 3\ntext ü<b>" and before[0]["mmem"] == 64 and before[2] == ""
    mote_page.reload()
    assert mote_page.ask(f"await idle(); {told}") == before
    assert mote_page.ask(KEEPING) == KEPT
    assert mote_page.ask("return byId('lesson').textContent;") == "Your work, as this browser has kept it."


def test_network_kept(mote_page: Opened) -> None:
    """A network is kept, with what was written of one mote."""
    set_fields(mote_page, "echo\n", "text one\n")
    set_network(mote_page, "mote 1..2 echo\n", only=2)
    type_into(mote_page, "network", "2 serial 410a")
    mote_page.reload()
    told = mote_page.ask("await idle(); return [readExperiment(), byId('only').value, transcript()];")
    assert told[:2] == [{"network": "mote 1..2 echo\n2 serial 410a", "only": 2, "quiet": False}, "2"]
    assert "4 event 138 x41 -> print 41\n" in told[2]
    assert mote_page.ask("await click('one-mote'); return [editors.applications.text, editors.script.text];") == ["echo\n", "text one\n"]


@pytest.mark.parametrize("change", [
    "byId('mmem').value = 64; byId('mmem').dispatchEvent(new Event('input'));", "await click('quiet');", "await click('add');",
    "document.querySelector('[data-to=script] [data-input=tick]').click();",
], ids=["size", "quiet", "application", "input"])
def test_each_change_is_kept(mote_page: Opened, change: str) -> None:
    set_fields(mote_page, "hello\n", "")
    settled = "await new Promise((done) => setTimeout(done, TYPING_PAUSE + 50)); await idle();"
    told = mote_page.ask(f"{change} {settled} return readExperiment();")
    mote_page.reload()
    assert mote_page.ask("await idle(); return readExperiment();") == told


def test_hand_is_kept(mote_page: Opened) -> None:
    """What was played becomes an experiment, and is kept as such."""
    set_fields(mote_page, "", "")
    play = "byId('call').value = 'print \"hi\"'; byId('ask').requestSubmit(); await idle();"
    mote_page.ask(f"await click('tab-hand'); {play} await click('take');")
    mote_page.reload()
    assert mote_page.ask("await idle(); return editors.applications.text;") == 'calls print "hi"\n'


def test_newer_than_the_link(mote_page: Opened) -> None:
    """A link in the address goes with the first change after it, so that a reload shows the newer text."""
    set_fields(mote_page, "hello\n", "tick 1")
    mote_page.ask("await copyLink();")
    mote_page.reload()
    assert mote_page.ask("return [location.hash.slice(0, 3), editors.script.text];") == ["#e=", "tick 1"]
    type_into(mote_page, "script", "2")
    assert mote_page.ask("return location.hash;") == ""
    mote_page.reload()
    assert mote_page.ask("return editors.script.text;") == "tick 12"


def test_own_work_beside_examples_and_links(browser: Browser, page_file: Path, mote_page: Opened) -> None:
    """Neither an example nor a link replaces the work that is kept: it is the first of the examples."""
    set_fields(mote_page, "echo\n", "")
    type_into(mote_page, "script", "text mine")
    mote_page.ask("byId('example').value = '3'; byId('example').dispatchEvent(new Event('change')); await idle();")
    assert mote_page.ask("return editors.script.text;") == EXAMPLES[3]["experiment"]["script"]
    choose = "byId('example').value = ''; byId('example').dispatchEvent(new Event('change')); await idle(); return editors.script.text;"
    assert mote_page.ask(choose) == "text mine"
    link = mote_page.ask(f"return linkOf({json.dumps({'network': 'mote 1 relay', 'only': None, 'quiet': False})});")
    page = browser.open(page_file.as_uri() + link)
    page.wait_for("document.body?.dataset.isReady === 'yes'")
    other = Opened(page)
    assert other.ask("return [editors.network.text, byId('lesson').textContent];") == [
        "mote 1 relay", "The experiment of the link that you opened. Your own work is the first of the examples."]
    assert other.ask(choose) == "text mine"
    page.close()


def test_forget(mote_page: Opened) -> None:
    """One button removes what is kept, and shows the first example."""
    set_fields(mote_page, "echo\n", "")
    type_into(mote_page, "script", "text mine")
    assert mote_page.ask("await click('forget'); return editors.script.text;") == EXAMPLES[0]["experiment"]["script"]
    assert mote_page.ask(KEEPING) == NOTHING_KEPT
    mote_page.reload()
    assert mote_page.ask(KEEPING) == NOTHING_KEPT
    assert mote_page.ask("return [byId('example').value, editors.script.text];") == ["0", EXAMPLES[0]["experiment"]["script"]]


@pytest.mark.parametrize("storage", [
    "() => { throw new DOMException('refused', 'SecurityError'); }",
    "() => ({ getItem: () => null, removeItem: () => {}, setItem: () => { throw new DOMException('full', 'QuotaExceededError'); } })",
], ids=["refused", "full"])
def test_nothing_can_be_kept(mote_page: Opened, storage: str) -> None:
    """Where the browser keeps nothing, the page says so, and runs."""
    mote_page.ask(f"kept.storage = {storage};")
    set_fields(mote_page, "echo\n", "")
    type_into(mote_page, "script", "text mine")
    told: list[Any] = mote_page.ask("return [byId('kept-words').textContent, byId('forget').checkVisibility(), transcript()];")
    assert told[:2] == ["This browser keeps no work of this page: Copy link does.", False] and "print 6d696e65\n" in told[2]


@pytest.mark.parametrize("text", ["", "nonsense", "[]", "{}", "null", '{"mote": {}, "network": {}, "isNetwork": true}'])
def test_nonsense_that_is_kept(browser: Browser, page_file: Path, mote_page: Opened, text: str) -> None:
    """What another version of the page, or another file, has left there is passed over."""
    mote_page.ask(f"localStorage.setItem('toarmuts-work', {json.dumps(text)});")
    mote_page.reload()
    assert mote_page.ask("return [byId('example').value, editors.script.text];") == ["0", EXAMPLES[0]["experiment"]["script"]]
    with opened(browser, page_file.as_uri()) as other:
        assert other.ask("return byId('kept').hidden;") is True
