"""The network's chart in the page with the mote, and networks with texts in quotes; what is saved runs by the native programs."""

import subprocess
from pathlib import Path

import pytest

from stored_cases import StoredCase
from test_network import WORKED
from test_web import downloaded
from tools import ROOT, program
from web_page import Opened, in_chromium, set_fields, set_network

pytestmark = in_chromium
# The worked networks that run to their end, with all lines.
PLAIN = [case for case in WORKED if not case.words and not case.status]
THREE = ROOT / "examples/networks/three.net"
QUOTES = 'mote 1 calls print "hi\\n", post 4 MSG x"é"\nmote 2 echo\nlink 1 2 delay 1\n2 serial "ab\\n"\ntick 1\n'


def run_native(name: str, words: list[str], given: str) -> "subprocess.CompletedProcess[str]":
    return subprocess.run([program(name), *words], input=given, capture_output=True, text=True, encoding="utf-8", check=False)


def chart_of(script: str, *words: str) -> str:
    """The chart of a script by the native programs."""
    transcript = run_native("network", [], script).stdout
    return run_native("network_picture", list(words), script + transcript).stdout


def test_chart(mote_page: Opened) -> None:
    """The chart is that of the native program, of all motes also where the lines of one are shown, or only what is printed and sent."""
    script = THREE.read_text(encoding="utf-8")
    set_network(mote_page, script)
    told = mote_page.ask("await click('tab-chart'); return [shown.chart, byId('chart-about').textContent, byId('choice').hidden];")
    assert told == [chart_of(script), "Time goes down. An arrow is a frame on its way.", True]
    for only, quiet in ((2, False), (None, True)):
        set_network(mote_page, script, only=only, quiet=quiet)
        assert mote_page.ask("await idle(); return shown.chart;") == told[0]


@pytest.mark.parametrize("case", PLAIN, ids=[case.name for case in PLAIN])
def test_worked_charts(mote_page: Opened, case: StoredCase) -> None:
    text = case.text("stdin").decode()
    mote_page.ask("await click('many-motes'); await click('tab-chart');")
    set_network(mote_page, text)
    told = mote_page.ask("await idle(); return [shown.chart, byId('chart-drawing').childElementCount];")
    assert told == [chart_of(text), 1]


def test_chart_of_a_part(mote_page: Opened) -> None:
    """A chart is of the clocks that are chosen; a wrong choice is reported, and so is a network that can't be charted."""
    script = THREE.read_text(encoding="utf-8")
    set_network(mote_page, script)
    draw = "byId('chart-from').value = %s; byId('chart-to').value = %s; byId('chart-part').requestSubmit(); await idle();"
    told = "return [shown.chart, byId('chart-about').textContent];"
    mote_page.ask("await click('tab-chart');")
    assert mote_page.ask(f"{draw % (3, 8)} {told}")[0] == chart_of(script, "--from", "3", "--to", "8")
    assert mote_page.ask(f"{draw % (8, 3)} {told}") == [None, "--from 8 is above --to 3"]
    assert mote_page.ask(f"{draw % ('null', 'null')} {told}")[0] == chart_of(script)


def test_chart_of_a_long_run(mote_page: Opened) -> None:
    """Of a long run the chart has the first lines; with clocks it is of any part."""
    script = "mote 1..2 blink\n" + "tick 10\n" * 600
    set_network(mote_page, script)
    told = mote_page.ask("await click('tab-chart'); return [shown.chart, byId('chart-about').textContent, shown.run.lines.length];")
    assert told[2] > 3000 and told[1] == "The first 3,000 lines. Choose clocks to see others."
    first = "".join(f"{line}\n" for line in run_native("network", [], script).stdout.splitlines()[:3000])
    assert told[0] == run_native("network_picture", [], script + first).stdout


def test_tab_of_networks(mote_page: Opened) -> None:
    """The chart has a tab where a network runs; arrow keys pass over it where none does."""
    set_fields(mote_page, "hello\n", "")
    keys = "return [tabs.current, byId('tab-chart').checkVisibility()];"
    mote_page.ask("byId('tab-transcript').click(); byId('tab-transcript').focus();")
    mote_page.page.press("ArrowRight")
    assert mote_page.ask(keys) == ["picture", False]
    set_network(mote_page, "mote 1 relay\n")
    mote_page.ask("byId('tab-transcript').click(); byId('tab-transcript').focus();")
    mote_page.page.press("ArrowRight")
    assert mote_page.ask(keys) == ["chart", True]
    set_fields(mote_page, "hello\n", "")
    assert mote_page.ask(keys) == ["transcript", False]


def test_saved_chart(mote_page: Opened, tmp_path: Path) -> None:
    """*Save picture* saves the chart where that is shown."""
    script = THREE.read_text(encoding="utf-8")
    set_network(mote_page, script)
    mote_page.ask("await click('tab-chart');")
    assert downloaded(mote_page, tmp_path, ["network.svg"]) == [chart_of(script)]


def test_quotes_in_a_network(mote_page: Opened, tmp_path: Path) -> None:
    """Texts in quotes and names of events are read as in a scenario; the script that is saved is one for `network`."""
    set_network(mote_page, QUOTES)
    text = mote_page.ask("return [transcript(), byId('said').textContent];")
    assert "1 4 synch 129 - -> print 68690a\n" in text[0] and "2 4 event 138 x6162 -> print 6162\n" in text[0]
    assert text[1].startswith("The script was run to its end")
    transcript, script = downloaded(mote_page, tmp_path, ["network.transcript", "script.net"])
    ran = run_native("network", [], script)
    assert (ran.returncode, ran.stdout) == (0, transcript) and transcript == text[0]
    assert mote_page.ask("await click('tab-chart'); return shown.chart;") == chart_of(script)
    set_network(mote_page, QUOTES, only=2)
    assert mote_page.ask("return transcript();") == run_native("network", ["--only", "2"], script).stdout
    # With a fault what is saved is what is written.
    set_network(mote_page, QUOTES + "tick x\n")
    (tmp_path / "fault").mkdir()
    assert downloaded(mote_page, tmp_path / "fault", ["script.net"]) == [QUOTES + "tick x\n"]


def test_long_line_of_a_network(mote_page: Opened) -> None:
    set_network(mote_page, f"mote 1 relay\nmote 2 {'relay ' * 200}\n")
    assert mote_page.ask("return byId('said').textContent;") == (
        "Network, line 2: a line of a network's script has at most 1024 bytes. Nothing was run.")


def test_fault_beside_a_mote_that_is_chosen(mote_page: Opened) -> None:
    """A malformed line is reported, and not the mote that is chosen, which it would have set up."""
    set_network(mote_page, "mote 1 relay\nmote 2 relya\n", only=2)
    assert mote_page.ask("return byId('said').textContent;") == "Network, line 2: no application relya. Nothing was run."
    set_network(mote_page, 'mote 1 calls print "a"\n', only=2)
    assert mote_page.ask("return byId('said').textContent;") == "There is no mote 2: choose another one. Nothing was run."


@pytest.mark.parametrize("applications, inputs, told", [
    ("blink\n", "tick 10\ntick 1x\ntick 5\n", "bad line 2"), ("blink\n", "text hi\nat 0\ntick 4294967296\n", "bad line 2"),
    ("rows\non any: wait\n", "tick 1\nserial 6\nnonsense", "bad line 2"), ("echo\n", "tock\n", "bad line 1"),
], ids=["words", "a tick of 33 bits", "rows", "another word"])
def test_saved_with_a_malformed_line(mote_page: Opened, tmp_path: Path, applications: str, inputs: str, told: str) -> None:
    """A run ends at its malformed line, after all that is well-formed. The scenario file that is saved of it is one."""
    set_fields(mote_page, applications, inputs)
    text = mote_page.ask("return [scenarioFileOf(shown.experiment, shown.run), shown.run.lines.at(-1)];")
    assert text[1] == told
    (tmp_path / "saved").write_text(text[0], encoding="utf-8")
    ran = subprocess.run([program("scenario"), "saved"], cwd=tmp_path, capture_output=True, text=True, check=False)
    assert (ran.returncode, ran.stdout, ran.stderr) == (0, "saved: 1 of 1 runs as told\n", "")


def test_explained_texts(mote_page: Opened) -> None:
    """A text that is printed is a text in the explanation, too."""
    set_fields(mote_page, 'calls print "on\\n", post 4 140 x"hi", print "\\\\"\n', "")
    said = mote_page.ask("view.choose(0); return byId('line-about').textContent;")
    assert "It calls print “on⏎” (print 6f6e0a). " in said
    said = mote_page.ask("view.choose(1); return byId('line-about').textContent;")
    assert "It calls post 4 140 x“hi” (post 4 140 x6869). " in said
