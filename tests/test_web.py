"""The page with the mote (scripts/for-web) in Chromium: examples, mistakes, buttons, links, files, keys, looks; nothing leaves it."""

import json
import re
import subprocess
from pathlib import Path
from typing import Any

import pytest

from call_rules import RULES
from devtools import Browser
from tools import ROOT, cases, program
from web_page import Opened, in_chromium, opened, script, set_fields, set_network

pytestmark = in_chromium
EXAMPLES: list[dict[str, Any]] = json.loads((ROOT / "web/examples.json").read_text(encoding="utf-8"))
TABS = ("transcript", "picture", "explorer", "hand", "about")
WIDTHS = (420, 560, 760, 900, 1600)
TAB, ENTER, SPACE = ("Tab", 9), ("Enter", 13), (" ", 32)
CONTROL = 2
# The roles, as Chromium calls them, whose elements must have a name.
NAMED = {"button", "textbox", "combobox", "checkbox", "spinbutton", "tab", "tabpanel", "region", "Iframe", "progressbar",
         "ComboBoxGrouping", "grid", "image", "splitter"}


def transcripts_wanted() -> dict[str, str]:
    """The transcripts of the examples, as the rules of docs/profile.md have them. `32 times LINE` is 32 lines, `as FILE` all of a file."""
    found: dict[str, str] = {}
    for part in re.split(r"^== ", (ROOT / "tests/web/examples.txt").read_text(encoding="utf-8"), flags=re.M)[1:]:
        name, _, lines = part.partition("\n")
        lines = re.sub(r"^as (.*)\n", lambda told: (ROOT / told[1]).read_text(encoding="utf-8"), lines, flags=re.M)
        found[name] = re.sub(r"^(\d+) times (.*\n)", lambda told: told[2] * int(told[1]), lines, flags=re.M)
    return found


def marks(it: Opened) -> list[Any]:
    """The lines that are marked as mistaken: the editor, the line from 1 on, and the words at it."""
    found: list[Any] = it.ask(script("marks"))
    return found


# ---- Runs ----

def test_examples(mote_page: Opened) -> None:
    """There are ten, each with two sentences, and each has the transcript that the rules give it."""
    wanted = transcripts_wanted()
    assert [it["name"] for it in EXAMPLES] == list(wanted) and len(EXAMPLES) == 10
    for place, example in enumerate(EXAMPLES):
        said, told = mote_page.ask(f"""byId("example").value = "{place}"; byId("example").dispatchEvent(new Event("change")); await idle();
return [byId("lesson").textContent, transcript()];""")
        assert told == wanted[example["name"]], example["name"]
        assert said == example["about"] and len(re.findall(r"\.(?= |$)", said)) == 2, example["name"]


def test_examples_by_the_native_program(mote_page: Opened, tmp_path: Path) -> None:
    """The native program confirms the scenario file of each example of a mote, with its transcript."""
    for place, example in enumerate(EXAMPLES):
        if "network" in example["experiment"]:
            continue
        text = mote_page.ask(f"await showExample({place}); await idle(); return scenarioFileOf(shown.experiment, shown.run);")
        (tmp_path / "example").write_text(text, encoding="utf-8")
        ran = subprocess.run([program("scenario"), "example"], cwd=tmp_path, capture_output=True, text=True, check=False)
        assert (ran.returncode, ran.stdout, ran.stderr) == (0, "example: 1 of 1 runs as told\n", ""), example["name"]


@pytest.mark.parametrize("applications, inputs, editor, line, words", cases("web_mistakes"))
def test_mistakes(mote_page: Opened, applications: str, inputs: str, editor: str, line: int, words: str) -> None:
    """A mistake is marked at its line, in words, also for screen readers; the mark goes once it is corrected."""
    set_fields(mote_page, applications, inputs)
    (marked,) = marks(mote_page)
    assert marked[:2] == [editor, line] and words in marked[2]
    assert words in mote_page.ask("return byId('said').textContent;")
    assert mote_page.ask(f"return editors.{editor}.field.getAttribute('aria-invalid');") == "true"
    set_fields(mote_page, "blink\n", "tick 1\n")
    assert marks(mote_page) == [] and mote_page.ask("return document.querySelector('[aria-invalid]');") is None


@pytest.mark.parametrize("network, line, words", cases("web_network_mistakes"))
def test_mistakes_of_a_network(mote_page: Opened, network: str, line: int, words: str) -> None:
    """A malformed line is marked, with the reason; the run up to there is shown."""
    set_network(mote_page, network)
    assert marks(mote_page) == [["network", line, words]]
    told = mote_page.ask("return [byId('said').textContent, shown.run?.lines.at(-1), byId('results').classList.contains('stale')];")
    is_started = "tick" in network
    assert told[0].startswith(f"Network, line {line}: {words.rstrip('.')}. ")
    assert told[1:] == [f"bad line {line}", False] if is_started else told[2]
    set_network(mote_page, "mote 1 relay\n")
    assert marks(mote_page) == []
    assert mote_page.ask("return transcript();") == "1 4 synch 129 - -> packet-open\n1 4 answer done -> wait\n"


def test_network_as_typed(mote_page: Opened) -> None:
    """The other kind of experiment begins with an example, and what is typed runs at once. What was written of each is kept."""
    set_fields(mote_page, "blink\n", "tick 10\n")
    network = EXAMPLES[-1]["experiment"]["network"]
    told = mote_page.ask("await click('many-motes'); return [editors.network.text, byId('mote-fields').hidden, byId('choice').hidden];")
    assert told == [network, True, False]
    mote_page.ask("editors.network.focus(); editors.network.code.setCursor(99, 0);")
    mote_page.page.insert("3 serial 0a")
    mote_page.page.wait_for("shown.run.lines.includes('3 > serial 0a')")
    told = mote_page.ask("await click('one-mote'); return [transcript(), byId('choice').hidden, editors.network.text];")
    assert "> tick 10\n" in told[0] and told[1:] == [True, network + "3 serial 0a"]


def test_network_that_halts(mote_page: Opened) -> None:
    """A line that takes all its rounds is reported. A number of a mote that doesn't exist is marked where it is chosen."""
    set_network(mote_page, "mote 1 relay\nlink 1 1 delay 1\nrounds 5\n1 frame 0a\ntick 100\n")
    assert "The network halted" in mote_page.ask("return byId('said').textContent;")
    assert mote_page.ask("view.choose(99); return byId('line-about').textContent;").endswith(
        ", of the network: The network halts: its last line took all its rounds.")
    set_network(mote_page, "mote 1 relay\n", only=2)
    told = mote_page.ask("return [byId('said').textContent, byId('only').getAttribute('aria-invalid')];")
    assert told == ["There is no mote 2: choose another one. Nothing was run.", "true"]


@pytest.mark.parametrize("sizes, field, words", [
    ({"mmem": 6}, "mmem", "a multiple of 4, from 4 to 65,536"), ({"heap": 16}, "heap", "from 20 to 65,536"),
    ({"quota": 2}, "quota", "A quota must be"), ({"mmem": 2**32 + 64}, "mmem", "Managed memory must be"), ({"heap": -4}, "heap", "from 20"),
    ({"mmem": 32, "quota": 32}, "quota", "a quota of each application and one of the frames"),
])
def test_mistaken_sizes(mote_page: Opened, sizes: dict[str, Any], field: str, words: str) -> None:
    set_fields(mote_page, "blink\n", "", **sizes)
    told = mote_page.ask(f"return [byId('said').textContent, byId('{field}').getAttribute('aria-invalid'), byId('sizes').open];")
    assert words in told[0] and told[1:] == ["true", True]


def test_run_up_to_a_mistake(mote_page: Opened) -> None:
    set_fields(mote_page, "blink\n", "tick 10\ntock\n")
    told = mote_page.ask("return transcript();").splitlines()
    assert told[-1] == "bad line 2" and "> tick 10" in told


def test_as_typed(mote_page: Opened) -> None:
    """What is typed runs at once, or with the button where that is switched off."""
    set_fields(mote_page, "blink\n", "")
    mote_page.ask("editors.script.focus();")
    mote_page.page.insert("tick 10")
    mote_page.page.wait_for("shown.run.lines.includes('> tick 10')")
    mote_page.ask("byId('live').click(); editors.script.focus(); editors.script.code.setCursor(9, 0);")
    mote_page.page.insert("\ntick 77")
    mote_page.ask("await new Promise((done) => setTimeout(done, 300)); await idle();")
    assert "tick 77" not in mote_page.ask("return transcript();")
    assert "> tick 77\n" in mote_page.ask("await click('run'); return transcript();")


@pytest.mark.parametrize("editor, before, typed, found, text", [
    ("applications", "", "calls timer-rese", "timer-reset TIMER: Arms", "calls timer-reset"),
    ("network", "", "gr", "grid N..M width W delay D: Rows", "grid "),
    ("network", "grid ", "1 calls packet-o", "packet-open: ", "grid 1 calls packet-open"),
])
def test_completion(mote_page: Opened, editor: str, before: str, typed: str, found: str, text: str) -> None:
    """Ctrl+Space names what a line may begin with, or the calls that begin so, with what they take, and Enter takes one."""
    if editor == "network":
        set_network(mote_page, before)
    else:
        set_fields(mote_page, before, "")
    mote_page.ask(f"editors.{editor}.focus(); editors.{editor}.code.setCursor(0, 99);")
    mote_page.page.insert(typed)
    mote_page.page.wait_for(f"editors.{editor}.text === '{before}{typed}'")
    mote_page.page.press(*SPACE, modifiers=CONTROL)
    mote_page.page.wait_for("document.querySelector('.CodeMirror-hint')")
    assert mote_page.ask("return document.querySelector('.CodeMirror-hint').textContent;").startswith(found)
    mote_page.page.press(*ENTER)
    assert mote_page.ask(f"return editors.{editor}.text;") == text


def test_all_calls(mote_page: Opened) -> None:
    """A list has each call of the rules, with its arguments and what it does."""
    told = mote_page.ask("byId('all-calls').open = true; return [...byId('all-calls').querySelectorAll('li')].map((it) => it.innerText);")
    assert [it.split(" ")[0] for it in told] == [it["name"] for it in RULES["calls"]]
    assert "timer-set TIMER INTERVAL Arms an event timer: it runs out this number of ticks after the present clock." in told


# ---- Buttons ----

def test_input_buttons(mote_page: Opened) -> None:
    """Each appends its line to the script, which runs."""
    set_fields(mote_page, "echo\n", "# first")
    told = mote_page.ask("""
for (const button of document.querySelectorAll("[data-to=script] [data-input]")) { button.click(); await idle(); }
return [editors.script.text, transcript()];""")
    assert told[0] == "# first\ntick 10\nserial 68656c6c6f0a\nframe 0102\n"
    assert "> tick 10\n" in told[1] and "4 event 138 x68656c6c6f -> print 68656c6c6f\n" in told[1] and "> frame 0102\n" in told[1]


def test_added_applications(mote_page: Opened) -> None:
    set_fields(mote_page, "", "")
    told = mote_page.ask("""
const found = [];
for (const option of [...byId("kind").options]) {
  byId("kind").value = option.value;
  await click("add");
  found.push(byId("said").classList.contains("fault"));
}
return [found, namesOf(readExperiment())];""")
    assert told == [[False] * 9, ["calls", "rows", *RULES["applications"]]]


def test_network_buttons(mote_page: Opened) -> None:
    """Lines that set something up go before the first input, for the next mote or the last one; inputs go to the mote that is named."""
    set_network(mote_page, "# mine\nmote 1 relay\ntick 1")
    assert mote_page.ask(script("network_buttons")) == (
        "# mine\nmote 1 relay\nmote 2 relay\nmote 3 blink\nmote 4 calls print 68690a\nlink 1 4 delay 1\nline 1..4 delay 1\n"
        "ring 1..4 delay 1\nmesh 1..4 delay 1\nlink 1 4 delay 1 every 2\ntick 1\ntick 10\n2 serial 68656c6c6f0a\n2 frame 0102\n")
    assert marks(mote_page) == []
    set_network(mote_page, "")
    assert mote_page.ask("byId('line-kind').selectedIndex = 0; await click('add-line');"
                         "return editors.network.text.trim();") == "mote 1 relay"


def test_sizes(mote_page: Opened) -> None:
    told = mote_page.ask(script("sizes"))
    assert "answer num 4096" in told[0] and "answer stats 20 16 4060 36 1" in told[0]
    assert "answer num 16" in told[1] and "answer stats 20 8 100 28 1" in told[1]
    assert told[2] == ""


def downloaded(it: Opened, folder: Path, names: list[str]) -> list[str]:
    it.page.call("Page.setDownloadBehavior", behavior="allow", downloadPath=str(folder))
    for button in ("save-transcript", "save-scenario", "save-picture"):
        it.ask(f"await click('{button}');")
    for _ in range(1500):
        if all((folder / name).exists() for name in names):
            break
        it.ask("await new Promise((done) => setTimeout(done, 20));")
    return [(folder / name).read_text(encoding="utf-8") for name in names]


def test_saved_files(mote_page: Opened, tmp_path: Path) -> None:
    """The transcript, the scenario file and the picture are saved as they are shown."""
    set_fields(mote_page, 'rows\non line: print told, repeat\n', "text hello\n")
    transcript, scenario, picture = downloaded(mote_page, tmp_path, ["mote.transcript", "mote.scenario", "mote.svg"])
    lines = ["4 synch 129 - -> wait", "> serial 68656c6c6f0a", "4 event 138 x68656c6c6f -> print 68656c6c6f", "4 answer done -> wait"]
    assert transcript.splitlines() == lines
    assert scenario.endswith("rows\non line: print told, repeat\ntext hello\n" + transcript)
    drawn = subprocess.run([program("mote_picture"), "rows"], input=transcript.encode(), capture_output=True, check=True)
    assert picture == drawn.stdout.decode()


def test_saved_network(mote_page: Opened, tmp_path: Path) -> None:
    """The transcript of a network, its script, and the picture of the mote whose line is chosen; and those of one mote."""
    three = ROOT / "examples/networks/three"
    network, transcript = (three.with_suffix(it).read_text(encoding="utf-8") for it in (".net", ".transcript"))
    set_network(mote_page, network)
    mote_page.ask("view.choose(view.lines.indexOf('2 > tick 3'));")
    own = "".join(f"{line[2:]}\n" for line in transcript.splitlines() if line.startswith("2 "))
    drawn = subprocess.run([program("mote_picture"), "relay"], input=own.encode(), capture_output=True, check=True).stdout.decode()
    assert downloaded(mote_page, tmp_path, ["network.transcript", "script.net", "mote-2.svg"]) == [transcript, network, drawn]
    set_network(mote_page, network, only=2)
    (tmp_path / "one").mkdir()
    assert downloaded(mote_page, tmp_path / "one", ["mote-2.transcript", "script.net", "mote-2.svg"]) == [own, network, drawn]


def test_link_of_a_network(browser: Browser, page_file: Path, mote_page: Opened) -> None:
    """A link carries the script of a network, and the choice of one mote."""
    given: dict[str, Any] = {"network": "mote 1..2 echo\n# ü\n2 serial 410a\n", "only": 2, "quiet": True}
    set_network(mote_page, **given)
    told = mote_page.ask("await click('link'); await copyLink(); return [location.hash, transcript()];")
    with opened(browser, page_file.as_uri() + told[0]) as other:
        assert other.ask("await idle(); return [readExperiment(), transcript(), byId('only').value];") == [given, told[1], "2"]
        assert told[1] == "4 event 138 x41 -> print 41\n"


def test_link(browser: Browser, page_file: Path, mote_page: Opened) -> None:
    """A link carries all of an experiment: another page that opens it has the same fields and the same transcript."""
    sizes: dict[str, Any] = {"mmem": 64, "heap": 128, "header": 8, "quota": 16, "quiet": False}
    given: dict[str, Any] = {"applications": 'calls timer-set 0 5, wait, print "ü<b>\\n"\nblink\n', "script": "tick 9\n# ü\n", **sizes}
    set_fields(mote_page, str(given["applications"]), str(given["script"]), **sizes)
    told = mote_page.ask("await click('link'); await copyLink(); return [location.hash, transcript(), byId('saved').textContent];")
    assert told[0].startswith("#e=") and len(told[0]) < 300 and "link" in told[2]
    with opened(browser, page_file.as_uri() + told[0]) as other:
        assert other.ask("await idle(); return [readExperiment(), transcript(), byId('sizes').open];") == [given, told[1], True]
    with opened(browser, page_file.as_uri() + told[0][:-9]) as broken:
        said = broken.ask("await idle(); return [byId('saved').textContent, shown.run.lines.length];")
        assert "The link is incomplete" in said[0] and said[1] > 0


def test_stop(mote_page: Opened) -> None:
    """A long run shows that it goes on, and is stopped by its button; the next run is right."""
    told = mote_page.ask(script("stop"))
    assert told["during"][:2] == [False, False] and told["during"][2].endswith(" ..")
    assert told["after"] == [True, True, "The run was stopped."] and told["transcript"] == transcripts_wanted()[EXAMPLES[0]["name"]]


def test_hand(mote_page: Opened) -> None:
    """The reader plays two processes: turns, refusals, mistakes, inputs, undo, and the experiment that comes of it."""
    told = mote_page.ask(script("hand"))
    said = told["said"]
    refused = "goes on: its call was refused with 7: no process, timer, handle, block, pool or list has that name"
    turns = ["starts: it receives INIT", refused, *["goes on: its call was done"] * 3]
    assert [it["turn"] for it in said[:5]] == [f"Process 4 {turn}. Which call does it make?" for turn in turns]
    assert said[5]["turn"] == "Process 5 starts: it receives INIT. Which call does it make?"
    assert said[6]["turn"] == "Process 4 receives EXITED: process 5 has ended. Which call does it make?" and said[7]["turn"] is None
    assert [it["fault"] for it in said[2:6]] == ["", "there is no call “frobnicate”", "write post PROCESS CODE PAYLOAD", ""]
    assert told["state"] == "Clock 0. The mote rests: nothing happens until an input arrives."
    lines = ["4 synch 129 - -> timer-set 9 1", "4 answer refused 7 -> print 68690a", "4 answer done -> wait", "5 synch 129 - -> exit",
             "4 synch 135 5 -> wait", "> tick 10", "> serial 68656c6c6f0a", "4 event 138 x68656c6c6f -> wait", "> frame 0102"]
    assert told["lines"][:9] == lines and told["undone"] == lines[:8]
    assert told["tab"] == "transcript" and told["transcript"].splitlines() == lines[:8]
    assert told["experiment"]["applications"] == 'calls timer-set 9 1, print "hi\\n", wait, wait, wait\ncalls exit\n'


# ---- What is shown ----

def test_lines(mote_page: Opened) -> None:
    """Each line has its number, its clock where that changes, its words and its text; a chosen one is explained, by mouse and by keys."""
    set_fields(mote_page, "calls timer-set 9 1, print \"<b>\", wait\n", "tick 1234\nframe 0102\n")
    told = mote_page.ask(script("chosen_lines"))
    rows, said = told["rows"], told["said"]
    assert rows[0] == ["1", "0", "4 calls INIT → timer-set 9 1\u00a0\u00a0✗ bad name (7)", "4 synch 129 - -> timer-set 9 1"]
    assert rows[1][:2] == ["2", ""] and "print “<b>”" in rows[1][2]
    assert rows[3] == ["4", "1,234", "tick 1234", "> tick 1234"]
    assert said[0].startswith("Line 1: Process 4 (calls) starts: it receives INIT. It calls timer-set 9 1. ")
    assert said[0].endswith("The reply, in line 2: refused, no process, timer, handle, block, pool or list has that name.")
    assert said[1].startswith("Line 2: Process 4 (calls) goes on: its call was refused with 7: no process") and "print 3c623e" in said[1]
    assert said[3] == "Line 4: The clock goes on by 1,234 ticks." and said[4].startswith("Line 5: A radio frame of 2 bytes arrives")
    assert said[5] == said[0]


def test_lines_of_a_network(mote_page: Opened) -> None:
    """Each line has the network's clock, its mote and its words; a chosen one is explained, with the reply to its call."""
    set_network(mote_page, (ROOT / "examples/networks/three.net").read_text(encoding="utf-8"))
    told = mote_page.ask(script("chosen_lines"))
    rows, said = told["rows"], told["said"]
    titles = "return [...document.querySelectorAll('#lines th')].map((it) => it.textContent);"
    assert mote_page.ask(titles) == ["Line", "Clock", "Mote", "In words", "Transcript"]
    assert rows[0] == ["1", "0", "1", "4 relay INIT → packet-open", "1 4 synch 129 - -> packet-open"]
    assert rows[4][2:4] == ["3", "4 blink INIT → timer-set 0 10"]
    assert rows[15] == ["16", "3", "", "the clock goes on to 3", "= 3"] and rows[16] == ["17", "", "2", "tick 3", "2 > tick 3"]
    assert rows[48] == ["49", "", "", "the frame from mote 2 to 3 is lost: the link's rule", "lost 2 3"]
    assert said[0].startswith("Line 1, of mote 1: Process 4 (relay) starts: it receives INIT. It calls packet-open. ")
    assert said[0].endswith(" The reply, in line 2: done.") and said[4] == "Line 58, of the network: The clock goes on to 12."
    assert mote_page.ask("view.choose(48); return byId('line-about').textContent;") == (
        "Line 49, of the network: The frame from mote 2 to 3 is lost: the link's rule.")


def test_one_mote_of_a_network(mote_page: Opened) -> None:
    """The lines of one mote are those of the native `network --only N`; its picture and its explorer are those of a mote."""
    script_file = ROOT / "examples/networks/three.net"
    set_network(mote_page, script_file.read_text(encoding="utf-8"))
    assert mote_page.ask("return [...byId('only').options].map((it) => it.textContent);") == [
        "all motes", "mote 1: relay", "mote 2: relay", "mote 3: blink"]
    transcripts, pictures, abouts, explorers = mote_page.ask(script("one_mote"))
    for number, name in enumerate(("relay", "relay", "blink"), 1):
        lines = subprocess.run([program("network"), "--only", str(number)], input=script_file.read_bytes(), capture_output=True, check=True)
        drawn = subprocess.run([program("mote_picture"), name], input=lines.stdout, capture_output=True, check=True)
        assert transcripts[number - 1] == lines.stdout.decode() and pictures[number - 1] == drawn.stdout.decode()
        page = subprocess.run([program("mote_picture"), "--page", name], input=lines.stdout, capture_output=True, check=True)
        assert explorers[number - 1] == page.stdout.decode() and abouts[number - 1].startswith(f"Mote {number}. Time goes down.")
    # Of all motes, a picture is of that of the chosen line, or of the first one.
    assert pictures[3:] == [pictures[0], pictures[2]] and explorers[3:] == [explorers[0], explorers[2]]
    assert abouts[4].startswith("Mote 3. ")


def test_folded_lines(mote_page: Opened) -> None:
    """Over 20,000 lines, repeated ones are folded, and shown where that is asked for; all of them are in the transcript."""
    told = mote_page.ask(script("folded_lines"))
    # At boot two lines; then each tick one, and three turns: at the clocks 10, 20, ..
    assert told["lines"] == 40_002 and told["open"] == 40_002 and told["folded"] < 20 and told["made"] < 1500
    assert "8 lines above" in told["fold"] and "repeated lines folded" in told["said"] and told["about"].startswith("Line 39,001: ")


def test_many_lines(mote_page: Opened) -> None:
    """50,000 lines that don't repeat are shown in time: only the rows that can be seen are made, and the picture is of the first lines."""
    told = mote_page.ask(script("many_lines"))
    assert told["lines"] == 50_001 and told["rows"] <= 1000 and told["took"] < 5000 and told["pictures"] == 1
    assert told["about"] == "The first 3,000 lines. Choose clocks to see others."


def test_picture(mote_page: Opened, tmp_path: Path) -> None:
    """The picture is that of the native program, of the whole run and of a part; an invalid part is reported."""
    transcript = (ROOT / "examples/blink.transcript").read_text(encoding="utf-8")
    told = mote_page.ask(script("picture"))
    pictures: list[tuple[list[str], str]] = [([], told["whole"]), (["--from", "5", "--to", "20"], told["part"])]
    for words, drawn in pictures:
        ran = subprocess.run([program("mote_picture"), *words, "blink"], input=transcript.encode(), capture_output=True, check=True)
        assert drawn == ran.stdout.decode()
    assert told["none"] is None and told["elements"] == 0 and told["about"] == "--from 20 is above --to 5"


def test_explorer(mote_page: Opened) -> None:
    set_fields(mote_page, "blink\n", "tick 10\n")
    mote_page.ask("await click('tab-explorer');")
    assert mote_page.page.ask_frame("document.querySelectorAll('.row').length", 6) == 6
    assert "1 input" in mote_page.page.ask_frame("byId('tally').textContent")


def test_markup(mote_page: Opened) -> None:
    """Markup that is printed, typed or carried by a link is shown as text: nothing is made of it, and no script of it runs."""
    markup = '</script><img src=x onerror="document.title=1"><script>document.title=1</script>'
    set_fields(mote_page, f'calls print "{markup[:20]}"\n{markup}\n', f"# {markup}\n{markup}\n")
    set_fields(mote_page, 'calls print "<img src=x>"\n', f"# {markup}\n")
    told = mote_page.ask(r"""
await click("tab-picture"); await click("tab-explorer"); await click("tab-transcript");
return [document.title, document.images.length, byId("lines").innerText.includes("<img src=x>")];""")
    assert told == ["A proved mote in your browser", 0, True]


def test_about(mote_page: Opened, browser: Browser, page_file: Path) -> None:
    """The page says in one sentence what is proved and what is tested, and leads to the page on it, with the licences."""
    claim = mote_page.ask("return document.querySelector('#claim').textContent;")
    assert claim.startswith("The kernel's source code is proved; this build of it for browsers is tested, not proved.")
    mote_page.ask("document.querySelector('#claim a').click();")
    mote_page.page.wait_for("tabs.current === 'about'")
    told = mote_page.ask("return [tabs.current, byId('about').innerText, byId('about').querySelectorAll('details').length];")
    assert told[0] == "about" and "What is proved, and what is tested" in told[1] and "commit" in told[1] and told[2] > 5
    licences = mote_page.ask("return byId('about').textContent;")
    assert "Marijn Haverbeke" in licences and "Permission is hereby granted" in licences
    with opened(browser, page_file.as_uri() + "#about") as other:
        assert other.ask("return tabs.current;") == "about"


# ---- Keys, screen readers, looks ----

def test_keys(mote_page: Opened) -> None:
    """Tab goes through all fields in their order and out of the editors; arrows go from tab to tab."""
    set_fields(mote_page, "blink\n", "tick 10\n")
    mote_page.ask("byId('example').focus();")
    found = []
    for _ in range(26):
        found.append(mote_page.ask("const it = document.activeElement;"
                                   "return it.id || it.dataset.input || it.getAttribute('aria-label') || it.tagName;"))
        mote_page.page.press(*TAB)
    inputs = ["serial", "text on the serial line", "frame", "bytes of the frame in hex"]
    last = ["quiet", "run", "live", "save-transcript", "save-scenario", "save-picture", "link", "tab-transcript"]
    wanted = ["example", "one-mote", "Applications", "kind", "add", "SUMMARY", "Inputs", "tick", "number of ticks", *inputs, "SUMMARY",
              *last, "lines"]
    assert found[:len(wanted)] == wanted
    mote_page.ask("byId('tab-transcript').focus();")
    shown = "return [tabs.current, document.activeElement.id, document.querySelectorAll('[role=tabpanel]:not([hidden])').length];"
    steps = [("ArrowRight", "picture"), ("ArrowLeft", "transcript"), ("ArrowLeft", "about"), ("Home", "transcript"), ("End", "about")]
    for key, tab in steps:
        mote_page.page.press(key)
        assert mote_page.ask(shown) == [tab, f"tab-{tab}", 1]


def test_names_for_screen_readers(mote_page: Opened) -> None:
    """Each field, button, region and frame has a name, of a mote and of a network."""
    of_network = [(tab, "many-motes") for tab in ("transcript", "chart", "picture")]
    for tab, kind in [*((tab, "one-mote") for tab in TABS), *of_network]:
        mote_page.ask(f"await click('{kind}'); await click('tab-{tab}');")
        nodes = mote_page.page.call("Accessibility.getFullAXTree")["nodes"]
        named = [it for it in nodes if not it["ignored"] and it["role"]["value"] in NAMED]
        assert len(named) > 20 and [it["role"]["value"] for it in named if not it.get("name", {}).get("value")] == [], tab


@pytest.mark.parametrize("is_dark", [False, True], ids=["light", "dark"])
@pytest.mark.parametrize("width", WIDTHS)
def test_looks(browser: Browser, page_file: Path, width: int, is_dark: bool) -> None:
    """Nothing is wider than the window, every panel has room, and each text stands out from its ground."""
    with opened(browser, page_file.as_uri(), width, is_dark) as it:
        for tab in TABS:
            told = it.ask(f"const PANEL = '{tab}';\n{script('looks')}")
            assert told["over"] <= 0 and told["wide"] == [] and told["height"] >= 300 and told["width"] >= min(400, width - 20), (tab, told)
        it.ask(f"await showExample({len(EXAMPLES) - 1}); await idle();")
        for tab in ("transcript", "chart", "picture", "explorer"):
            told = it.ask(f"const PANEL = '{tab}';\n{script('looks')}")
            assert told["over"] <= 0 and told["wide"] == [] and told["height"] >= 300, (tab, told)
        assert it.ask(script("contrast")) == []


def test_nothing_leaves(browser: Browser, page_file: Path) -> None:
    """The page's policy refuses each way out. That the page itself asks for nothing is looked at in every test."""
    page = browser.open(page_file.as_uri())
    page.wait_for("document.body?.dataset.isReady === 'yes'")
    policy = page.ask("return document.querySelector('meta[http-equiv]').content;")
    assert policy.startswith("default-src 'none'; script-src 'sha256-") and "'unsafe-eval'" not in policy
    told = page.ask(script("ways_out"))
    assert told["refused"] == ["connect-src", "frame-src", "img-src", "script-src", "style-src"]
    assert told["failed"] == "TypeError" and told["title"] == "A proved mote in your browser"
    page.close()
