"""Pictures and pages of runs."""
import dataclasses
import random
import xml.etree.ElementTree as ElementTree

import pytest
from common import ROOT, random_line

import toarmuts
from toarmuts import Link, Loss, Mote, Network, NetworkTranscript, NoPicture, Print, Transcript, Wait, run_network
from toarmuts.picture import MOST_BYTES_SHOWN, program

built = pytest.mark.skipif(program() is None, reason="the program mote_picture isn't built")


@pytest.fixture(autouse=True)
def patience(monkeypatch):
    """A notebook waits for a picture however busy this machine is."""
    monkeypatch.setattr("toarmuts.picture.SECONDS_TO_SHOW", 300)


@built
def test_a_picture_is_that_of_the_program():
    run = toarmuts.run(["blink"], (ROOT / "examples/blink.script").read_text())
    assert run.svg() == (ROOT / "examples/blink.svg").read_text() and run._repr_svg_() == run.svg()
    assert ElementTree.fromstring(run.svg(first=5, last=15, unfolded=True)).tag.endswith("svg")
    assert toarmuts.run([[Print(b"<&>")]], mmem=64, quota=32).svg().startswith("<svg")


def test_without_the_program_it_is_told(monkeypatch):
    monkeypatch.setenv("TOARMUTS_PICTURE", "/no/such/program")
    run = toarmuts.run(["blink"])
    with pytest.raises(NoPicture, match="/no/such/program"):
        run.svg()
    assert run._repr_svg_() is None and "There is no picture" in run.page()


def test_what_the_program_is_told(tmp_path, monkeypatch):
    """A stub in its place tells its words."""
    stub = tmp_path / "stub"
    stub.write_text('#!/bin/sh\nprintf "%s " "$@"\n')
    stub.chmod(0o755)
    monkeypatch.setenv("TOARMUTS_PICTURE", str(stub))
    quiet = toarmuts.run(["hello", "blink"], mmem=64, quota=20, quiet=True)
    assert quiet.svg() == "--mmem 64 --quota 20 hello blink "
    assert quiet.svg(first=0, last=0, unfolded=True) == "--mmem 64 --quota 20 --from 0 --to 0 --unfolded hello blink "
    waits = [Wait()]
    named = toarmuts.run([waits]).named[0]
    run = dataclasses.replace(toarmuts.run([waits]), named=(dataclasses.replace(named, shown="-x"),))
    assert run.svg() == "-- -x "
    stub.write_text("#!/bin/sh\necho why >&2\nexit 2\n")
    with pytest.raises(NoPicture, match="ended with 2: why"):
        quiet.svg()


def test_a_page_tells_what_was_run():
    page = toarmuts.run(["calls print 3c", "hello"], "# <\ntick 1\ntick 0\nfrob <b>\n", heap=64).page()
    for words in ("A run of calls, hello", "It ended with: bad line 4. Options: --heap 64.", "<ol start=4>", "<code>calls print 3c</code>",
                  "<pre># &lt;\ntick 1\ntick 0\nfrob &lt;b&gt;\n</pre>"):
        assert words in page, words
    assert "<code>&lt;lambda&gt;</code>" in toarmuts.run([lambda: (Wait() for _ in range(1))]).page()
    clocks = [row.split("</td>")[0].rpartition(">")[2] for row in page.split("<tr")[2:]]
    assert clocks == ["0", "", "", "", "1", "", ""]


def test_a_page_tells_each_entry_in_words():
    run = toarmuts.run(["blink", [Print(b"<b>"), "timer-stop 9"]], "tick 10\nserial 3c0a\n")
    page = run.page("<title>")
    assert "&lt;title&gt;" in page and "<b>" not in page.replace("<body>", "") and "its event timer 0 ran out" in page
    assert page.count("<tr") == len(run.transcript) + 1 and "refused with 7" in page
    assert page.count('<tr class="refused">') == 1 and page.count('<tr class="input">') == 2


def stub(tmp_path, monkeypatch, text):
    """A program in the place of mote_picture."""
    place = tmp_path / "stub"
    place.write_text(f"#!/bin/sh\n{text}\n")
    place.chmod(0o755)
    monkeypatch.setenv("TOARMUTS_PICTURE", str(place))


def test_a_notebook_shows_no_picture_without_end(tmp_path, monkeypatch):
    """Of a large one it shows the first entries, and how many there are."""
    run = toarmuts.run(["blink"], "tick 10\n" * 200)
    stub(tmp_path, monkeypatch, f"head -c {MOST_BYTES_SHOWN} /dev/zero | tr '\\0' x")
    assert len(run._repr_svg_()) == MOST_BYTES_SHOWN and run._repr_html_() is None
    for words in (f"head -c {MOST_BYTES_SHOWN + 1} /dev/zero", "yes", "exit 1", "exec >&-; exit 3"):
        stub(tmp_path, monkeypatch, words)
        assert run._repr_svg_() is None
        shown = run._repr_html_()
        assert shown.count("<tr") == 101 and "The first 100 of 802 entries. It ended with: finished." in shown


def test_a_notebook_doesnt_wait_for_a_picture(tmp_path, monkeypatch):
    stub(tmp_path, monkeypatch, "exec sleep 60")
    monkeypatch.setattr("toarmuts.picture.SECONDS_TO_SHOW", 0.2)
    assert toarmuts.run(["hello"])._repr_svg_() is None


@built
def test_a_notebook_shows_what_a_random_run_comes_to(monkeypatch):
    run = toarmuts.run(["blink", "echo", "relay"], "".join(random_line(random.Random(f"{number}"), 0) + "\n" for number in range(20_000)))
    assert run._repr_svg_() is None and len(run._repr_html_()) < 50_000
    assert toarmuts.run(["blink"], "tick 10\n" * 10_000)._repr_svg_().startswith("<svg")


def test_entries_are_shown_as_a_table():
    entries = toarmuts.run([[Print(b"<b>")], "blink"], "tick 10\nfrob\n").transcript
    shown = entries._repr_html_()
    assert "&#x27;&lt;b&gt;&#x27;" in shown and "<b>" not in shown and "The first" not in shown and shown.count("<tr") == 1 + len(entries)
    assert Transcript("> tick 1\nfrob\n")._repr_html_() is None and Transcript("")._repr_html_() is not None
    with Mote(["blink"]) as mote:
        mote.tick(3)
        assert "<td>3</td><td>4</td>" in mote.tick(0)._repr_html_()
    quiet = toarmuts.run(["hello"], quiet=True)
    assert "print 68690a" in quiet.transcript._repr_html_()


def test_a_clock_may_be_any_number(tmp_path, monkeypatch):
    class Five:
        def __index__(self):
            return 5

    stub(tmp_path, monkeypatch, 'printf "%s " "$@"')
    assert toarmuts.run(["hello"]).svg(first=Five()) == "--from 5 hello "


def test_a_notebook_draws_a_picture_once(tmp_path, monkeypatch):
    """It asks for each way of showing a run."""
    stub(tmp_path, monkeypatch, f"echo . >>{tmp_path}/calls; echo '<svg/>'")
    run = toarmuts.run(["hello"])
    assert (run._repr_html_(), run._repr_svg_()) == (None, "<svg/>\n") and (tmp_path / "calls").read_text() == ".\n"
    assert run._repr_svg_() == "<svg/>\n" and (tmp_path / "calls").read_text() == ".\n.\n"


# Networks.

def beat():
    yield Wait()


def network():
    return Network(["relay", [beat, "echo"], []], mmem=64).link(1, 2, delay=3, every=2).links([Link(2, 3, 1, Loss(lot=9, seed=2**40))])


def stub_of_networks(tmp_path, monkeypatch, text):
    """A program in the place of network_picture."""
    place = tmp_path / "networks"
    place.write_text(f"#!/bin/sh\n{text}\n")
    place.chmod(0o755)
    monkeypatch.setattr("toarmuts.picture.program", lambda crate: place if crate == "network_picture" else None)


def test_what_the_program_of_networks_is_given(tmp_path, monkeypatch):
    """Motes, links and the transcript, and clocks."""
    stub_of_networks(tmp_path, monkeypatch, 'printf "%s " "$@"; echo; cat')
    run = run_network(network(), "1 frame 0a\ntick 2\n")
    read = "mote 1 relay\nmote 2 beat echo\nmote 3\nlink 1 2 delay 3\nlink 2 3 delay 1\n" + run.text
    assert run.svg() == f" \n{read}" and run.svg(first=0, last=5) == f"--from 0 --to 5 \n{read}"
    held = network()
    held.run("1 frame 0a\ntick 2\n")
    assert held.svg(last=5) == f"--to 5 \n{read}" and held._repr_mimebundle_() == {"text/plain": repr(held), "image/svg+xml": f" \n{read}"}
    assert run._repr_svg_() == f" \n{read}" and run._repr_html_() is None
    with pytest.raises(toarmuts.BadInput, match="first is -1"):
        run.svg(first=-1)


def test_without_the_program_of_networks(monkeypatch):
    monkeypatch.setattr("toarmuts.picture.program", lambda crate: None)
    run = run_network(network(), "1 frame 0a\ntick 2\nfrob\n")
    with pytest.raises(NoPicture, match="`./prove network_picture` in the repository proves and builds it"):
        run.svg()
    assert run._repr_svg_() is None and "It ended with: bad line 3." in run._repr_html_()
    held = network()
    assert held._repr_mimebundle_() == {"text/plain": "<Network of 3 motes, 2 links, not started>"}
    held.tick(2)
    assert list(held._repr_mimebundle_()) == ["text/plain", "text/html"]
    shown = NetworkTranscript("1 > frame 0a\nlost 1 2\n= 5\n" + "2 4 event 140 - -> print 3c623e\n" * 98)._repr_html_()
    assert shown.count("<tr") == 101 and "The first 100 of 101 entries." in shown and "<b>" not in shown
    assert shown.count('<tr class="refused">') == shown.count('<tr class="input">') == 1
    assert NetworkTranscript("frob\n")._repr_html_() is None


def test_a_page_of_a_network(monkeypatch):
    monkeypatch.setattr("toarmuts.picture.program", lambda crate: None)
    run = run_network(network(), "# <b>\n1 frame 0a\ntick 3\n")
    page = run.page("<title>")
    for words in ("<h1>&lt;title&gt;</h1>", "It ended with: finished. Frames sent: 1; lost: 0; without room in flight: 0.",
                  "<li><code>relay --mmem 64</code></li>", "<li><code>beat echo --mmem 64</code></li>",
                  "link 1 2 delay 3 every 2\nlink 2 3 delay 1 lot 9 seed 1099511627776\n", "<pre># &lt;b&gt;\n1 frame 0a\ntick 3\n</pre>",
                  "There is no picture", "the clock goes on to 3"):
        assert words in page, words
    assert page.count("<tr") == 1 + len(run.transcript) and "<h1>A network of 3 motes</h1>" in network().page()


@pytest.mark.skipif(program("network_picture") is None, reason="the program network_picture isn't built")
def test_a_chart_is_that_of_the_program():
    run = run_network(network(), "1 frame 0a\ntick 20\n")
    within = run.page().partition("<h2>Picture</h2>\n")[2].partition("\n<h2>")[0]
    for svg in (run.svg(), run.svg(first=1, last=3), run._repr_svg_(), within):
        assert ElementTree.fromstring(svg).tag.endswith("svg") and "a network of 3" in svg
