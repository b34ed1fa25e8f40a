"""The built program network_picture: captures and charts of networks' transcripts, what it refuses, and its arguments.

A capture's bytes are taken apart here, and read by tshark where it is. The rows and arrows of the chart of examples/networks/three.net were
written out by hand. Of random networks each row and each arrow is the one that a replay in plain lists finds.

The gate tries 100 random networks. For more, TOARMUTS_PICTURED_NETWORKS is their number.
"""
from __future__ import annotations

import os
import re
import shutil
import struct
import xml.etree.ElementTree as ElementTree
from collections import Counter
from dataclasses import dataclass
from pathlib import Path
from typing import Iterator, Sequence

import pytest

from fault_library import Faults
from test_network import WORKED, with_stream
from test_network_random import drawn_network
from tools import EXAMPLES, ROOT, needs, output_of, program, run, succeed, write_program

THREE = EXAMPLES / "networks/three.net"
NETWORKS = int(os.environ.get("TOARMUTS_PICTURED_NETWORKS", "100"))
PARTS = 4
# Where a chart has its lanes and rows, as in crates/mote_picture/src/network/layout.rt. Before each fiftieth row the motes' numbers are
# repeated.
FIRST_LANE, TOP, ROW, ROWS_TO_HEAD = 132, 94, 16, 50
START = re.compile(r"M(\d+),(\d+)")
# A line shares a row with one of the last rows, of this number.
COMPARED = 64
HEADER = bytes.fromhex("d4c3b2a1" "0200" "0400" "00000000" "00000000" "7f000000" "e6000000")

Rows = list[tuple[int, str]]
Arrows = Counter[tuple[str, str]]


def drawn(transcript: bytes, *words: str) -> bytes:
    return succeed(program("network_picture"), *words, stdin=transcript).stdout


def transcript_of(script: str) -> bytes:
    ran = run(program("network"), stdin=script.encode())
    assert ran.returncode in (0, 2, 3), output_of(ran)
    return ran.stdout


# ---- Captures ----


def frames_in(capture: bytes) -> Iterator[tuple[int, bytes]]:
    """The frames of a capture, each with its microsecond."""
    assert capture[:24] == HEADER
    at = 24
    while at < len(capture):
        seconds, micros, length, sent = struct.unpack_from("<4I", capture, at)
        assert length == sent <= 127 and micros < 1_000_000
        yield seconds * 1_000_000 + micros, capture[at + 16:at + 16 + length]
        at += 16 + length
    assert at == len(capture)


def frames_sent(transcript: bytes, clock_second: int = 128) -> Iterator[tuple[int, bytes]]:
    """The frames that a transcript says were sent, each with the microsecond of its tick, whose fraction is cut off."""
    clock = 0
    for line in transcript.decode().splitlines():
        words = line.split()
        if words[0] == "=":
            clock = int(words[1])
        elif words[1:3] == ["note", "sent"]:
            yield clock * 1_000_000 // clock_second, bytes.fromhex("" if words[3] == "-" else words[3])


@pytest.mark.parametrize("words, micros", [
    ((), (0, 0x5B8D, 0x9896, 0xF424)),
    (("--clock-second", "128"), (0, 0x5B8D, 0x9896, 0xF424)),
    (("--clock-second", "1000"), (0, 0x0BB8, 0x1388, 0x1F40)),
    (("--clock-second=999999999",), (0, 0, 0, 0)),
])
def test_capture_of_three(network_picture: Path, words: tuple[str, ...], micros: tuple[int, ...]) -> None:
    """Mote 1 sends at 0 and 5, mote 2 on its way at 3 and 8. A tick is 7,812 microseconds and a half, a millisecond, or a nanosecond."""
    record = "00000000" "{:02x}{:02x}0000" "{:02x}000000" "{:02x}000000"
    sent = zip(micros, ("0a0b", "0a0b", "0c", "0c"))
    records = [record.format(at & 255, at >> 8, len(frame) // 2, len(frame) // 2) + frame for at, frame in sent]
    wanted = HEADER + bytes.fromhex("".join(records))
    assert succeed(network_picture, "--pcap", *words, stdin=THREE.with_suffix(".transcript")).stdout == wanted


def test_whole_seconds(network_picture: Path) -> None:
    """With one tick a second each tick is a second."""
    transcript = b"= 3\n1 note sent 0a\n= 70000\n1 note sent 0b\n"
    assert list(frames_in(drawn(transcript, "--pcap", "--clock-second", "1"))) == [(3_000_000, b"\n"), (70_000_000_000, b"\v")]


def test_capture_with_its_script() -> None:
    """A capture needs no script, and a script before the transcript changes nothing."""
    transcript = THREE.with_suffix(".transcript").read_bytes()
    assert drawn(THREE.read_bytes() + transcript, "--pcap") == drawn(transcript, "--pcap")


def test_captures_of_worked_networks() -> None:
    """Each frame of each worked network, with its moment."""
    for case in WORKED:
        if not case.words:
            transcript = case.text("stdout")
            for second in (128, 1000, 7):
                capture = drawn(transcript, "--pcap", "--clock-second", str(second))
                assert list(frames_in(capture)) == list(frames_sent(transcript, second)), case.name


@pytest.mark.parametrize("words, second", [((), 128), (("--clock-second", "1000"), 1000), (("--clock-second", "999999999"), 999_999_999)])
def test_late_frames(network_picture: Path, words: tuple[str, ...], second: int) -> None:
    """A frame at the last tick of second 2^32 - 1 fits, one at second 2^32 doesn't. Clocks without frames may be any."""
    sent, last = b"1 note sent 0a\n", 2 ** 32 * second - 1
    found = list(frames_in(drawn(b"= %d\n" % last + sent + b"= %d\n" % 2 ** 63, "--pcap", *words)))
    assert found == [(last * 1_000_000 // second, b"\n")]
    ran = run(network_picture, "--pcap", *words, stdin=b"= %d\n" % (last + 1) + sent)
    assert (ran.returncode, ran.stdout) == (2, b"")
    assert ran.stderr == b"network_picture: a capture has no room for the clock: 2^32 seconds or more\n"


@needs("tshark")
def test_tshark(network_picture: Path, tmp_path: Path) -> None:
    """tshark reads each frame as one of IEEE 802.15.4, at its moment, with its length: an acknowledgement, a data frame, the longest."""
    data = "418822cdabffff0100" + "00" * 4
    sent = [(0, "020011"), (3, data), (129, "41" * 127)]
    transcript = "".join(f"= {clock}\n1 note sent {frame}\n" for clock, frame in sent)
    file = tmp_path / "three.pcap"
    file.write_bytes(succeed(network_picture, "--pcap", stdin=transcript.encode()).stdout)
    fields = ("frame.time_epoch", "frame.len", "frame.protocols", "wpan.dst16")
    told_by = succeed("tshark", "-r", file, "-T", "fields", *(word for name in fields for word in ("-e", name))).stdout.decode()
    rows = [line.split("\t") for line in told_by.splitlines()]
    assert [(row[0], row[1]) for row in rows] == [("0.000000000", "3"), ("0.023437000", "13"), ("1.007812000", "127")]
    assert all(row[2].startswith("wpan") for row in rows) and int(rows[1][3], 16) == 0xFFFF


# ---- Charts ----


@dataclass
class Chart:
    """What is read from a chart: its lines, each with its lane; the numbers of their rows; how many arrows lead from a line to a line."""

    rows: Rows
    numbers: list[int]
    heard: Arrows
    missed: Arrows
    lost: int
    outside: list[str]
    words: list[str]
    clocks: list[str]
    motes: list[str]


def title_of(element: ElementTree.Element) -> str:
    return (element[0].text or "") if len(element) else ""


def number(element: ElementTree.Element, name: str) -> int:
    return int(element.get(name) or 0)


def lane_of(left: int, width: int) -> int:
    """The number of the mote whose lane is nearest."""
    return round((left - FIRST_LANE) / width) + 1


def row_of(top: int) -> int:
    """The number of the row that is there."""
    slot = (top - TOP) // ROW
    assert slot % (ROWS_TO_HEAD + 1) < ROWS_TO_HEAD
    return slot - slot // (ROWS_TO_HEAD + 1)


def texts_at(root: ElementTree.Element, right: int) -> list[str]:
    """The texts of the rows that end there."""
    return [it.text or "" for it in root if it.tag.endswith("text") and number(it, "x") == right and number(it, "y") > TOP]


def chart_of(picture: bytes) -> Chart:
    root = ElementTree.fromstring(picture)
    areas = [it for it in root if it.get("class") == "t"]
    width = number(areas[0], "width") + 8 if areas else 1
    at = {(row_of(number(it, "y")), lane_of(number(it, "x") + 3, width)): title_of(it) for it in areas}
    assert len(at) == len(areas) and all((number(it, "x") + 3 - FIRST_LANE) % width == 0 for it in areas)
    chart = Chart([(lane_of(number(it, "x") + 3, width), title_of(it)) for it in areas], [row_of(number(it, "y")) for it in areas],
                  Counter(), Counter(), 0, [], [it.text or "" for it in root if it.tag.endswith("text")], texts_at(root, 54),
                  texts_at(root, 108))
    for path in (it for it in root if it.tag.endswith("path") and it.get("class") in ("a", "o", "q", "x")):
        commands, kind, title = path.get("d") or "", path.get("class"), title_of(path)
        begin = START.match(commands)
        assert begin
        left, row = int(begin[1]), row_of(int(begin[2]))
        if kind == "o":
            chart.outside.append(at.get((row, lane_of(left + 20, width)), ""))
        elif kind == "x" and "missed" not in title:
            chart.lost += 1
        elif kind in ("a", "x"):
            ended = re.search(r"L\d+,(\d+)H(\d+)m|() (\d+),(\d+)m", commands)
            assert ended
            bottom, right = (ended[1], ended[2]) if ended[1] else (ended[5], ended[4])
            ways = at.get((row, lane_of(left, width)), ""), at.get((row_of(int(bottom)), lane_of(int(right), width)), "")
            (chart.heard if kind == "a" else chart.missed)[ways] += 1
    return chart


STARTED = [(1, "1 4 synch 129 - -> packet-open"), (2, "2 4 synch 129 - -> packet-open"), (3, "3 4 synch 129 - -> timer-set 0 10")]
FIRST = [(1, "1 > frame 0a0b"), (1, "1 4 event 139 2 -> mmem-alloc 0 2"), (1, "1 note sent 0a0b"),
         (2, "2 > frame 0a0b"), (2, "2 4 event 139 2 -> mmem-alloc 0 2"), (2, "2 note sent 0a0b"), (3, "3 > frame 0a0b")]
SECOND = [(1, "1 > frame 0c"), (1, "1 4 event 139 1 -> mmem-alloc 0 1"), (1, "1 note sent 0c"),
          (2, "2 > frame 0c"), (2, "2 4 event 139 1 -> mmem-alloc 0 1"), (2, "2 note sent 0c"), (2, "lost 2 3"),
          (3, "3 4 event 136 0 -> print 6f6e0a")]


def test_chart_of_three() -> None:
    """Its rows, its clocks, three frames that are heard, one that is lost, and two from outside."""
    chart = chart_of(drawn(THREE.read_bytes() + THREE.with_suffix(".transcript").read_bytes()))
    assert chart.rows == STARTED + FIRST + SECOND
    assert chart.heard == {("1 note sent 0a0b", "2 > frame 0a0b"): 1, ("2 note sent 0a0b", "3 > frame 0a0b"): 1,
                           ("1 note sent 0c", "2 > frame 0c"): 1}
    assert (chart.missed, chart.lost, chart.outside) == ({}, 1, ["1 > frame 0a0b", "1 > frame 0c"])
    assert chart.words[0] == "a network of 3"
    assert chart.words[1] == "clock 12, frames sent 4, heard 3, missed 0, lost 1, no room 0, under way 0, from outside 2"
    assert chart.clocks == ["0", "3", "4", "5", "8", "10"]
    assert chart.words[2:10] == ["", "clock", "mote", "1", "2", "3", "relay", "relay"] and chart.words[10] == "blink"
    assert "lost to 3" in chart.words


def test_shared_rows() -> None:
    """Motes 1 and 2 begin alike, so their first lines share a row, whose words are there once."""
    chart = chart_of(drawn(THREE.read_bytes() + THREE.with_suffix(".transcript").read_bytes()))
    assert chart.numbers == [0, 0, *range(1, 17)]
    assert chart.motes == ["2 motes", "3", "1", "1", "1", "2", "2", "2", "3", "1", "1", "1", "2", "2", "2", "2", "3"]
    assert chart.words.count("INIT → packet-open") == 1


def test_lines_of_one_mote_stay_in_order() -> None:
    """Mote 1 has two processes that begin alike, mote 2 has one: its line is in the first of the two rows. Mote 3's second line is below
    its first one, so it can't be in a row above that. A later moment has rows of its own."""
    transcript = "1 4 synch 129 - -> wait\n1 5 synch 129 - -> exit\n2 4 synch 129 - -> wait\n3 5 synch 129 - -> exit\n" \
        "3 4 synch 129 - -> wait\n= 1\n2 4 synch 129 - -> wait\n1 halt\n2 halt\n3 halt\n"
    chart = chart_of(drawn(transcript.encode()))
    assert chart.numbers == [0, 1, 0, 1, 2, 3, 4, 4, 4]
    assert chart.motes == ["2 motes", "2 motes", "3", "2", "3 motes"]


def test_motes_of_a_large_network() -> None:
    """64 motes begin in one row. Their numbers are there again before rows 50 and 100, and each of them has its application's name."""
    script = "mote 1..64 relay\ngrid 1..64 width 8 delay 1\n1 frame 01\ntick 60\n"
    chart = chart_of(drawn(script.encode() + transcript_of(script)))
    assert chart.numbers[:64] == [0] * 64 and chart.motes[0] == "64 motes"
    heads = max(chart.numbers) // ROWS_TO_HEAD
    assert heads >= 1 and chart.words.count("63") == 1 + heads + chart.motes.count("63")
    assert chart.words.count("relay") == 64


@pytest.mark.parametrize("words, name", [("blink", "blink"), ("--mmem 64 --heap 64 echo relay", "echo relay"), ("calls print 68", "calls"),
                                         ("", ""), ("--mmem 64", "")])
def test_names(words: str, name: str) -> None:
    """What a mote runs is below its number; without a script, nothing."""
    chart = chart_of(drawn(f"mote 1 {words}\n".replace(" \n", "\n").encode() + b"= 1\n1 halt\n"))
    assert chart.words[4:7] == ["mote", "1", name]
    assert chart_of(drawn(b"= 1\n1 halt\n")).words[4:7] == ["mote", "1", ""]


def test_words_use_free_room() -> None:
    """Words that the room after their lane is too short for are before it, whole; words of a line that nothing has room for are cut."""
    text = "2 4 synch 129 - -> print " + "61" * 60
    picture = ElementTree.fromstring(drawn(f"mote 1 hello\nmote 2..20 hello\n{text.replace('2', '20', 1)}\n1 4 synch 129 - -> print "
                                           f"{'61' * 64}\n= 1\n".encode()))
    texts = [it for it in picture if it.tag.endswith("text") and (it.text or "").startswith("INIT")]
    assert [it.get("class") for it in texts] == ["n e", "n"]
    assert all("a" * 48 in (it.text or "") for it in texts)
    alone = drawn(b"1 4 synch 129 - -> print " + b"61" * 64 + b"\n= 1\n")
    assert [len(word) for word in chart_of(alone).words if word.endswith("…")] == [68]


def test_frames_under_way() -> None:
    """At the end of a run each has a short dashed line, not one to the bottom."""
    script = "mote 1 relay\nmote 2..9 relay\nmesh 1..9 delay 50\n1 frame 01\n" + "tick 1\n2 serial 610a\n" * 5
    picture = ElementTree.fromstring(drawn(script.encode() + transcript_of(script)))
    dashed = [it.get("d") or "" for it in picture if it.get("class") == "q"]
    assert len(dashed) == 8 and len(set(dashed)) == 1


def test_stored_chart() -> None:
    """The picture in the pages is that of the program."""
    assert drawn(THREE.read_bytes() + THREE.with_suffix(".transcript").read_bytes()) == THREE.with_suffix(".svg").read_bytes()


def test_chart_without_a_script(network_picture: Path) -> None:
    """Nothing is said of which send an arrival belongs to."""
    chart = chart_of(succeed(network_picture, stdin=THREE.with_suffix(".transcript")).stdout)
    assert chart.rows == STARTED + FIRST + SECOND and not chart.heard
    assert chart.outside == ["1 > frame 0a0b", "2 > frame 0a0b", "3 > frame 0a0b", "1 > frame 0c", "2 > frame 0c"]
    assert "No script: which send a frame belongs to isn't known." in chart.words


def test_part_of_a_run() -> None:
    """The rows between two clocks, both of them shown, and frames that are under way at these."""
    chart = chart_of(drawn(THREE.read_bytes() + THREE.with_suffix(".transcript").read_bytes(), "--from", "3", "--to", "5"))
    assert chart.rows == FIRST[3:] + SECOND[:3]
    assert sum(chart.heard.values()) == 3


def test_halted_motes() -> None:
    """A frame that a halted mote misses, and an input that it misses."""
    script = "mote 1 relay\nmote 2 clock-watcher\nmote 3 relay\nlink 1 2 delay 1\nlink 1 3 delay 1\n1 frame 01\ntick 1\n2 frame 02\n"
    chart = chart_of(drawn(script.encode() + transcript_of(script)))
    assert chart.missed == {("1 note sent 01", "missed 1 2"): 1}
    assert chart.heard == {("1 note sent 01", "3 > frame 01"): 1}
    assert {"✗ halted", "✗ missed from 1", "✗ missed from outside"} <= set(chart.words)


def test_frame_that_is_due_after_the_last_clock() -> None:
    """A frame is in flight, even if no clock says when it arrives."""
    chart = chart_of(drawn(b"mote 1..2 relay\nlink 1 2 delay 1\n= 18446744073709551615\n1 note sent 0a\n"))
    assert chart.words[1].endswith("frames sent 1, heard 0, missed 0, lost 0, no room 0, under way 1, from outside 0")


@pytest.mark.parametrize("ending, words", [
    ("halt", "halt: the input took all its rounds"), ("bad line 7", "bad line 7: the script ends here"),
    ("too long", "too long: the script has more than 16,777,216 bytes"),
])
def test_endings(ending: str, words: str) -> None:
    """How a run ended is in its last row."""
    chart = chart_of(drawn(f"= 1\n1 4 synch 129 - -> wait\n{ending}\n".encode()))
    assert chart.words[-1] == words and chart.rows[-1] == (1, ending)


def test_long_run() -> None:
    """Of more than 1,000 rows the first 500 and the last 500 are shown, and the picture says how many are left out."""
    script = "mote 1 blink\ntick 15000\n"
    transcript = transcript_of(script)
    chart = chart_of(drawn(script.encode() + transcript))
    rows = [line for line in transcript.decode().splitlines() if " 4 event " in line or " 4 synch " in line]
    assert len(rows) == 1501 and [line for _, line in chart.rows] == rows[:500] + rows[-500:]
    assert "501 rows are left out: --from and --to show them" in chart.words


def test_many_motes() -> None:
    """Of more than 64 motes the first 64 have lanes, and the picture says so."""
    script = "mote 1..70 relay\nline 1..70 delay 1\n64 frame 01\ntick 1\n"
    chart = chart_of(drawn(script.encode() + transcript_of(script)))
    assert "motes 65 to 70 are left out. " in chart.words
    assert chart.heard == {("64 note sent 01", "63 > frame 01"): 1}
    assert {lane for lane, _ in chart.rows} == set(range(1, 65))


@needs("xmllint")
def test_worked_charts() -> None:
    """The chart of each worked network is well-formed."""
    for case in WORKED:
        if not case.words:
            succeed("xmllint", "--noout", "-", stdin=drawn(case.text("stdin") + b"\n" + case.text("stdout")))


# ---- Random networks ----


def is_row(line: str) -> bool:
    words = line.split()
    if words[0] == "=" or words[1:3] == [">", "tick"]:
        return False
    return words[2:3] != ["answer"] or not words[1].isdigit() or " -> print " in line


def lane_of_line(words: list[str]) -> int:
    """The mote in whose lane a line is."""
    if words[0].isdigit():
        return int(words[0])
    if words[0] == "missed":
        return int(words[2])
    return int(words[1]) if words[0] in ("lost", "full") else 1


def numbers_of(lines: list[str]) -> list[int]:
    """The row of each line that has one. It shares that of a line of another mote that says the same at the same moment, after the last row
    of its mote."""
    said, moment, last, numbers = list[str](), 0, dict[int, int](), list[int]()
    for line in lines:
        words = line.split()
        if words[0] == "=":
            moment = len(said)
        if not is_row(line):
            continue
        lane, says = lane_of_line(words), line.partition(" ")[2] if words[0].isdigit() else line
        first = max(moment, last.get(lane, -1) + 1, len(said) - COMPARED)
        shared = [row for row in range(first, len(said)) if said[row] == says] if words[0].isdigit() else []
        last[lane] = shared[0] if shared else len(said)
        if not shared:
            said.append(says)
        numbers.append(last[lane])
    return numbers


def rows_of_folded(lines: list[str]) -> list[str]:
    """The lines of the first and the last 500 rows."""
    numbers = numbers_of(lines)
    return [line for line, row in zip(filter(is_row, lines), numbers) if row < 500 or row >= max(numbers) + 1 - 500]


def arrows_of(links: Sequence[tuple[int, int, int, str]], lines: list[str]) -> tuple[Arrows, Arrows, list[str]]:
    """The frames that are heard, those that are missed, and the arrivals from outside, by a replay in plain lists."""
    clock, flying = 0, list[tuple[int, int, int, str, str]]()
    heard, missed, outside = Arrows(), Arrows(), list[str]()
    for line in lines:
        words = line.split()
        if words[0] == "=":
            clock = int(words[1])
        elif words[1:3] == ["note", "sent"]:
            flying += [(clock + delay, int(words[0]), to, words[3], line) for a, to, delay, _ in links if a == int(words[0])]
        elif words[0] in ("lost", "full"):
            last = max(number for number, it in enumerate(flying) if it[1] == int(words[1]))
            sent = [it for it in flying[:last + 1] if it[4] is flying[last][4] and it[2] == int(words[2])]
            flying.remove(sent[0])
        elif words[1:3] == [">", "frame"] or words[0] == "missed" and words[1] != "-":
            to = int(words[0]) if words[1] == ">" else int(words[2])
            due = [it for it in flying if it[0] == clock and it[2] == to and (words[1] != ">" or it[3] == words[3])]
            if due:
                flying.remove(due[0])
                (heard if words[1] == ">" else missed)[due[0][4], line] += 1
            else:
                outside.append(line)
    return heard, missed, outside


def has_doubles(links: Sequence[tuple[int, int, int, str]]) -> bool:
    """Whether two links lead from one mote to another: which of the two lost a frame no transcript says."""
    ways = [(a, b) for a, b, _, _ in links]
    return len(set(ways)) < len(ways)


def check_picture(seed: int) -> None:
    """Compares the chart and the capture of a random network."""
    network = drawn_network(seed)
    script = network.script()
    transcript = transcript_of(script)
    lines = transcript.decode().splitlines()
    chart = chart_of(drawn(script.encode() + transcript))
    rows = [line for line in lines if is_row(line)]
    assert list(frames_in(drawn(transcript, "--pcap"))) == list(frames_sent(transcript))
    if max(numbers_of(lines), default=0) >= 1000:
        assert [line for _, line in chart.rows] == rows_of_folded(lines)
        return
    assert [line for _, line in chart.rows] == rows and chart.numbers == numbers_of(lines)
    assert chart.lost == sum(line.startswith(("lost", "full")) for line in lines)
    if not has_doubles(network.links):
        assert (chart.heard, chart.missed, chart.outside) == arrows_of(network.links, lines)


@pytest.mark.parametrize("part", range(PARTS))
def test_random_networks(network: Path, part: int) -> None:
    """Each row and each arrow is there."""
    for seed in range(part, NETWORKS, PARTS):
        try:
            check_picture(seed)
        except AssertionError as fault:
            raise AssertionError(f"network {seed}: {fault}") from fault


SHAPES = {
    "line 1..4 delay 2": {(1, 2), (2, 3), (3, 4)},
    "ring 1..4 delay 2": {(1, 2), (2, 3), (3, 4), (1, 4)},
    "mesh 1..4 delay 2": {(1, 2), (1, 3), (1, 4), (2, 3), (2, 4), (3, 4)},
    "grid 1..4 width 3 delay 2": {(1, 2), (2, 3), (1, 4)},
}


@pytest.mark.parametrize("shape", SHAPES)
def test_shapes(shape: str) -> None:
    """The links of each shape, both ways: no arrival is taken for one from outside but the four that are."""
    script = f"mote 1..4 relay\n{shape}\n" + "".join(f"{mote} frame 0{mote}\ntick 1\n" for mote in range(1, 5)) + "tick 1\n"
    chart = chart_of(drawn(script.encode() + transcript_of(script)))
    assert chart.outside == [f"{mote} > frame 0{mote}" for mote in range(1, 5)]
    ways = {(int(sent.split()[0]), int(heard.split()[0])) for sent, heard in chart.heard}
    assert ways == {*SHAPES[shape], *((b, a) for a, b in SHAPES[shape])}


# ---- What is refused ----

BAD_LINES = (
    "", "1", "1 ", "1 > frame 0A", "1 > frame 0", "1 note sent " + "00" * 128, "0 > tick 3", "01 > tick 3", "1 > tick 03", "> tick 3",
    "= ", "= 03", "= -1", "= 18446744073709551616", "lost 1", "lost 1 0", "lost 1 2 3", "lost  1 2", "full 1 x", "missed - 0", "missed -",
    "1 bad line 3", "1 too long", "1 halt ", "halt\r", "bad line", "4 synch 129 - -> wait", "1 4 synch 129 - -> walk",
)


@pytest.mark.parametrize("line", BAD_LINES)
def test_bad_lines(network_picture: Path, line: str) -> None:
    """The first line that is none of a transcript is named, by its number in the transcript."""
    text = f"mote 1 hello\n1 4 synch 129 - -> packet-open\n{line}\nx\n"
    for words in ((), ("--pcap",)):
        ran = run(network_picture, *words, stdin=text.encode())
        assert (ran.returncode, ran.stdout) == (2, b"")
        assert ran.stderr == b"network_picture: line 2 is no line of a network's transcript\n"


BAD_SCRIPTS = (
    "link 1 2", "link 1 2 delay 0", "link 1 x delay 1", "link 1 2 3 delay 1", "line 1 2 delay 1", "line 2..1 delay 1", "mesh 0..2 delay 1",
    "grid 1..4 delay 1", "grid 1..4 width 0 delay 1", "ring 1..3 delay x",
)


@pytest.mark.parametrize("line", BAD_SCRIPTS)
def test_bad_scripts(network_picture: Path, line: str) -> None:
    """A line without the links that it should have is named, by its number in the script."""
    ran = run(network_picture, stdin=f"mote 1..4 relay\n# links\n{line}\n= 3\n".encode())
    assert (ran.returncode, ran.stdout, ran.stderr) == (2, b"", b"network_picture: line 3 of the script is malformed\n")


def test_quiet_transcripts(network_picture: Path) -> None:
    quiet = b"1 4 synch 129 - -> print 68690a\n1 4 answer done -> packet-send 0\n1 note sent 0a\n2 halt\n"
    for words in ((), ("--pcap",)):
        ran = run(network_picture, *words, stdin=quiet)
        assert (ran.returncode, ran.stdout, ran.stderr) == (2, b"", b"network_picture: a quiet transcript has no clock\n")


def test_nothing(network_picture: Path) -> None:
    """A transcript without lines has a chart without rows, and a capture without frames."""
    assert succeed(network_picture, "--pcap").stdout == HEADER
    assert chart_of(succeed(network_picture).stdout).rows == []


def test_range(network_picture: Path) -> None:
    """A part that ends before it begins."""
    ran = run(network_picture, "--from", "5", "--to", "4")
    assert (ran.returncode, ran.stdout, ran.stderr) == (64, b"", b"network_picture: --from 5 is above --to 4\n")


@pytest.mark.parametrize("words", [("--from",), ("--from", "x"), ("--pcap", "--pcap"), ("--page",), ("relay",), ("--clock-second",),
                                   ("--clock-second", "0"), ("--clock-second", "-1"), ("--clock-second", "1000000000"),
                                   ("--clock-second", "1.5"), ("--clock-second", "8", "--clock-second", "8")], ids=" ".join)
def test_invalid_arguments(network_picture: Path, words: tuple[str, ...]) -> None:
    """The parser's text, and nothing is written."""
    ran = run(network_picture, *words)
    assert (ran.returncode, ran.stdout) == (64, b"") and ran.stderr.startswith(b"error: ")


def test_help_and_version(network_picture: Path) -> None:
    """The help names the options; an argument that isn't UTF-8 is reported."""
    page = succeed(network_picture, "--help").stdout.decode()
    assert all(word in page for word in ("--pcap", "--from", "--to", "--clock-second <N>", "[default: 128]", "Exit status"))
    assert succeed(network_picture, "--version").stdout.decode() == f"network_picture {(ROOT / 'VERSION').read_text(encoding='utf-8')}"
    ran = run(network_picture, b"\xff")
    assert (ran.returncode, ran.stdout, ran.stderr) == (64, b"", b"network_picture: a word is not text\n")


@pytest.mark.parametrize("name", ["network_picture", "network-picture", "my-network-picture"])
def test_names_for_networks(network_picture: Path, tmp_path: Path, name: str) -> None:
    """A link by the name of the program or of the command draws a network."""
    link = tmp_path / name
    link.symlink_to(network_picture.resolve())
    transcript = THREE.with_suffix(".transcript")
    assert succeed(link, stdin=transcript).stdout == succeed(network_picture, stdin=transcript).stdout


@pytest.mark.parametrize("name", ["picture", "networkpicture", "network_picture.old"])
def test_other_names(network_picture: Path, tmp_path: Path, name: str) -> None:
    """By another name the program draws a mote's run, and a line of a network's transcript is none of that."""
    link = tmp_path / name
    link.symlink_to(network_picture.resolve())
    ran = run(link, stdin=THREE.with_suffix(".transcript"))
    assert (ran.returncode, ran.stdout) == (2, b"") and ran.stderr.startswith(b"mote_picture: line 1 ")


@pytest.fixture
def both(tmp_path: Path) -> Path:
    """A script with its transcript, as a file."""
    file = tmp_path / "both"
    file.write_bytes(THREE.read_bytes() + THREE.with_suffix(".transcript").read_bytes())
    return file


@pytest.mark.parametrize("words", [(), ("--pcap",)], ids=["chart", "capture"])
def test_refused_growths(network_picture: Path, faults: Faults, both: Path, words: tuple[str, ...]) -> None:
    """Where memory is refused, nothing is written."""
    whole = faults(both, "REFUSE", 0, network_picture, *words)
    assert (whole.status, whole.stderr) == (0, "")
    step = max(1, whole.growths // 150)
    for number in range(1, whole.growths + 1, step):
        ran = faults(both, "REFUSE", number, network_picture, *words)
        same = (ran.status, ran.stdout, ran.stderr) == (0, whole.stdout, "")
        assert same or (ran.status, ran.stdout, ran.stderr) == (70, b"", "network_picture: out of memory\n"), f"growth {number}"


def test_streams_that_fail(network_picture: Path, both: Path) -> None:
    """A closed input, one that can't be read, a closed output and a full device."""
    for redirection in ("<&-", "</"):
        ran = with_stream(redirection, network_picture)
        assert (ran.returncode, ran.stdout, ran.stderr) == (5, b"", b"network_picture: read failed\n")
    for redirection in (f"<{both} >&-", f"<{both} >/dev/full"):
        ran = with_stream(redirection, network_picture)
        assert (ran.returncode, ran.stderr) == (6, b"network_picture: write failed\n")


@pytest.fixture
def command(tmp_path: Path) -> Path:
    """The command at the top, over a stand-in that writes its arguments and its input."""
    write_program(tmp_path / "scripts/launch", '#!/bin/sh\necho "$@"\ncat\nexit 3\n')
    return Path(shutil.copy2(ROOT / "network-picture", tmp_path))


def test_the_command(command: Path, tmp_path: Path) -> None:
    """A word that is no option is the script, whose lines go first; its last line may have no end."""
    script = tmp_path / "a script"
    script.write_bytes(b"mote 1 relay")
    ran = run(command, "--from", "3", "--to", "7", "--clock-second", "8", script, "--pcap", stdin=b"= 3\n")
    assert (ran.returncode, ran.stderr) == (3, b"")
    assert ran.stdout == b"network_picture input --from 3 --to 7 --clock-second 8 --pcap\nmote 1 relay\n= 3\n"
    ran = run(command, "--pcap", stdin=b"= 3\n")
    assert (ran.returncode, ran.stdout) == (3, b"network_picture input --pcap\n= 3\n")


def test_the_command_without_a_transcript(network_picture: Path) -> None:
    """Standard input that can't be read is reported, and no chart of the script alone is drawn."""
    assert network_picture.exists()
    for redirection in ("<&-", "</", "0>/dev/null"):
        ran = with_stream(redirection, ROOT / "network-picture", THREE)
        assert (ran.returncode, ran.stdout, ran.stderr.splitlines()[-1:]) == (5, b"", [b"network_picture: read failed"])


def test_the_command_without_its_script(command: Path, tmp_path: Path) -> None:
    """A file that can't be read is reported, and nothing is run."""
    ran = run(command, tmp_path / "none.net")
    assert (ran.returncode, ran.stdout) == (64, b"")
    assert ran.stderr == f"network-picture: no file '{tmp_path}/none.net' that can be read\n".encode()
