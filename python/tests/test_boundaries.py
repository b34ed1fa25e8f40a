"""Functions of the package at their boundaries, without a mote."""
from __future__ import annotations

from collections.abc import Iterator
from typing import Any

import pytest
from toarmuts import BadCall, BadInput, BadScenario, BadTranscript, Call, Options, Script, Transcript, read_scenarios
from toarmuts.coverage import Cell, Coverage
from toarmuts.difference import first_difference
from toarmuts.errors import NotReached, cut
from toarmuts.library import MOST_ROOM_KEPT
from toarmuts.links import Loss, disk_links, graph_links
from toarmuts.network_transcript import Frame
from toarmuts.pcap import packets
from toarmuts.rooms import Room
from toarmuts.script import has_form
from toarmuts.shrinking import make_case, shrink
from toarmuts.until import advance_until
from toarmuts.words import bytes_words


class Clock:
    """A clock that may be advanced a few times."""

    def __init__(self) -> None:
        self.clock, self.steps = 0, 0

    def tick(self, ticks: int = 1) -> None:
        self.steps += 1
        assert self.steps < 9
        self.clock += ticks


@pytest.mark.parametrize("moment", [None, 3, 100])
def test_most_ticks_of_until(moment: int | None) -> None:
    """The clock is advanced by exactly the most ticks, and the predicate is asked there, too."""
    clock = Clock()
    advance_until(clock, lambda it: it.clock == 5, lambda: moment, 5)
    assert clock.clock == 5
    with pytest.raises(NotReached):
        advance_until(clock, lambda it: it.clock == 11, lambda: moment, 5)
    assert clock.clock == 10


def test_lines_before_a_difference() -> None:
    """Three lines before it, and the clock: of a mote the sum of its ticks, of a network its last one."""
    difference = first_difference("> tick 1\n> tick 2\na\nb\nc\n", "> tick 1\n> tick 2\na\nb\nd\n")
    assert difference is not None and (difference.line, difference.before, difference.clock) == (5, ("> tick 2", "a", "b"), 3)
    difference = first_difference("= 5\n= 9\na\n", "= 5\n= 9\n")
    assert difference is not None and (difference.line, difference.found, difference.clock) == (3, None, 9)


@pytest.mark.parametrize("word", ["61\t62", "\t6162", "61\v", "61\f62"])
def test_blanks_within_hex(word: str) -> None:
    """Digits of bytes stand side by side, as in a transcript."""
    with pytest.raises(BadCall):
        Call.parse(f"print {word}")
    with pytest.raises(BadTranscript):
        assert Transcript(f"4 answer done -> print {word}\n")[0].call


@pytest.mark.parametrize("letter, most", [("a", 255), ("\u00e9", 127)])
def test_longest_text(letter: str, most: int) -> None:
    """A line `text` of a scenario has at most 255 bytes, which the serial line receives with a line end."""
    scenario, = read_scenarios(f"text {most * letter}\n")
    assert scenario.script == f"serial {(most * letter).encode().hex()}0a\n"
    with pytest.raises(BadScenario, match="line 1: a text has at most 255 bytes"):
        read_scenarios(f"text {(most + 1) * letter}\n")


@pytest.mark.parametrize("line", ["> tick \u00b2", "> tick \u0663", "= \u00b2", "= " + "1" * 5000],
                         ids=["superscript", "Arabic digit", "superscript of a network", "5,000 digits"])
def test_difference_after_numbers_of_other_text(line: str) -> None:
    """What no transcript has is compared, too, and isn't taken for a clock."""
    difference = first_difference(f"> tick 4\n{line}\na\n", f"> tick 4\n{line}\nb\n")
    assert difference is not None and (difference.line, difference.clock) == (3, 4)


def test_last_applications_are_left_out() -> None:
    small, _ = shrink(make_case(["hello", "blink", "echo"], ["tick 1", "tick 2"]), lambda case: "tick 2" in case.script)
    assert (small.applications, small.script) == (("hello",), ("tick 2",))


def test_motes_at_the_reach() -> None:
    """A mote is linked with one exactly as far away as the reach."""
    links = disk_links({1: (0, 0), 2: (3, 4), 3: (3, 4.001)}, 5, 1, Loss())
    assert [(link.sender, link.receiver) for link in links] == [(1, 2), (2, 1), (2, 3), (3, 2)]


class Graph:
    """What the package reads of a graph of networkx."""

    def __init__(self, is_directed: bool) -> None:
        self._is_directed = is_directed

    def is_directed(self) -> bool:
        return self._is_directed

    def nodes(self) -> list[int]:
        return [1, 2]

    def edges(self, data: bool) -> Iterator[tuple[int, int, dict[str, Any]]]:
        assert data
        yield 1, 1, {}
        yield 1, 2, {}


@pytest.mark.parametrize(("is_directed", "pairs"), [(True, [(1, 1), (1, 2)]), (False, [(1, 1), (1, 2), (2, 1)])])
def test_loops_of_a_graph(is_directed: bool, pairs: list[tuple[int, int]]) -> None:
    """A loop is one link, also in an undirected graph."""
    assert [(link.sender, link.receiver) for link in graph_links(Graph(is_directed), [1, 2], 1, Loss())] == pairs


def test_comments_and_clocks() -> None:
    assert len(Script().comment("x" * 1022).lines[0]) == 1024
    with pytest.raises(BadInput):
        Script().comment("x" * 1023)
    assert Script().tick(3).at(3).lines == ("tick 3",) and Script().tick(3).at(4).lines == ("tick 3", "tick 1")


def test_bytes_in_words() -> None:
    """The first and the last byte of text, and those beside them."""
    assert [bytes_words(bytes([byte])) for byte in (31, 32, 126, 127)] == ["1f", "' '", "'~'", "7f"]


def test_a_quota_of_none() -> None:
    """A quota of 0 is one, which no mote boots with."""
    assert [Options(quota=quota).configuration()[3:5] for quota in (None, 0, 4)] == [(False, 0), (True, 0), (True, 4)]


@pytest.mark.parametrize(("flag", "counts"), [("true", (1, 0)), ("false", (0, 1))])
def test_flags_in_coverage(flag: str, counts: tuple[int, int]) -> None:
    coverage = Coverage().add(Transcript(f"4 synch 129 - -> is-running 4\n4 answer flag {flag} -> wait\n"))
    assert (coverage[Cell("is-running", "true")], coverage[Cell("is-running", "false")]) == counts


@pytest.mark.parametrize(("word", "most"), [("serial", 256), ("frame", 127)])
def test_longest_inputs(word: str, most: int) -> None:
    assert [has_form(f"{word} {'0a' * count}") for count in (0, 1, most, most + 1)] == [False, True, True, False]


def test_longest_comment() -> None:
    assert [has_form("#" * count) for count in (1024, 1025)] == [True, False]


def test_longest_text_of_a_message() -> None:
    assert [cut("x" * count) for count in (500, 501)] == ["x" * 500, f"{'x' * 500}.. (501 characters)"]


def test_fraction_of_a_second() -> None:
    """It is cut off: two thirds of a second are 666,666,666 nanoseconds."""
    assert int.from_bytes(packets([Frame(5, 1, b"x")], 3)[24:28], "little") == 1
    assert int.from_bytes(packets([Frame(5, 1, b"x")], 3)[28:32], "little") == 666_666_666


def test_room_that_is_kept() -> None:
    """A thread keeps room for its next run, and none that is larger than that."""
    class OfBytes(Room):
        def allocate(self, size: int) -> bytearray:
            return bytearray(size)

    sizes = []
    for size in (1, MOST_ROOM_KEPT, MOST_ROOM_KEPT + 1):
        room = OfBytes()
        room.make(size)
        room.shrink()
        sizes.append((room.size, len(room.transcript or b"")))
    assert sizes == [(1, 1), (MOST_ROOM_KEPT, MOST_ROOM_KEPT), (0, 0)]
