"""Pictures by the built program mote_picture: of every stored transcript, and of words and lines that it refuses.

Each picture is parsed as XML. With --unfolded the titles of its rows give back the transcript; folded they tell of each line once, in
order, and only ticks, lines that were there right before, or turns that may share a row. The words of each row are those for its line, by
a table and a replay of timers of its own. Arrows and curves lead from the lane of the process that gives or posts something to that of the
one that is told it, in the rows where run_replay has them. Between two clocks a picture shows the lines that come at these and between,
and its head counts these. A quiet transcript's has no clock, and counts only what that tells. The map of the heap has the bytes, gaps and
blocks that each answer to heap-stats tells, and the columns of the pools have in each row the blocks that are used and in a list, by a
replay of its own; where memory of the sizes that were given answers in another way, that is told. The samples' pictures are those in
examples/.
"""
from __future__ import annotations

import re
import xml.etree.ElementTree as ElementTree
from typing import Iterator, Sequence

import pytest

from run_replay import TimerName, states_of
from stored_runs import SAMPLES, WORKED_RUNS, StoredRun, stored_run
from tools import EXAMPLES, Completed, program, run

OTHER_HEAP = b"not the run's heap from line "
OTHER_MANAGED = b"not the run's managed memory from line "
HEAP_BLOCK = re.compile(r"heap block \d+ of process \d+: \d+ bytes, room for (\d+), from (\d+) to (\d+) with its header")
USED = re.compile(r"block (\d+) of pool (\d+), taken by process (\d+)")
LINKED = re.compile(r"block (\d+) of pool (\d+) is in list (\d+)")
TIMER_TOLD = re.compile(r"(\d+) (event 136|callback) (\d+) -> ")
FOLDED = re.compile(r"lines (\d+) to (\d+), (\d+) in all; the first: (.*)", re.DOTALL)

# What an event is called that has a name, and why a call is refused.
EVENTS = {129: "INIT", 130: "POLL", 131: "EXIT", 133: "CONTINUE", 134: "MSG", 135: "EXITED", 136: "TIMER", 138: "LINE", 139: "PACKET of"}
REFUSALS = ["queue full", "not running", "already", "busy", "reserved code", "no number left", "bad name", "in use", "not live", "empty",
            "bad range", "no room", "pool full", "linked", "not in list", "no frame", "not receiver", "over quota"]
ENDINGS = {"halt": "halt: 10,000 turns and rounds in one input", "too long": "too long: the script has more than 16,777,216 bytes"}


Lines = Sequence[str]
Blocks = dict[tuple[int, int], int]
# The pools at a line: the blocks that are used, by pool and number, with their process; and those in a list, with the list's number.
Pools = tuple[Blocks, Blocks]


def draw(words: Sequence[str], transcript: bytes) -> Completed:
    return run(program("mote_picture"), *words, stdin=transcript)


def number_in(element: ElementTree.Element, name: str) -> int:
    return int(element.get(name) or 0)


def title_of(element: ElementTree.Element) -> str:
    return (element[0].text or "") if len(element) else ""


def is_row(element: ElementTree.Element) -> bool:
    return element.get("x") == "0" and element.get("class") in ("t", "i", "x")


def titles_of(picture: bytes) -> Iterator[str]:
    """What the rows show of their lines."""
    return (title_of(element) for element in ElementTree.fromstring(picture) if is_row(element))


def may_be_folded(lines: Lines, first: int, count: int) -> bool:
    """Whether lines are ticks, or twice or more those right before them, so many at a time."""
    own = lines[first : first + count]
    again = (own == lines[first - period : first + count - period] for period in range(1, min(first, count // 2) + 1))
    return all(line.startswith("> tick ") for line in own) or any(again)


def may_share(lines: Lines) -> bool:
    """Whether lines may share a row: one alone, a turn and the `wait` that ends its activation, or several processes that are told the same
    by the same origin and only wait."""
    told = [line.partition(" -> ") for line in lines]
    pids = [turn.partition(" ")[0] for turn, _, _ in told]
    if len(lines) == 2 and pids[0] == pids[1] and re.fullmatch(r"\d+ answer .* -> wait", lines[1]):
        return True
    words = {(turn.partition(" ")[2], call) for turn, _, call in told}
    only_wait = all(call == "wait" and " answer " not in turn for turn, _, call in told)
    return len(lines) == 1 or only_wait and len(words) == 1 and pids[0] not in pids[1:]


def lines_told(titles: Iterator[str], lines: Lines) -> list[int] | None:
    """The numbers of the lines that folded rows tell of, or None where a title is wrong."""
    told: list[int] = []
    for title in titles:
        folded = FOLDED.fullmatch(title)
        if folded:
            first, last, count = (int(number) for number in folded.groups()[:3])
            if last - first + 1 != count or lines[first - 1] != folded[4] or not may_be_folded(lines, first - 1, count):
                return None
            told += range(first - 1, last)
        else:
            own = title.splitlines()
            begin = told[-1] + 1 if told else 0
            if lines[begin:begin + len(own)] != own or not may_share(own):
                return None
            told += range(begin, begin + len(own))
    return told


def stats_told(lines: Lines) -> Iterator[tuple[int, list[int]]]:
    """The numbers of the lines that ask for the heap's statistics, each with the reply."""
    for number, line in enumerate(lines):
        if line.endswith(" -> heap-stats"):
            begin = line.partition(" ")[0] + " answer stats "
            answers = [other for other in lines[number + 1:] if other.startswith(begin)]
            if answers:
                yield number, [int(word) for word in answers[0].partition(" -> ")[0].split(" ")[3:]]


def stats_mapped(picture: bytes, size: int) -> Iterator[list[int]]:
    """The heap's statistics in each row, from the boxes of its map."""
    tops, boxes = [], []
    for element in ElementTree.fromstring(picture):
        if is_row(element):
            tops.append(number_in(element, "y"))
        elif (element.get("class") or "").startswith("z ") and (told := HEAP_BLOCK.fullmatch(title_of(element))):
            boxes.append([number_in(element, "y"), number_in(element, "height"), *map(int, told.groups())])
    for top in tops:
        live = [(room, end - begin, end) for y, height, room, begin, end in boxes if y <= top + 8 < y + height]
        allocated, taken = sum(box[0] for box in live), sum(box[1] for box in live)
        yield [allocated, taken - allocated, size - taken, max([box[2] for box in live], default=0), len(live)]


def check_heap_map(picture: bytes, run: StoredRun) -> None:
    """The map shows in each row what the transcript says of the heap there."""
    size = int(dict(zip(run.sizes[::2], run.sizes[1::2])).get("--heap", 4096))
    mapped = list(stats_mapped(picture, size))
    for number, stats in stats_told(run.lines):
        assert mapped[number] == stats, f"line {number + 1}: the heap's map is not what heap-stats tells"


def pools_told(lines: Lines) -> Iterator[Pools]:
    """For each line the blocks that are used, by pool and number, with their process, and those in a list, with the list's number:
    as they are once its call is carried out."""
    for state in states_of(list(lines)):
        pools = state.memory.pools
        yield pools.owners, {(number // 2, block): number for number, blocks in enumerate(pools.lists) for block in blocks}


def pools_shown(picture: bytes) -> list[Pools] | None:
    """The same for each row, from the columns of the pools; None where something stands in another column or place."""
    tops, columns = [], {}
    # Of each box whether it tells of a list, how it looks, where it stands, and its block, pool and process or list.
    boxes: list[tuple[bool, str, list[int], list[int]]] = []
    for element in ElementTree.fromstring(picture):
        place = [number_in(element, name) for name in ("x", "y", "width", "height")]
        told = title_of(element) if len(element) else "".join(element.itertext())
        used, linked = USED.fullmatch(told), LINKED.fullmatch(told)
        if is_row(element):
            tops.append(place[1])
        elif pool := re.fullmatch(r"pool (\d)", told.replace("\u00a0", " ")):
            columns[int(pool[1])] = place[0]
        elif match := used or linked:
            boxes.append((linked is not None, element.get("class") or "", place, list(map(int, match.groups()))))
    for is_linked, look, (x, _, width, _), (block, number, name) in boxes:
        wanted = (f"c{name % 2}", 2) if is_linked else (f"z f{name}", 5)
        if (look, width) != wanted or x != columns.get(number, 0) + 5 * block + (5 - width) // 2:
            return None

    def at(top: int, is_linked: bool) -> Blocks:
        return {(pool, block): name for kind, _, (_, y, _, height), (block, pool, name) in boxes
                if kind == is_linked and y <= top + 8 < y + height}
    return [(at(top, False), at(top, True)) for top in tops]


def check_pools(picture: bytes, lines: Lines) -> None:
    """The columns of the pools have in each row the blocks that the transcript tells of."""
    if any(" -> memb-alloc" in line for line in lines):
        shown = pools_shown(picture)
        assert shown is not None, "something stands in another column of the pools"
        for line, state, row in zip(lines, pools_told(lines), shown):
            assert state == row, f"the columns of the pools are not what the transcript tells: {line}"


def bytes_told(digits: str, most: int = 24) -> str:
    """Bytes as text in quotes where all are text, else as two digits each; of many the first."""
    content = bytes.fromhex("" if digits == "-" else digits)
    is_text = content != b"" and all(32 <= byte <= 126 or byte in b"\r\n" for byte in content)
    most = most if is_text else 8
    if is_text:
        told = "“" + content[:most].decode().replace("\n", "⏎").replace("\r", "␍") + "”"
    else:
        told = "".join(f"{byte:02x} " for byte in content[:most])
    return told if 0 < len(content) <= most else f"{told}… {len(content)} bytes"


def payload_told(payload: str) -> str:
    if payload == "-":
        return ""
    return " " + (bytes_told(payload[1:]) if payload[0] == "x" else payload)


def call_told(call: str) -> str:
    word, *arguments = call.split(" ")
    if word == "print":
        arguments[-1] = bytes_told(arguments[-1], 48)
    elif word in ("mmem-write", "heap-write", "memb-write"):
        arguments[-1] = bytes_told(arguments[-1])
    elif word in ("post", "post-synch", "broadcast"):
        return " ".join([word, *arguments[:-1]]) + payload_told(arguments[-1])
    return " ".join([word, *arguments])


def answer_told(answer: str) -> str:
    kind, _, value = answer.partition(" ")
    if kind == "refused":
        return f"  ✗ {REFUSALS[int(value) - 1]} ({value})"
    return "" if not value else "  = " + (bytes_told(value) if kind == "bytes" else value)


def turn_told(line: str, above: str, late: int, lines_behind: Lines) -> str:
    """The words for a turn below a line, which tells a timer so late."""
    told, call = line.split(" -> ")
    pid, origin, *stimulus = told.split(" ")
    delay = f", {late} late" if late else ""
    if origin == "answer":
        who = "   ↳ " if above.partition(" ")[0] == pid else f"{pid} ↳ "
    elif origin == "callback":
        who = f"{pid}  callback {stimulus[0]}{delay} → "
    else:
        code = int(stimulus[0])
        who = f"{pid}  {EVENTS.get(code, f'event {code}')}{payload_told(stimulus[1])}{delay} → "
    # A process awaits the answer to its call, so its next turn has it.
    behind = next((other for other in lines_behind if other.startswith(pid + " ")), "")
    awaits = call not in ("wait", "exit") and behind.startswith(pid + " answer ")
    return who + call_told(call) + (answer_told(behind.split(" -> ")[0].split(" ", 2)[2]) if awaits else "")


def delays(lines: Lines) -> Iterator[int]:
    """How late the timer is that each line tells, or 0."""
    armed: dict[TimerName, int] = {}
    for line, state in zip(lines, states_of(list(lines))):
        told = TIMER_TOLD.match(line)
        due = armed.get((int(told[1]), "callback" if told[2] == "callback" else "timer", int(told[3]))) if told else None
        yield max(0, state.clock - due) if due is not None else 0
        armed = state.armed()


def line_told(lines: Lines, number: int, late: int, is_quiet: bool) -> str:
    """The words for a line, which tells a timer so late. A quiet transcript has no answers."""
    line = lines[number]
    above = lines[number - 1] if number > 0 else ""
    word, _, rest = line.partition(" ")
    if word == ">":
        kind, value = rest.split(" ")
        size = f" of {len(value) // 2}:" if kind == "frame" else ""
        return f"{kind}{size} {value if kind == 'tick' else bytes_told(value)}"
    if word == "note":
        kind, value = rest.split(" ")
        why = "8 are held" if value == "1" else "no room in managed memory"
        return "sent " + bytes_told(value) if kind == "sent" else f"✗ the frame is lost: {why} ({value})"
    if word == "bad":
        return f"bad {rest}: the script ends here"
    return ENDINGS.get(line) or turn_told(line, above, late, [] if is_quiet else lines[number + 1 : number + 400])


def words_shown(picture: bytes) -> list[str]:
    """The words of each row, from above."""
    tops, words = [], ""
    texts: dict[tuple[str, int], str] = {}
    for element in ElementTree.fromstring(picture):
        if is_row(element):
            tops.append(number_in(element, "y"))
        elif element.tag.endswith("text"):
            text, x = "".join(element.itertext()).replace("\u00a0", " "), element.get("x") or ""
            words = x if text.startswith("event → call") else words
            texts[x, number_in(element, "y")] = text
    # A text stands on a line 12 below its row's top.
    return [texts.get((words, top + 12), "") for top in tops]


def check_words(picture: bytes, lines: Lines, is_quiet: bool) -> None:
    told = [line_told(lines, number, late, is_quiet) for number, late in enumerate(delays(lines))]
    for shown, wanted in zip(words_shown(picture), told):
        assert shown == wanted, "other words than for the line"


def check_arrows(picture: bytes, lines: Lines) -> None:
    """The arrow of a turn that goes on has the colour of its process."""
    arrows = [words.get("class") for element in ElementTree.fromstring(picture) for words in element if "↳" in (words.text or "")]
    assert arrows == ["f" + line.partition(" ")[0] for line in lines if re.match(r"\d+ answer ", line)], "an arrow of another colour"


Arrow = tuple[str, int, int, int, int]


def arrows_drawn(picture: bytes) -> Iterator[Arrow]:
    """The arrows and curves: the rows where each begins and ends, and its two processes by its title, where it leads from the one's lane to
    the other's."""
    root = ElementTree.fromstring(picture)
    tops = [number_in(element, "y") for element in root if is_row(element)]
    paths = [(element.get("class") or "", element.get("d") or "", title_of(element)) for element in root.iter() if element.get("d")]
    lanes = {int(look[3:]): int(path[1:].partition(",")[0]) for look, path, _ in paths if look.startswith("l s")}
    for _, path, title in paths:
        told = re.fullmatch(r"(given at once|posted) by process (\d+)(?:, told)? to process (\d+)", title)
        if told and told[1] == "posted":
            begin, end = path.partition("C")[0], path.rpartition(" ")[2]
            first = next(row for row, top in enumerate(tops) if begin == f"M{lanes[int(told[2])]},{top + 8}")
            last = next(row for row, top in enumerate(tops) if end == f"{lanes[int(told[3])]},{top + 6}")
            yield "posted", first, last, int(told[2]), int(told[3])
        elif told:
            giver, receiver = lanes[int(told[2])], lanes[int(told[3])]
            sign = 1 if giver < receiver else -1
            head = f"H{receiver - 6 * sign}m{-4 * sign},-3l{4 * sign},3l{-4 * sign},3"
            row = next(row for row, top in enumerate(tops) if path == f"M{giver},{top + 6}{head}")
            yield "given", row, row, int(told[2]), int(told[3])


def arrows_wanted(lines: list[str]) -> Iterator[Arrow]:
    """The same, by the rules. A turn's first word is its process."""
    for number, state in enumerate(states_of(lines)):
        if state.running is not None and state.giver is not None:
            yield "given", number, number, state.giver, state.running
        if state.running is not None and state.posted is not None:
            yield "posted", state.posted, number, int(lines[state.posted].partition(" ")[0]), state.running


def head_of(picture: bytes) -> tuple[str, str]:
    """The title of a picture, and the grey text below it up to the overview."""
    texts = [element for element in ElementTree.fromstring(picture) if element.tag.endswith("text") and element.get("x") == "14"]
    words = {kind: "".join("".join(text.itertext()) for text in texts if text.get("class") == kind) for kind in "hg"}
    return words["h"], words["g"]


def counts_told(lines: Lines, first: int, end: int) -> Iterator[str]:
    """What the head counts of the lines from one to another."""
    own = lines[first:end]
    clocks = [0, *clocks_of(lines)]
    is_all = (first, end) == (0, len(lines))
    late = [delay for delay in list(delays(lines))[first:end] if delay]
    turns = [line.split(" -> ") for line in own if " -> " in line]
    printed = [call.split(" ")[1] for _, call in turns if call.startswith("print ")]
    yield f"inputs {sum(line.startswith('> ') for line in own)}"
    yield f"turns {len(turns)}"
    if is_all:
        yield f"clock {clocks[end]}"
    elif first < end:
        yield f"clock {clocks[first]} to {clocks[end]}"
    yield f"bytes printed {sum(len(digits) // 2 for digits in printed)}"
    yield f"frames sent {sum(line.startswith('note sent') for line in own)}"
    yield f"lost {sum(line.startswith('note lost') for line in own)}"
    yield f"calls refused {sum(' answer refused ' in told for told in (turn[0] for turn in turns))}"
    yield f"timers late {len(late)}" + (f" by up to {max(late)}" if late else "")
    if end == len(lines) and (is_all or first < end):
        yield f"ends: {end_told(lines)}"


def end_told(lines: Lines) -> str:
    last = lines[-1] if lines else ""
    return "a bad line" if last.startswith("bad line") else last if last in ENDINGS else "at rest"


def check_head(picture: bytes, lines: Lines, is_quiet: bool) -> None:
    title, counts = head_of(picture)
    told = list(counts_told(lines, 0, len(lines)))
    assert title.endswith("(a quiet transcript)") == is_quiet
    assert counts == ", ".join([told[3], told[4], told[-1]] if is_quiet else told)


def check_quiet(picture: bytes, lines: Lines) -> None:
    """A quiet transcript's picture has no clock, and each of its turns has a bar."""
    root = ElementTree.fromstring(picture)
    tops = [number_in(element, "y") for element in root if is_row(element)]
    bars = {(number_in(element, "y") - 2, element.get("class")) for element in root if element.get("width") == "10"}
    assert bars == {(top, "f" + line.partition(" ")[0]) for top, line in zip(tops, lines) if " -> " in line}
    assert b'class="e b"' not in picture and b">clock<" not in picture, "it tells a clock"
    assert "event → call<".encode() in picture, "it has a place for answers"


def check_form(picture: Completed) -> None:
    """Spaces stay in every viewer, and there is no warning of too many pixels."""
    root = ElementTree.fromstring(picture.stdout)
    assert root.get("{http://www.w3.org/XML/1998/namespace}space") == "preserve", "spaces may be lost"
    assert (picture.stderr != b"") == (number_in(root, "height") > 32000), picture.stderr


@pytest.mark.parametrize("name", [*WORKED_RUNS, *SAMPLES])
def test_transcript(name: str) -> None:
    run = stored_run(name)
    lines = run.lines
    whole = draw(["--unfolded", *run.sizes], run.transcript.encode())
    assert whole.returncode == 0 and "".join(titles_of(whole.stdout)) == run.transcript, "the titles are not its lines"
    if lines and len(lines) < 1000:
        check_words(whole.stdout, lines, run.looks_quiet)
        check_arrows(whole.stdout, lines)
        check_pools(whole.stdout, lines)
        check_head(whole.stdout, lines, run.looks_quiet)
        if not run.looks_quiet:
            assert sorted(arrows_drawn(whole.stdout)) == sorted(arrows_wanted(lines)), "other arrows"
    if run.looks_quiet:
        check_quiet(whole.stdout, lines)
    check_heap_map(whole.stdout, run)
    check_form(whole)
    assert OTHER_HEAP not in whole.stdout, "the heap answers in another way"
    assert OTHER_MANAGED not in whole.stdout, "managed memory answers in another way"
    folded = draw(run.sizes, run.transcript.encode())
    assert folded.returncode == 0 and lines_told(titles_of(folded.stdout), lines) == list(range(len(lines)))


def test_memory_is_compared() -> None:
    """There are answers to heap-stats, and rows with the columns of the pools, that these tests compare."""
    runs = [stored_run(name).lines for name in [*WORKED_RUNS, *SAMPLES]]
    assert sum(len(list(stats_told(lines))) for lines in runs) >= 67
    assert sum(len(lines) for lines in runs if len(lines) < 1000 and any(" -> memb-alloc" in line for line in lines)) >= 300


@pytest.mark.parametrize("name", SAMPLES)
def test_sample(name: str) -> None:
    """The samples' pictures are those in examples/."""
    path = EXAMPLES / name
    ran = draw([path.stem], path.read_bytes())
    assert ran.returncode == 0 and ran.stdout == path.with_suffix(".svg").read_bytes()


def test_shared_rows() -> None:
    """Turns share a row where others are told the same by the same origin, and only wait: an event, a poll and what is given at once are
    told apart."""
    rows = ["4 event 140 - -> wait\n5 event 140 - -> wait\n", "6 synch 140 - -> wait\n7 synch 140 - -> wait\n", "8 event 140 - -> wait\n",
            "9 event 141 - -> wait\n", "4 poll 130 - -> wait\n", "5 synch 130 - -> wait\n",
            "6 callback 0 -> print 61\n6 answer done -> wait\n", "7 callback 0 -> print 61\n", "8 synch 140 - -> wait\n"]
    assert list(titles_of(draw([], "".join(rows).encode()).stdout)) == rows


# ---- Words and lines that are refused ----


@pytest.mark.parametrize("line", [b"nonsense", b"", b"4 event 136 0 -> nothing", b"> tick 01", b"> tick \xff", b"3 synch 129 - -> wait",
                                  b"4 answer done -> wait "])
def test_malformed_line(line: bytes) -> None:
    ran = draw([], b"> tick 1\n" + line + b"\n")
    assert (ran.returncode, ran.stdout, ran.stderr) == (2, b"", b"mote_picture: line 2 is no line of a transcript\n")


NO_CLOCK = "mote_picture: a quiet transcript tells no clock for --from and --to\n"


@pytest.mark.parametrize(("words", "transcript", "reason"), [
    (["--what"], b"", "error: "),
    *((words, b"", "mote_picture: bad sizes\n") for words in (
        ["--mmem", "6"], ["--heap", "22"], ["--header", "12"], ["--quota", "6"], ["--mmem", "64", "--quota", "36", "blink"])),
    (["blink"] * 17, b"", "mote_picture: too many applications\n"),
    (["--from", "80", "--to", "60"], b"", "mote_picture: --from 80 is above --to 60\n"),
    *(([option, "1"], b"4 synch 129 - -> print 61\n", NO_CLOCK) for option in ("--from", "--to")),
])
def test_refused_words(words: list[str], transcript: bytes, reason: str) -> None:
    ran = draw(words, transcript)
    assert (ran.returncode, ran.stdout) == (64, b"") and ran.stderr.decode().startswith(reason), ran


@pytest.mark.parametrize("words", [["--mmem", "64", "--quota", "32", "blink"], ["blink"] * 16], ids=["quotas", "names"])
def test_largest_words(words: list[str]) -> None:
    """Quotas that fill managed memory, and sixteen names."""
    assert draw(words, b"").returncode == 0


def test_names_of_lanes() -> None:
    """Sixteen names are at two heights, so that none runs into the next one; two that have room are at one."""
    for count, heights in ((16, 2), (2, 1)):
        transcript = "".join(f"{pid} synch 129 - -> wait\n" for pid in range(4, 4 + count)).encode()
        root = ElementTree.fromstring(draw(["blink"] * count, transcript).stdout)
        names = [it for it in root if it.text == "blink"]
        assert len(names) == count and len({number_in(it, "y") for it in names}) == heights
        for height in {number_in(it, "y") for it in names}:
            lefts = [number_in(it, "x") for it in names if number_in(it, "y") == height]
            assert all(right - left >= 7 * len("blink") for left, right in zip(lefts, lefts[1:]))


def clocks_of(lines: Lines) -> Iterator[int]:
    """The clock at each line; a tick's line comes at the clock that it brings about."""
    now = 0
    for line in lines:
        if line.startswith("> tick "):
            now += int(line.removeprefix("> tick "))
        yield now


@pytest.mark.parametrize("name", SAMPLES)
def test_ranges(name: str) -> None:
    """Between two clocks there are the lines that come at these and between."""
    sample = stored_run(name)
    lines = sample.lines
    clocks = list(clocks_of(lines))
    bounds = sorted({0, 1, *clocks[:: max(1, len(clocks) // 4)], clocks[-1], clocks[-1] + 1})
    for low in bounds:
        for high in (bound for bound in bounds if bound < 2**64):
            ran = draw(["--unfolded", "--from", str(low), "--to", str(high)], sample.transcript.encode())
            if low > high:
                assert (ran.returncode, ran.stdout) == (64, b""), f"from {low} to {high}"
                continue
            wanted = "".join(line + "\n" for line, clock in zip(lines, clocks) if low <= clock <= high)
            assert ran.returncode == 0 and "".join(titles_of(ran.stdout)) == wanted, f"from {low} to {high}"
            end = sum(clock <= high for clock in clocks)
            counts = ", ".join(counts_told(lines, min(sum(clock < low for clock in clocks), end), end))
            assert head_of(ran.stdout)[1] == counts, f"from {low} to {high}"


# ---- Memory that isn't the run's ----

STATS = b"4 synch 129 - -> heap-alloc 0 20\n4 answer done -> heap-stats\n4 answer stats 20 16 64 36 1 -> wait\n"


@pytest.mark.parametrize(("words", "differs"), [(["--heap", "100"], False), (["--heap", "200"], True),
                                                (["--heap", "100", "--header", "8"], True)])
def test_other_heap(words: list[str], differs: bool) -> None:
    """Where the heap is another one than the run's, the picture tells the first line of which it knows."""
    assert (OTHER_HEAP + b"2 on" in draw(words, STATS).stdout) == differs


def test_heap_block() -> None:
    """A block's title has its address."""
    assert b"heap block 0 of process 4: 20 bytes, room for 20, from 0 to 36 with its header" in draw(["--heap", "100"], STATS).stdout


@pytest.mark.parametrize(("size", "differs"), [("32", False), ("36", True)])
def test_refused_heap_block(size: str, differs: bool) -> None:
    """A refused block in a heap that would take it."""
    transcript = b"4 synch 129 - -> heap-alloc 0 20\n4 answer refused 12 -> wait\n"
    assert (OTHER_HEAP + b"1 on" in draw(["--heap", size], transcript).stdout) == differs


LOST = b"> frame " + b"01" * 20 + b"\nnote lost 12\n"
REFUSED = b"4 synch 129 - -> mmem-alloc 0 20\n4 answer refused 12 -> mmem-alloc 0 40\n4 answer refused 12 -> wait\n" + LOST
OVER = REFUSED.replace(b" 12", b" 18")
AVAILABLE = b"4 synch 129 - -> mmem-alloc 0 20\n4 answer done -> mmem-avail\n4 answer num 44 -> wait\n"
CHURN = (EXAMPLES / "churn.transcript").read_bytes()
RELAY = (EXAMPLES / "relay.transcript").read_bytes()


@pytest.mark.parametrize(("sizes", "transcript", "line"), [
    ("--mmem 8", CHURN, 1), ("--mmem 28", CHURN, 2), ("--mmem 64", CHURN, 7), ("--quota 32", CHURN, 3), ("--mmem 4", RELAY, 4),
    ("--mmem 16", REFUSED, None), ("--mmem 36", REFUSED, 1), ("--mmem 20", LOST, 1), ("--mmem 64 --quota 16", OVER, None),
    ("--mmem 64", OVER, 1), ("--mmem 64 --quota 16", REFUSED, 1), ("--mmem 64", AVAILABLE, None), ("--mmem 68", AVAILABLE, 2),
    ("--mmem 80 --quota 64", AVAILABLE, None),
])
def test_other_managed_memory(sizes: str, transcript: bytes, line: int | None) -> None:
    """Where managed memory is another one than the run's, the picture tells the first line of which it knows."""
    told = re.search(rb'class="r"[^>]*>not the run.s managed memory from line (\d+) on', draw(sizes.split(), transcript).stdout)
    assert (int(told[1]) if told else None) == line


def test_other_managed_memory_before_the_window() -> None:
    """It is told where the line stands before the part that is shown, too."""
    window = CHURN.replace(b"> wait\n", b"> wait\n> tick 5\n> tick 5\n")
    assert OTHER_MANAGED + b"1 on" in draw(["--mmem", "8", "--from", "10"], window).stdout


# ---- Timers, and what else a picture shows. Rows have 17 pixels. ----


def lines_in(picture: bytes, look: str) -> list[str]:
    """The commands of the lines that look so."""
    return [element.get("d") or "" for element in ElementTree.fromstring(picture) if element.get("class") == look]


def top_of(picture: bytes) -> int:
    return min(number_in(element, "y") for element in ElementTree.fromstring(picture) if element.get("class") == "t")


def test_late_timer() -> None:
    """The line of a timer that is told late is red from the row on in which it was due."""
    transcript = (b"4 synch 129 - -> timer-set 0 5\n4 answer done -> wait\n> tick 3\n> serial 61\n> tick 3\n> serial 61\n> tick 4\n"
                  b"4 event 136 0 -> wait\n")
    picture = draw(["--unfolded"], transcript).stdout
    due, told = top_of(picture) + 4 * 17 + 8, top_of(picture) + 7 * 17 + 8
    assert [line.rpartition("V")[2] for line in lines_in(picture, "o s4")] == [str(due)]
    assert [line.partition(",")[2] for line in lines_in(picture, "o y")] == [f"{due}V{told}m-3,-5l3,5l3,-5"]


EXITS = b"4 synch 129 - -> timer-set 0 50\n4 answer done -> callback-set 1 50\n4 answer done -> exit\n> tick 60\n> tick 1\n"
KILLED = EXITS.replace(b"exit", b"wait") + b"5 event 7 - -> kill 4\n4 synch 131 - -> wait\n5 answer done -> wait\n> tick 1\n"


@pytest.mark.parametrize(("transcript", "row"), [(EXITS, 2), (KILLED, 5)], ids=["exits", "killed"])
def test_ended_timers(transcript: bytes, row: int) -> None:
    """The line of a timer whose process ends goes to that row, and no head is at its end."""
    picture = draw(["--unfolded"], transcript).stdout
    ends = [line.rpartition("V")[2] for look in ("o s4", "o q s4") for line in lines_in(picture, look)]
    assert ends == [f"{top_of(picture) + row * 17 + 8}m-3,0h6"] * 2


def test_tall_picture() -> None:
    """A picture that few viewers open says so, and is written all the same."""
    transcript = b"4 synch 129 - -> wait\n" + b"".join(b"> serial %02x\n" % (number % 256) for number in range(1990))
    ran = draw(["--unfolded"], transcript)
    height = number_in(ElementTree.fromstring(ran.stdout), "height")
    assert ran.returncode == 0 and height > 32000
    assert ran.stderr.decode() == (f"mote_picture: few viewers open a picture of {height} pixels, more than 32000: "
                                   "--from and --to show a part of the run, --page writes a page\n")


def boxes_in(picture: bytes, words: str) -> list[tuple[int, int, int]]:
    """Where the boxes of memory stand and begin, and how wide they are, of those whose titles begin with these words."""
    return sorted((number_in(element, "y"), number_in(element, "x"), number_in(element, "width"))
                  for element in ElementTree.fromstring(picture)
                  if (element.get("class") or "").startswith("z ") and title_of(element).startswith(words))


def test_managed_memory() -> None:
    """Where a block is freed, those after it move up; a frame that is lost has no box."""
    transcript = (b"4 synch 129 - -> mmem-alloc 0 10\n4 answer done -> mmem-alloc 1 20\n4 answer done -> mmem-free 0\n"
                  b"4 answer done -> wait\n> frame 01\n> frame 02\nnote lost 12\n")
    picture = draw(["--mmem", "64"], transcript).stdout
    (_, left, width), = boxes_in(picture, "handle 0 of process 4, 10 bytes")
    before, after = boxes_in(picture, "handle 1 of process 4, 20 bytes")
    assert (before[1], after[1]) == (left + width, left)
    assert len(boxes_in(picture, "a frame that is held, 1 bytes")) == 1


def test_markup() -> None:
    """Markup that is printed, and in a name, stands in the picture as text: it has the elements that it has for letters."""
    shown = []
    for text in ("</svg><text>&amp;<!-- \"it's\" > ]]>", "letters"):
        transcript = f"4 synch 129 - -> print {text.encode().hex()}\n4 answer done -> wait\n".encode()
        picture = ElementTree.fromstring(draw([text], transcript).stdout)
        told = ["".join(element.itertext()) for element in picture.iter()]
        assert any(f"“{text}”" in words for words in told) and f"mote {text}" in told
        shown.append([(element.tag, sorted(element.keys())) for element in picture.iter()])
    assert shown[0] == shown[1]


def test_long_run() -> None:
    """Repeated lines share a row."""
    part = "> tick 10\n4 event 136 0 -> print {}\n4 answer done -> timer-reset 0\n4 answer done -> wait\n"
    transcript = "4 synch 129 - -> timer-set 0 10\n4 answer done -> wait\n" + (part.format("6f6e0a") + part.format("6f66660a")) * 10000
    rows = list(titles_of(draw(["blink"], transcript.encode()).stdout))
    assert len(rows) < 20 and lines_told(iter(rows), transcript.splitlines()) == list(range(80002))
