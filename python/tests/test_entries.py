"""Entries beside the text that they are made of, by a plain reader that knows nothing of the table."""
import copy
import gc
import pickle
import random
import threading
import weakref

import pytest
from common import ROOT, Blink, random_application, random_script

import toarmuts
from toarmuts import (BadTranscript, Call, Callback, Ending, Event, EventCode, Input, InputKind, Note, NoteKind, Origin, Refusal, Reply,
                      ReplyKind, Stats, TimerSet, Transcript, Turn, Wait)
from toarmuts.scenario import read_file

from toarmuts.rows import PlainRow, PlainWords, Row, Words, make, make_plain
from toarmuts.transcript import read_callback
from toarmuts.values import read_reply, read_event


def hexes(data):
    return data.hex() or "-"


def line_of(entry):
    """The line that an entry tells, made of what it tells alone."""
    if isinstance(entry, Turn):
        return f"{entry.process} {entry.origin.name.lower()} {entry.stimulus} -> {entry.call}"
    if isinstance(entry, Input):
        return f"> {entry.kind.value} {entry.ticks if entry.kind is InputKind.TICK else hexes(entry.data)}"
    if isinstance(entry, Note):
        return f"note {entry.kind.value} {hexes(entry.data) if entry.kind is NoteKind.SENT else entry.refusal.value}"
    assert isinstance(entry, Ending)
    return f"bad line {entry.bad_line}" if entry.bad_line is not None else entry.text


def check_entries(transcript, text):
    """Each entry beside its line: its text, clock and number, and the answer to each call."""
    lines = text.split("\n")[:-1]
    assert len(transcript) == len(lines)
    clock, last, answers = 0, {}, {}
    for number, (entry, line) in enumerate(zip(transcript, lines), 1):
        words = line.split(" ")
        clock += int(words[2]) if words[:2] == [">", "tick"] else 0
        assert (entry.text, line_of(entry), entry.line, entry.clock) == (line, line, number, clock)
        if isinstance(entry, Turn):
            if words[1] == "answer":
                answers[last[words[0]]] = line[line.index("answer ") + 7:line.index(" -> ")]
            last[words[0]] = number
    for entry in transcript.turns():
        wanted = answers.get(entry.line)
        assert (entry.reply is None) == (wanted is None) and (wanted is None or str(entry.reply) == wanted)
        assert (entry.refusal is not None) == (wanted is not None and wanted.startswith("refused"))


def random_run(seed):
    chance = random.Random(f"entries/{seed}")
    applications = [random_application(chance) for _ in range(chance.randrange(5))]
    sizes = {"mmem": chance.choice([32, 128, 4096]), "heap": chance.choice([20, 100, 4096]), "header": chance.choice([8, 16])}
    return toarmuts.run(applications, random_script(chance, 20), **sizes)


@pytest.mark.parametrize("seeds", [range(first, first + 100) for first in range(0, 1000, 100)], ids=str)
def test_random_runs_entry_by_entry(seeds):
    for seed in seeds:
        run = random_run(seed)
        check_entries(run.transcript, run.text)


def test_worked_runs_entry_by_entry():
    for path in sorted((ROOT / "crates/scenario/data").glob("*.scenario")):
        for scenario in read_file(path):
            if scenario.transcript and not scenario.quiet:
                check_entries(Transcript(scenario.transcript), scenario.transcript)


def test_rows_made_in_python_are_the_same():
    for seed in range(50):
        run = random_run(seed)
        table = run.transcript._source.table
        clock = None if seed % 5 == 0 else 1000 * (seed % 3)
        transcript = Transcript(run.transcript.data, quiet=clock is None, clock_before=clock or 0)
        plain = make_plain((PlainEntry,) * 7, run.transcript._source, run.transcript._source.data, table, 0, len(run.transcript), clock)
        names = [name for name in PlainRow.__slots__ if name not in ("_source", "_data")]
        for row, entry in zip(plain, transcript):
            assert [getattr(row, name) for name in names] == [getattr(entry, name) for name in names]
            assert not isinstance(entry, Turn) or (row.call, row.stimulus) == (entry.call, entry.stimulus)
        assert len(plain) == len(transcript)


class PlainEntry(PlainRow):
    """A row made in Python."""

    __slots__ = ()
    call = PlainWords(True, (Call.parse,))
    stimulus = PlainWords(False, (read_event, read_event, read_event, read_callback, read_reply))


def test_words_are_of_rows_alone():
    for words in (Turn.__dict__["call"], Turn.__dict__["stimulus"]):
        with pytest.raises((TypeError, AttributeError)):
            words.__get__(5, int)
    assert Turn.call is Turn.__dict__["call"]


class Read:
    """What a reader makes of words."""

    def __init__(self, words):
        self.words = words


@pytest.mark.parametrize("row, words", [(Row, Words), (PlainRow, PlainWords)], ids=["of this build", "in Python"])
def test_words_that_do_not_come_again_are_let_go(row, words):
    """What a long campaign reads doesn't stay in memory; words read anew tell the same."""
    there = weakref.WeakSet()

    def read(told):
        made = Read(told)
        there.add(made)
        return made

    class Kept(row):
        __slots__ = ()
        call = words(True, (read,))

    text = "".join(f"4 answer done -> timer-set 0 {number}\n" for number in range(20_000))
    source = Transcript(text)._source
    make_rows = make if row is Row else make_plain
    for _ in range(2):
        for number, entry in enumerate(make_rows((Kept,) * 7, source, source.data, source.table, 0, 20_000, None)):
            assert entry.call.words == f"timer-set 0 {number}"
        del entry
        gc.collect()
        assert 1000 < len(there) <= 4096 + 1024


def test_calls_that_do_not_come_again_are_let_go():
    for number in range(10_000):
        assert Call.parse(f"timer-set 0 {number}") == TimerSet(0, number)
    assert len(Call._parsed) <= 4096 and Call.parse("timer-set 0 0") is Call.parse("timer-set 0 0")


def test_words_that_share_a_place_are_told_apart():
    """More words than there are places for, over and over, and those of one length that differ in a byte."""
    text = "".join(f"4 event {code} {number} -> timer-set {code % 8} {number}\n" for number in range(200) for code in range(100, 140))
    for _ in range(2):
        for place, turn in enumerate(Transcript(text)):
            number, code = place // 40, 100 + place % 40
            assert turn.call == TimerSet(code % 8, number) and turn.stimulus == Event(code, number)


def test_what_turns_tell():
    text = ("4 synch 129 - -> timer-set 0 10\n4 answer done -> wait\n> tick 10\n4 event 136 0 -> mmem-alloc 0 4096\n"
            "4 answer refused 12 -> heap-stats\n4 answer stats 1 2 3 4 5 -> clock\n4 answer wide 18446744073709551615 -> is-running 4\n"
            "4 answer flag true -> packet-read 0 3\n4 answer bytes 686900 -> wait\n4 callback 3 -> wait\n4 poll 130 - -> post 5 140 x\n"
            "4 answer num 7 -> wait\n5 event 140 x6f6e -> wait\n")
    turns = Transcript(text).turns()
    assert turns[0].stimulus == Event(EventCode.INIT) and turns[0].origin is Origin.SYNCH and turns[0].call == TimerSet(0, 10)
    assert turns[0].reply == Reply(ReplyKind.DONE) and turns[1].reply is None and turns[1].call == Wait()
    assert turns[2].stimulus == Event(EventCode.TIMER, 0) and turns[2].refusal is Refusal.NO_ROOM
    assert turns[3].reply == Reply(ReplyKind.STATS, Stats(1, 2, 3, 4, 5)) and turns[4].reply.value == 2**64 - 1
    assert turns[5].reply.value is True and turns[6].reply.value == b"hi\0"
    assert turns[8].stimulus == Callback(3) and turns[9].call.payload == b"" and turns[10].stimulus.value == 7
    assert turns[11].stimulus == Event(140, b"on") and [turn.line for turn in Transcript(text).turns(5)] == [13]


def test_a_quiet_transcript_tells_no_clocks_and_answers():
    run = toarmuts.run(["blink"], "tick 10\ntick 10\n", quiet=True)
    assert run.text == "4 event 136 0 -> print 6f6e0a\n4 event 136 0 -> print 6f66660a\n"
    assert [entry.clock for entry in run.transcript] == [None, None] and run.transcript.turns()[0].reply is None
    assert run.printed() == b"on\noff\n" and run.transcript.refused() == []
    # The turn that is told the answer stands there by chance.
    printer = [["print 61", "print 62"]]
    assert [turn.reply for turn in toarmuts.run(printer, quiet=True).transcript.turns()] == [None, None]
    assert toarmuts.run(printer).transcript.turns()[0].reply == Reply(ReplyKind.DONE)


def test_sequences():
    entries = toarmuts.run(["blink"], "tick 10\n").transcript
    assert len(entries) == 6 and entries[-1].text == "4 answer done -> wait" and [entry.line for entry in entries[1:3]] == [2, 3]
    assert entries[2] == Transcript(str(entries))[2] and entries[2] != entries[3] and len({*entries, *entries}) == 6
    first, second = Transcript("> tick 1\n> tick 1\n")
    assert first != second and first.text == second.text
    with pytest.raises(IndexError):
        entries[6]
    match entries[0]:
        case Turn(process, Event(code=EventCode.INIT), TimerSet(timer, interval)):
            assert (process, timer, interval) == (4, 0, 10)
        case _:
            raise AssertionError("no match")


def test_printed_and_sent():
    run = toarmuts.run(["relay", "hello"], "frame 0102\nframe 03\n")
    assert run.sent() == [b"\1\2", b"\3"] and run.printed(5) == b"hi\n" and run.printed(4) == b""


def test_entries_outlive_their_transcript():
    kept = [turn for seed in range(20) for turn in random_run(seed).transcript.turns()[:2]]
    gc.collect()
    assert all(turn.text and (turn.reply is None or str(turn.reply)) for turn in kept)


def test_runs_and_entries_can_be_sent_to_other_processes():
    run = toarmuts.run(["blink", [Wait()], Blink], "tick 10\n")
    list(run.transcript)
    again = pickle.loads(pickle.dumps(run))
    assert again.transcript == run.transcript and again.text == run.text and again.applications == run.applications
    turn = pickle.loads(pickle.dumps(run.transcript[3]))
    assert turn == run.transcript[3] and turn.reply == run.transcript[3].reply and copy.deepcopy(run.transcript)[3] == turn


class Locked:
    """What no pickle takes."""

    def __init__(self):
        self.lock = threading.Lock()

    def turn(self, stimulus):
        return Wait()


def test_runs_can_be_sent_whatever_their_applications_are():
    def inner():
        yield Wait()

    run = toarmuts.run(["calls wait", inner, lambda: Locked(), Locked()], "tick 1\ntock\n")
    again = pickle.loads(pickle.dumps(run))
    assert (again.transcript.data, again.ended) == (run.transcript.data, "bad line 2")
    assert again.applications == ("calls wait", "inner", "<lambda>", "Locked")
    assert again.scenario() == run.scenario() and isinstance(again.named[0].make(), toarmuts.CallList)
    with pytest.raises(toarmuts.NoApplication, match=r"application 2 \(process 5\): inner is an application in Python"):
        again.named[1].make()
    for twin in copy.copy(run), copy.deepcopy(run):
        assert twin.named == run.named and twin.text == run.text
    with pytest.raises(toarmuts.RunEnded) as caught:
        run.check()
    assert pickle.loads(pickle.dumps(caught.value)).run.text == run.text


def test_lines_of_no_form_are_told():
    for line in ("4", "4 event", "4 event 140 -", "4 event 140 - ->", "4 event 140 - -> frob", "4 event 256 - -> wait",
                 "20 poll 130 - -> wait", "x poll 130 - -> wait", "4 answer maybe -> wait", "> tock 1", "> tick x", "note", "note lost x",
                 "note kept 1", "halt 1", "bad",
                 "bad news", "too short", "4 answer refused 256 -> wait", "4 poll 130 -  -> waits"):
        with pytest.raises(toarmuts.BadTranscript, match="line 1 is not a line of a transcript"):
            list(Transcript(line + "\n"))


@pytest.mark.parametrize("line, member", [("> tick 1x", "value"), ("> tick 01", "ticks"), ("> frame 0", "data"), ("> serial é", "value"),
                                          ("note sent 0g", "data"), ("note lost 99", "refusal"), ("bad line ", "bad_line"),
                                          ("4 synch 129 - -> print \ud800", "call")])
def test_what_a_line_of_no_form_tells(line, member):
    """Its first words may be those of one; what follows is read where it is asked for."""
    with pytest.raises(BadTranscript, match="line 2 is not a line of a transcript: "):
        getattr(Transcript(f"> tick 1\n{line}\n")[1], member)


def test_words():
    entry = toarmuts.run([["timer-stop 9"]]).transcript
    assert entry[0].explain() == "process 4: it starts (INIT); it calls timer-stop (timer 9)"
    assert "refused with 7: no process, timer, handle" in entry[1].explain()
    for line, words in (("> tick 3", "the clock goes on by 3"), ("> serial 6869", "'hi' comes in on the serial line"),
                        ("> frame 00ff", "00ff comes in as a frame"), ("note sent 610a", "a frame was sent: 'a\\n'"),
                        ("note sent -", "a frame was sent: no bytes"),
                        ("note lost 12", "the frame was lost: memory has no room for it"),
                        ("4 callback 2 -> wait", "process 4: its callback timer 2 ran out; it calls wait"),
                        ("4 synch 131 - -> exit", "process 4: event EXIT, at once; it calls exit"),
                        ("4 event 136 - -> wait", "process 4: event TIMER; it calls wait"),
                        ("4 event 140 0 -> wait", "process 4: event 140 with 0; it calls wait"),
                        ("4 event 140 x -> clock", "process 4: event 140 with no bytes; it calls clock"),
                        ("4 callback 2 -> post 5 140 -",
                         "process 4: its callback timer 2 ran out; it calls post (process 5, code 140, no payload)"),
                        ("4 poll 130 - -> broadcast 140 0", "process 4: event POLL; it calls broadcast (code 140, payload 0)"),
                        ("4 answer bytes 00 -> heap-free 3", "process 4: the reply to its call is 00; it calls heap-free (heap block 3)"),
                        ("halt", "the mote halted: the turns and rounds of this input reached 10,000"),
                        ("bad line 7", "line 7 of the script is malformed"), ("too long", "the script has more than 16,777,216 bytes")):
        assert Transcript(line + "\n")[0].explain() == words


def test_what_stimuli_and_inputs_tell_besides():
    assert [Event(code).name for code in (129, 139, 140, 5)] == ["INIT", "PACKET", "140", "5"]
    done, refused = Reply(ReplyKind.DONE), Reply(ReplyKind.REFUSED, Refusal.NO_ROOM)
    assert (done.ok, done.refused, refused.ok, refused.refused, Reply(ReplyKind.FLAG, False).ok) == (True, False, False, True, True)
    tick, frame, lost, sent = Transcript("> tick 3\n> frame 07\nnote lost 1\nnote sent 07\n")
    assert (tick.ticks, tick.data, frame.ticks, frame.data, frame.value) == (3, b"", 0, b"\x07", b"\x07")
    assert (lost.data, lost.refusal, sent.data, sent.refusal) == (b"", Refusal.FULL, b"\x07", None)
    assert Transcript("> frame 07\nnote lost 1\nnote sent 07\n").sent() == [b"\x07"]
    assert TimerSet(0, 1) != Call.parse("timer-set 1 0") and Call.parse("timer-stop 3") != Call.parse("timer-reset 3")


def test_calls_can_be_pickled_and_are_equal_by_words():
    for words in ("post 4 140 x6869", "print -", "memb-write 0 1 2 ff", "wait"):
        call = Call.parse(words)
        assert str(call) == words and pickle.loads(pickle.dumps(call)) == call and hash(call) == hash(eval(repr(call), vars(toarmuts)))


@pytest.mark.parametrize("stimulus, shown", [
    (Event(129), "Event(EventCode.INIT)"), (Event(EventCode.SERIAL_LINE, b"on"), "Event(EventCode.SERIAL_LINE, b'on')"),
    (Event(140, 7), "Event(140, 7)"), (Event(127), "Event(127)"), (Event(136, 0), "Event(EventCode.TIMER, 0)"),
    (Callback(3), "Callback(3)"), (Reply(ReplyKind.DONE), "Reply(ReplyKind.DONE)"),
    (Reply(ReplyKind.NUM, 20), "Reply(ReplyKind.NUM, 20)"),
    (Reply(ReplyKind.REFUSED, Refusal.IN_USE), "Reply(ReplyKind.REFUSED, Refusal.IN_USE)"),
    (Reply(ReplyKind.FLAG, False), "Reply(ReplyKind.FLAG, False)"),
    (Reply(ReplyKind.BYTES, b"\0"), "Reply(ReplyKind.BYTES, b'\\x00')"),
    (Reply(ReplyKind.STATS, Stats(1, 2, 3, 4, 5)),
     "Reply(ReplyKind.STATS, Stats(allocated=1, overhead=2, available=3, footprint=4, chunks=5))"),
])
def test_stimuli_are_shown_with_names_and_as_python_takes_them(stimulus, shown):
    assert repr(stimulus) == shown and eval(shown, vars(toarmuts)) == stimulus


def test_each_calls_words_read_back():
    chance = random.Random(5)
    from common import random_call

    for _ in range(2000):
        call = random_call(chance)
        assert Call.parse(str(call)) == call


@pytest.mark.parametrize("line, member, reason", [
    ("4 callback 2 3 -> wait", "stimulus", "2 3: 2 3 is no number from 0 to 255"),
    ("4 callback 02 -> wait", "stimulus", "02: 02 is no number"),
    ("4 event 140 0x -> wait", "stimulus", "140 0x"),
    ("4 answer num 05 -> wait", "stimulus", "num 05"),
    ("4 synch 129 - -> timer-set 0", "call", "'timer-set 0': timer-set lacks a word"),
    ("4 synch 129 - -> timer-set 0 01", "call", "01 is no number from 0 to 4294967295"),
])
def test_what_is_wrong_with_words_is_told_with_its_line(line, member, reason):
    turn = Transcript(f"> tick 1\n{line}\n")[1]
    for _ in range(2):
        with pytest.raises(BadTranscript) as caught:
            getattr(turn, member)
        assert str(caught.value).startswith(f"line 2 is not a line of a transcript: {line}: ") and reason in str(caught.value)
    assert Transcript("4 callback 2 -> wait\n")[0].stimulus == Callback(2)


def test_the_front_of_a_transcript():
    run = toarmuts.run(["blink"], "tick 10\n")
    assert [str(entry) for entry in run.transcript.front(2)] == [str(entry) for entry in run.transcript[:2]]
    assert run.transcript.front(99) == run.transcript and len(run.transcript.front(0)) == 0 and len(Transcript("").front(3)) == 0
    part = Transcript("> tick 1\n> tick 2", lines_before=5, clock_before=7).front(1)
    assert (part[0].line, part[0].clock, part.is_well_formed, Transcript("frob").is_well_formed) == (6, 8, True, False)
