"""Networks in hand, and whole runs: worked ones, with lines written by hand, and random ones beside the program `network`."""
import inspect
import itertools
import math
import pathlib
import pickle
import random
import shutil
import struct
import subprocess
import sys
import threading
import time

import pytest
from common import ROOT
from networks import PROGRAM, StoredNetwork, random_network, read_network, stored_networks

import toarmuts
from toarmuts import (ApplicationError, BadInput, BadNetwork, BadScenario, BadSizes, BadTranscript, Event, EventCode, Frame, Link, Loss,
                      MmemAlloc, MmemWrite, Mote, MoteError, Network, NetworkKind, NetworkTranscript, NoApplication, NotReached, PacketDone,
                      PacketOpen, PacketRead, PacketSend, Print, Run, RunEnded, Status, TimerSet, Transcript, Wait, WrongType, run_network)
from toarmuts.network_setup import read_input
from toarmuts.network_transcript import Place
from toarmuts.pcap import packets

PACKAGE = str(pathlib.Path(toarmuts.__file__).parent)
SENDS = [MmemAlloc(0, 1), MmemWrite(0, 0, b"\7"), PacketSend(0)]
RECEIVES = [PacketOpen(), Wait(), PacketRead(0, 1), PacketDone()]
STARTED = ["1 4 synch 129 - -> mmem-alloc 0 1", "1 4 answer done -> mmem-write 0 0 07", "1 4 answer done -> packet-send 0",
           "1 note sent 07", "1 4 answer done -> wait", "2 4 synch 129 - -> packet-open", "2 4 answer done -> wait"]
RECEIVED = ["= 2", "2 > tick 2", "2 > frame 07", "2 4 event 139 1 -> packet-read 0 1", "2 4 answer bytes 07 -> packet-done",
            "2 4 answer done -> wait", "= 3"]


def texts(transcript):
    return [str(entry) for entry in transcript]


def pair():
    """Mote 1 sends a frame as it starts, and mote 2 receives it two ticks later."""
    return Network([[SENDS], [RECEIVES]]).link(1, 2, delay=2)


def test_each_input_gives_the_lines_that_follow():
    network = pair()
    assert (network.clock, network.transcript.data, network.closed, network.exhausted) == (0, b"", False, False)
    assert texts(network.start()) == STARTED == texts(network.booted) == texts(network.start())
    assert texts(network.tick(3)) == RECEIVED and network.clock == 3
    assert texts(network.tick(0)) == [] and texts(network.at(3)) == [] and texts(network.at(5)) == ["= 5"]
    assert texts(network.transcript) == [*STARTED, *RECEIVED, "= 5"] and network.frames() == [Frame(0, 1, b"\7")]
    assert network.sent() == network.sent(1) == [b"\7"] and network.sent(2) == []


def test_the_first_input_starts_the_motes():
    network = pair()
    assert texts(network.tick(3)) == RECEIVED and texts(network.booted) == STARTED


@pytest.mark.parametrize("loss, line", [({"every": 1}, "lost 1 2"), ({"lot": 65536}, "lost 1 2"), ({}, "full 1 2")])
def test_a_frame_is_lost_or_finds_no_room(loss, line):
    network = Network([[SENDS], [RECEIVES]], room=0).link(1, 2, **loss)
    assert texts(network.start()) == [*STARTED[:4], line, *STARTED[4:]]
    entry = network.transcript[4]
    assert (entry.kind.value, entry.sender, entry.mote, entry.entry) == (line.partition(" ")[0], 1, 2, None)
    assert texts(network.lost()) == ([line] if loss else []) and texts(network.full()) == ([] if loss else [line])
    assert texts(network.tick(9)) == ["= 9"] and network.so_far().full() == network.full() and network.so_far().lost() == network.lost()


def test_a_halted_mote_misses_what_comes():
    network = Network(["clock-watcher", [SENDS], "echo"]).link(2, 1, delay=4)
    started = network.start()
    assert network.mote(1).halted and not network.mote(2).halted and not network.exhausted and "1 halt" in texts(started)
    assert texts(network.frame(1, b"a")) == ["missed - 1"] and texts(network.tick(4)) == ["= 4", "missed 2 1"]
    missed = [entry for entry in network.transcript if entry.kind is NetworkKind.MISSED]
    assert [(entry.sender, entry.mote, entry.clock) for entry in missed] == [(None, 1, 0), (2, 1, 4)]
    assert network.serial_text(3, "on").printed() == b"on"
    part = network.so_far().mote(1)
    assert part.status is Status.HALTED and part.script == b"" and part.again().text == part.text


def test_an_input_uses_up_its_rounds():
    network = Network(["relay", "relay"], rounds=6).line()
    assert texts(network.frame(1, b"a"))[-1] == "1 4 answer done -> wait"
    assert texts(network.tick(100))[-1] == "halt" and network.exhausted and network.transcript[-1].kind is NetworkKind.EXHAUSTED
    for use in (lambda: network.tick(), lambda: network.frame(1, b"a"), lambda: network.resume()):
        with pytest.raises(MoteError, match="the network was halted: nothing follows"):
            use()
    assert network.so_far().status is Status.EXHAUSTED


def test_old_names_stay_for_a_version():
    network = Network(["relay", "relay"], rounds=6).line()
    network.frame(1, b"a")
    assert not network.halted
    network.tick(100)
    assert network.halted and NetworkKind.HALT is NetworkKind.EXHAUSTED is NetworkKind("halt")
    assert Status.HALTED is Status.EXHAUSTED and Status(3).name == "HALTED"


def worked():
    """The worked networks whose lines a run from Python has."""
    examples = [StoredNetwork(file.stem, file.read_text(), file.with_suffix(".transcript").read_text())
                for file in sorted((ROOT / "examples/networks").glob("*.net"))]
    for case in [*stored_networks(), *examples]:
        if "bad line" not in case.transcript and not case.words:
            yield pytest.param(case, id=case.name)


@pytest.mark.parametrize("case", worked())
def test_worked_networks(case):
    """The transcripts were written by hand, from docs/network.md."""
    network, inputs = read_network(case.script)
    run = run_network(network, inputs)
    assert run.difference(case.transcript) is None
    assert run.finished == (not run.text.endswith("\nhalt\n"))
    for number in range(1, len(network) + 1):
        assert run.mote(number).again().text == run.mote(number).text
    with Network.of(network.setup) as held:
        held.start()
        for line in [] if run.text.endswith("\nhalt\n") else inputs:
            held.feed(line)
        assert not run.finished or held.transcript == run.transcript


@pytest.mark.parametrize("part", range(8))
def test_random_networks(part):
    """From Python and from a file the same network gives the same bytes: 200 networks in all."""
    if not PROGRAM.exists():
        pytest.skip(f"no {PROGRAM}: ./prove network builds it")
    for number in range(25 * part, 25 * part + 25):
        network, inputs = random_network(number)
        run = run_network(network, inputs)
        ran = subprocess.run([PROGRAM], input=run.script().encode(), capture_output=True, check=False)
        assert (ran.returncode, ran.stderr) == (run.status, b"") and run.difference(ran.stdout) is None, run.script()
        check_parts(run)


def check_parts(run):
    """What merged entries and those of motes say is what the lines say."""
    clock, counts = 0, {}
    for number, (line, entry) in enumerate(zip(run.text.splitlines(), run.transcript, strict=True), 1):
        clock = int(line[2:]) if line.startswith("= ") else clock
        assert (entry.line, entry.clock, entry.text) == (number, clock, line)
        if entry.entry is not None:
            counts[entry.mote] = counts.get(entry.mote, 0) + 1
            assert entry.entry.line == counts[entry.mote] and line == f"{entry.mote} {entry.entry.text}"
            assert entry.entry.clock <= clock
        assert entry.explain()
    assert run.transcript.motes == sorted(counts)
    assert {mote: len(run.transcript.mote(mote)) for mote in counts} == counts


def beats():
    """Sends its beat every ten ticks."""
    yield MmemAlloc(0, 1)
    while True:
        yield TimerSet(0, 10)
        yield Wait()
        yield MmemWrite(0, 0, b"b")
        yield PacketSend(0)


class Counts:
    """Counts the frames that it receives, and prints the count."""

    def __init__(self):
        self.count = 0

    def turn(self, stimulus):
        if stimulus == Event(EventCode.INIT):
            return PacketOpen()
        if isinstance(stimulus, Event) and stimulus.code == EventCode.PACKET:
            self.count += 1
            return Print(b"%d" % self.count)
        return PacketDone() if stimulus == toarmuts.Reply(toarmuts.ReplyKind.DONE) and self.count else Wait()


def test_applications_in_python():
    network = Network([beats, Counts, [Counts, "echo"]]).mesh(delay=3)
    network.tick(25)
    assert network.printed(2) == b"12" and network.mote(3).printed(4) == b"12"
    assert network.mote(2).application(4).count == network.mote(3).application(4).count == 2
    assert network.mote(2).application(4) is not network.mote(3).application(4)
    assert network.frames() == [Frame(10, 1, b"b"), Frame(20, 1, b"b")] and network.printed() == b"1122"
    assert network.mote(3).serial_text("on").printed(3) == b"on" and network.mote(1).due == 30 and network.mote(2).due is None
    with pytest.raises(WrongType, match="mote 2 has no process 5; it has 1 applications, from 4 on"):
        network.mote(2).application(5)
    again = run_network(network, "tick 25\n3 serial 6f6e0a\n", check=True)
    assert again.transcript == network.transcript


def test_motes_of_their_own_sizes():
    network = Network().add("calls mmem-avail", mmem=64).add("calls mmem-avail", count=2)
    network.start()
    entries = [network.mote(number).transcript[1].text for number in (1, 2, 3)]
    assert entries == ["4 answer num 64 -> wait"] + ["4 answer num 4096 -> wait"] * 2
    assert network.so_far().script() == "mote 1 --mmem 64 calls mmem-avail\nmote 2..3 calls mmem-avail\n"


def test_lines_of_motes_are_numbered_in_the_whole():
    """What an input returns has the numbers and clocks of the whole run."""
    network = Network(["blink", "echo"])
    network.tick(10)
    entries = network.serial_text(2, "on")
    assert [(entry.line, entry.clock, entry.entry.line, entry.entry.clock) for entry in entries] == [
        (9, 10, 2, 10), (10, 10, 3, 10), (11, 10, 4, 10), (12, 10, 5, 10)]
    assert entries.mote(2)[1].line == 3 and entries.motes == [2] and len(entries.mote(1)) == 0
    assert texts(entries) == ["2 > tick 10", "2 > serial 6f6e0a", "2 4 event 138 x6f6e -> print 6f6e", "2 4 answer done -> wait"]
    assert network.mote(2).clock == 10 and network.mote(2).transcript == network.so_far().mote(2).transcript


def test_entries_in_words():
    transcript = NetworkTranscript("= 3\nlost 1 2\nfull 1 2\nmissed 1 2\nmissed - 2\n2 > frame 07\nhalt\n")
    assert transcript.explain() == [
        "the clock goes on to 3", "the link from mote 1 to mote 2 loses the frame",
        "the frame from mote 1 to mote 2 finds no room in flight", "mote 2 was halted, and misses a frame from mote 1",
        "mote 2 was halted, and misses an input from outside",
        "mote 2: 07 comes in as a frame", "the network halted: an input took all its rounds"]
    assert NetworkTranscript("bad line 7\ntoo long").explain() == ["line 7 of the script is malformed", "the script is too long"]
    assert len(NetworkTranscript("too long")) == 1 and len(NetworkTranscript("")) == 0
    assert NetworkTranscript("= 1\n") == NetworkTranscript(b"= 1\n")
    assert transcript[1] in transcript and hash(transcript) == hash(pickle.loads(pickle.dumps(transcript)))
    for spoilt in ("frob\n", "= x\n", "lost 1\n", "missed 0 1\n", "bad line 0\n"):
        with pytest.raises(BadTranscript, match="line 1 is not a line of a network's transcript"):
            list(NetworkTranscript(spoilt))


@pytest.mark.parametrize("application", ["blink", ["timer-set 0 10", "callback-set 1 4"]])
def test_the_next_timer_of_a_mote(application):
    mote = Mote([application])
    assert mote.due == (10 if application == "blink" else 4)
    mote.tick(4)
    assert mote.due == 10
    assert Mote(["hello"]).due is None
    mote.close()
    for use in (lambda: mote.due, lambda: mote.until(lambda mote: True)):
        with pytest.raises(MoteError, match="the mote is closed"):
            use()


def test_a_mote_goes_on_until_something_holds():
    mote = Mote(["blink"])
    entries = mote.until(lambda mote: mote.printed().count(b"off") == 2)
    assert (mote.clock, entries.printed(), [entry.ticks for entry in entries.inputs()]) == (40, b"on\noff\non\noff\n", [10, 10, 10, 10])
    assert texts(mote.until(lambda mote: True)) == [] and mote.clock == 40
    with pytest.raises(NotReached, match="what was awaited doesn't hold after 25 ticks, at clock 65"):
        mote.until(lambda mote: False, most=25)
    assert mote.clock == 65
    idle = Mote(["hello"])
    with pytest.raises(NotReached):
        idle.until(lambda mote: False, most=1000)
    assert texts(idle.transcript)[2:] == ["> tick 1000"]


def test_a_network_goes_on_until_something_holds():
    network = Network(["relay", "relay", "blink"]).link(1, 2, delay=3).link(2, 1, delay=4, every=2)
    network.frame(1, b"a")
    entries = network.until(lambda network: len(network.sent()) == 4)
    assert network.frames() == [Frame(0, 1, b"a"), Frame(3, 2, b"a"), Frame(7, 1, b"a"), Frame(10, 2, b"a")]
    assert [entry.text for entry in entries if entry.kind is NetworkKind.CLOCK] == ["= 3", "= 7", "= 10"] and network.clock == 10
    # The last frame is lost: only the timer of mote 3 is left.
    assert network.until(lambda network: network.printed(3) == b"on\noff\n").mote(3).printed() == b"off\n" and network.clock == 20
    with pytest.raises(NotReached):
        network.until(lambda network: False, most=5)
    assert network.clock == 25


def test_a_frame_that_was_under_way_before_is_waited_for():
    """Its arrival is counted from when it was sent, and not from when the network is first asked to go on."""
    network = Network(["relay", "relay"]).link(1, 2, delay=7)
    network.frame(1, b"hi")
    network.tick(3)
    network.until(lambda it: it.sent(2))
    assert network.clock == 7


def test_a_halted_mote_is_not_waited_for():
    """Its timer never runs out: the clock goes on to the timer of the other mote."""
    network = Network([[[TimerSet(0, 7), Wait()], "clock-watcher"], [[TimerSet(0, 20), Wait()]]])
    network.until(lambda network: network.clock > 0, most=100)
    assert network.mote(1).halted and network.clock == 20


def test_an_application_that_raises():
    def raises():
        yield PacketOpen()
        stimulus = yield Wait()
        raise KeyError(stimulus.code)

    network = Network(["relay", [raises]]).link(1, 2, delay=2)
    network.frame(1, b"a")
    with pytest.raises(ApplicationError, match="^mote 2, process 4 received PACKET 1: KeyError: 139$") as caught:
        network.tick(5)
    fault = caught.value
    assert (fault.mote, fault.process, fault.stimulus, texts(fault.transcript)[-1]) == (2, 4, Event(EventCode.PACKET, 1), "> frame 61")
    assert network.awaiting == (2, 4, Event(EventCode.PACKET, 1)) and isinstance(pickle.loads(pickle.dumps(fault)), ApplicationError)
    with pytest.raises(MoteError, match="a turn awaits its call"):
        network.tick()
    with pytest.raises(ApplicationError, match="the generator has raised"):
        network.resume()
    with pytest.raises(WrongType, match="submit takes a Call, not str"):
        network.submit("wait")
    assert texts(network.submit(Wait())) == ["2 4 event 139 1 -> wait", "= 5"] and network.awaiting is None
    with pytest.raises(MoteError, match="no turn awaits a call"):
        network.submit(Wait())


def test_an_application_that_raises_as_it_starts():
    def raises():
        raise KeyError("at boot")
        yield Wait()

    network = Network(["hello", [raises], "hello"])
    with pytest.raises(ApplicationError, match="mote 2, process 4"):
        network.start()
    assert texts(network.booted) == ["1 4 synch 129 - -> print 68690a", "1 4 answer done -> wait"]
    assert texts(network.submit(Wait()))[0] == "2 4 synch 129 - -> wait" and network.printed(3) == b"hi\n"


def test_a_closed_network():
    with pair() as network:
        network.tick(3)
    network.close()
    for use in (lambda: network.tick(), lambda: network.start(), lambda: network.resume(), lambda: network.run("")):
        with pytest.raises(MoteError, match="the network is closed"):
            use()
    assert network.closed and network.clock == 3 and texts(network.transcript) == [*STARTED, *RECEIVED]
    assert repr(network) == "<Network of 2 motes, 1 links, closed>" and network.so_far().inputs == ("tick 3",)


def test_a_network_at_work_is_used_by_nobody_else():
    reached, goes_on = threading.Event(), threading.Event()

    class Dawdles:
        def turn(self, stimulus):
            if stimulus == Event(EventCode.SERIAL_LINE, b"on"):
                reached.set()
                goes_on.wait(60)
            return Wait()

    network = Network([Dawdles])
    thread = threading.Thread(target=network.serial_text, args=(1, "on"))
    thread.start()
    assert reached.wait(60)
    for use in (network.close, network.tick, network.start):
        with pytest.raises(MoteError, match="the network is at work"):
            use()
    goes_on.set()
    thread.join()
    assert texts(network.transcript)[-1] == "1 4 event 138 x6f6e -> wait"


def test_an_interrupt_loses_nothing():
    def interrupted():
        while (yield Wait()) != Event(EventCode.SERIAL_LINE, b"on"):
            pass
        raise KeyboardInterrupt

    network = Network([[interrupted, "echo"], "hello"])
    with pytest.raises(KeyboardInterrupt):
        network.serial_text(1, "on")
    assert network.awaiting == (1, 4, Event(EventCode.SERIAL_LINE, b"on"))
    assert texts(network.submit(Wait())) == ["1 4 event 138 x6f6e -> wait"] and network.mote(1).printed(5) == b"on"
    assert network.so_far().inputs == ("1 serial 6f6e0a",)


def is_of_package(frame):
    """Whether the package does this itself, and not within an application."""
    while frame.f_code.co_filename.startswith(PACKAGE) and not frame.f_code.co_flags & inspect.CO_GENERATOR:
        frame = frame.f_back
    return frame.f_code is interrupted.__code__


def interrupted(place):
    """A network that takes a line, is interrupted after so many calls of the package, and goes on; and whether it was interrupted."""
    network, left, is_interrupted = Network([beats, Counts]).link(1, 2, delay=3), itertools.count(-place), False
    network.start()

    def profile(frame, what, _):
        if what in ("return", "c_return") and is_of_package(frame) and next(left) == 0:
            sys.setprofile(None)
            raise KeyboardInterrupt

    sys.setprofile(profile)
    try:
        network.frame(2, b"a")
    except (KeyboardInterrupt, ApplicationError):
        is_interrupted = True
    finally:
        sys.setprofile(None)
    try:
        network.feed("")
        network.tick(0)
    except MoteError as fault:
        assert "work is left" in str(fault) or "awaits its call" in str(fault)
        network.resume()
    return network, is_interrupted


def test_an_interrupt_behind_any_call_of_the_package_loses_nothing():
    wanted, place, is_interrupted = run_network(interrupted(10**9)[0], ["2 frame 61", "tick 20"]), 0, True
    while is_interrupted:
        network, is_interrupted = interrupted(place)
        if "2 frame 61" not in network.so_far().inputs:
            network.frame(2, b"a")
        network.tick(20)
        assert network.so_far().difference(wanted) is None, place
        assert [line for line in network.so_far().inputs if line != "tick 0"] == ["2 frame 61", "tick 20"], place
        place += 1
    assert place > 50


def test_many_lines_of_one_input():
    """More lines than one call of the library returns."""
    network = Network(["blink"] * 3)
    assert len(network.tick(1000)) == 100 * (1 + 3 * 4) and network.printed(2) == b"on\noff\n" * 50


def test_what_a_network_did_goes_on_from_where_it_was():
    """Each reading of a long run takes as long as what is new. By all lines it would take minutes."""
    begun = time.process_time()
    network = Network(["relay", "relay", "blink"]).link(1, 2).link(2, 1)
    network.frame(1, b"a")
    network.until(lambda network: len(network.sent()) == 1000 and network.sent(2) and network.frames()[-1].clock == network.clock)
    network.until(lambda network: len(network.printed(3)) > 700 and not network.lost() and not network.full(), most=20_000)
    mote = Mote(["blink"])
    mote.until(lambda mote: mote.printed(4).count(b"off") == 300 and not mote.sent())
    assert time.process_time() - begun < 4
    run = network.so_far()
    assert (network.printed(), network.sent(), network.frames(), network.frames(2)) == (
        run.printed(), run.sent(), run.frames(), run.frames(2))
    assert (network.mote(3).printed(4), network.mote(2).sent(), network.mote(1).transcript) == (
        run.mote(3).printed(4), run.sent(2), run.transcript.mote(1))


def test_the_front_of_a_part():
    """Its lines have the numbers and clocks that they have in the part, of the network and of the mote."""
    part = NetworkTranscript("1 > tick 2\n1 > tick 3\n= 20\n", lines_before=5, clock_before=9, before={1: Place(3, 4)})
    numbers = [(it.line, it.clock, it.entry.line, it.entry.clock) for it in part.front(2)]
    assert numbers == [(6, 9, 4, 6), (7, 9, 5, 9)] and part.front(9) == part and len(part.front(0)) == 0


def test_many_inputs_are_taken_as_fast_as_few():
    """A hundred thousand of a script, and ten thousand one by one, each to rest."""
    begun = time.process_time()
    run = run_network(Network([[]]), "tick 1\n" * 100_000, check=True)
    assert len(run.transcript) == 100_000 and run.text.endswith("\n= 100000\n") and len(run.inputs) == 100_000
    network = Network(["hello"])
    for _ in range(10_000):
        network.tick()
    assert time.process_time() - begun < 3 and network.clock == 10_000 and len(network.so_far().inputs) == 10_000


def test_a_long_delay_costs_no_search():
    """The moments at which frames arrive are found without those that were before."""
    network = Network(["relay", "relay"]).link(1, 2).link(2, 1).link(1, 1, delay=4_000_000_000)
    network.frame(1, b"a")
    begun = time.process_time()
    network.until(lambda network: network.clock == 1500)
    assert time.process_time() - begun < 2 and len(network.frames()) == 1501


@pytest.mark.parametrize("kind", ["network", "mote"])
def test_an_interrupt_of_a_reading_loses_nothing(kind):
    """It is read anew."""
    def made():
        if kind == "mote":
            held = Mote(["blink", "relay"])
            held.tick(25)
            return held
        held = Network(["blink", "relay"])
        # It reads nothing.
        held.execute(b"tick 25\n")
        return held

    wanted = (made().printed(), made().sent(), made().transcript.data)
    for place in itertools.count():
        held, left, is_interrupted = made(), itertools.count(-place), False

        def profile(frame, what, _, left=left):
            if what in ("return", "c_return") and frame.f_code.co_filename.startswith(PACKAGE) and next(left) == 0:
                sys.setprofile(None)
                raise KeyboardInterrupt

        sys.setprofile(profile)
        try:
            held.printed()
        except KeyboardInterrupt:
            is_interrupted = True
        finally:
            sys.setprofile(None)
        assert (held.printed(), held.sent(), held.transcript.data) == wanted, place
        assert held.tick(5)[-1].line == len(held.transcript)
        if not is_interrupted:
            break
    assert place > 10


def test_an_application_reads_the_network_it_is_in():
    class Reads:
        def turn(self, stimulus):
            if isinstance(stimulus, Event) and stimulus.code == EventCode.SERIAL_LINE:
                seen.append((network.printed(), network.mote(1).clock))
            return Wait()

    seen = []
    network = Network([Reads, "blink", "hello"])
    network.tick(20)
    entries = network.serial_text(1, "on")
    assert seen == [(b"hi\non\noff\n", 20)] and [entry.entry.line for entry in entries] == [2, 3, 4]
    assert texts(network.tick(10))[1:3] == ["2 > tick 10", "2 4 event 136 0 -> print 6f6e0a"]


# Whole runs.

def test_a_run_by_script():
    run = run_network(pair(), "# two\n\ntick 3\n")
    assert texts(run.transcript) == [*STARTED, *RECEIVED] and run.finished and run.check() is run and str(run) == run.text
    assert (run.status, run.end.value, run.ended, run.line) == (Status.FINISHED, "finished", "finished", None)
    assert run.inputs == ("# two", "", "tick 3")
    assert run.sent() == [b"\7"] and run.frames(2) == [] and run.lost() == [] and repr(run) == "<NetworkRun of 2 motes: finished, 14 lines>"
    assert isinstance(run.mote(2), Run) and run.mote(2).script == b"tick 2\nframe 07\n" and run.mote(2).again().text == run.mote(2).text
    wanted = "".join(f"{line}\n" for line in [*STARTED, *RECEIVED[:2]])
    assert str(run.difference(wanted)) == f"""line 10 of the transcript differs, at clock 2
          {STARTED[-1]}
          = 2
          2 > tick 2
wanted:   the transcript ends
found:    2 > frame 07
          mote 2: 07 comes in as a frame"""
    again = pickle.loads(pickle.dumps(run))
    assert again.transcript == run.transcript and again.difference(run) is None and again.mote(1).applications == run.mote(1).applications
    assert run_network(pair(), b"tick 3").transcript == run_network(pair(), ["tick 3"]).transcript == run.transcript


@pytest.mark.parametrize("line", ["tick", "tick 01", "tick 4294967296", "0 frame 61", "3 frame 61", "01 frame 61", "1 frame", "1 frame 6",
                                  "1  frame 61", "1 tick 3", "frame 61", "1 # nothing", "1 frame " + "00" * 128,
                                  "1 serial " + "00" * 257, "#" * 1025, "1 frame 61 "])
def test_a_malformed_line(line):
    run = run_network(pair(), ["tick 1", line, "tick 1"])
    assert (run.status, run.line, run.ended) == (Status.BAD_LINE, 2, "bad line 2")
    assert texts(run.transcript) == [*STARTED, "= 1", "bad line 2"] and run.transcript[-1].kind is NetworkKind.BAD_LINE
    with pytest.raises(RunEnded, match="^the run ended with: bad line 2, ") as caught:
        run_network(pair(), ["tick 1", line, "tick 1"], check=True)
    assert caught.value.run.line == 2
    network = pair()
    with pytest.raises(BadInput, match="is not an input of a network of 2 motes"):
        network.feed(line)
    with pytest.raises(BadInput, match=r"is not an input of a network of 2 motes \(line 2\)"):
        network.run(["tick 1", line])
    assert network.clock == 1


def test_a_line_that_is_not_text():
    """Only a comment may be one, as for the program."""
    assert run_network(pair(), b"tick 1\n\xff\n").ended == "bad line 2"
    run = run_network(pair(), b"tick 1\n# \xff\xe9\ntick 2\n", check=True)
    assert run.inputs == ("tick 1", "# ??", "tick 2") and texts(run.transcript) == [*STARTED, "= 1", *RECEIVED]
    network = pair()
    with pytest.raises(BadInput, match=r"^'\?' is not an input of a network of 2 motes \(line 2\)$"):
        network.run(b"tick 1\n\xff\n")
    assert texts(network.run(b"# \xff\ntick 2")) == RECEIVED and network.so_far().inputs == ("tick 1", "tick 2")


def test_a_line_of_a_list_is_one_line():
    run = run_network(pair(), ["tick 1", "# a\ntick 1", "tick 1"])
    assert run.ended == "bad line 2" and run.inputs[1] == "# a\ntick 1"


def test_too_long_a_script():
    run = run_network(pair(), "#" * 1000 + "\n" + ("#" * 1000 + "\n") * 16_800)
    assert run.status is Status.TOO_LONG and run.text == "too long\n"
    whole = (b"#" * 1023 + b"\n") * 16_383 + b"#" * 1024
    assert len(whole) == 16_777_216
    assert run_network(Network(), whole).finished and run_network(Network(), whole.decode()).finished
    for longer in (whole + b"\n", b"\n" + whole):
        assert run_network(Network(), longer).ended == "too long"


def script_line(chance):
    """A line of a network's script, now and then malformed in one byte."""
    line = chance.choice((f"tick {chance.choice((0, 7, 2**32 - 1, 2**32, 2**64 + 5, 10**20))}", f"{chance.randrange(5)} frame {'0A' * 127}",
                          f"{chance.choice((1, 2, 3, 2**32 + 1))} serial {'fF' * chance.choice((1, 256, 257))}", "#" * 1024, "",
                          f"1 frame {chance.choice(('00' * 128, '0', 'g0', '0G', '', '-'))}", "1 serial  00", f"{'9' * 30} frame 00"))
    if chance.random() < 0.4:
        at, other = chance.randrange(len(line) + 1), chance.choice(" 0123x#tf/:@G`g")
        line = line[:at] + chance.choice((other, "")) + line[at + chance.choice((0, 1)):]
    return line


def test_both_readers_of_a_line_agree():
    """That of the library's side in C, and that of scenarios in Python."""
    with Network(["hello"] * 3) as network:
        for number in range(4000):
            line = script_line(random.Random(f"line {number}"))
            try:
                line_read = read_input(line, 3)
            except BadInput:
                with pytest.raises(BadInput, match="is not an input of a network of 3 motes"):
                    network.feed(line)
                continue
            before = len(network.so_far().inputs) if number % 100 == 0 else None
            network.feed(line)
            assert before is None or len(network.so_far().inputs) == before + (line_read is not None)


def test_a_script_for_the_program():
    network = Network(["blink", [beats], ["echo", RECEIVES]], mmem=64, room=5).link(1, 2, delay=3, every=2).link(2, 3, lot=7, seed=9)
    run = run_network(network, ["tick 10"])
    assert run.script(comment="three\n\nmotes") == """# three
#
# motes
room 5
mote 1 blink --mmem 64
mote 2 --mmem 64 calls mmem-alloc 0 1, timer-set 0 10, wait, mmem-write 0 0 62, packet-send 0, timer-set 0 10
mote 3 echo --mmem 64 calls packet-open, wait, packet-read 0 1, packet-done
link 1 2 delay 3 every 2
link 2 3 delay 1 lot 7 seed 9
tick 10
"""
    assert run_network(Network(["relay"] * 2).link(1, 2, lot=1, seed=2**32 - 1)).script().endswith("lot 1 seed 4294967295\n")
    for few in (Network(rounds=5, room=1025), Network(rounds=16_777_215, room=1023)):
        assert run_network(few).script() == f"room {few.setup.room}\nrounds {few.setup.rounds}\n"
    for large in (Network(["relay"] * 2).line(lot=1, seed=2**32 - 1), Network(["relay"], rounds=2**32)):
        with pytest.raises(BadScenario, match="a number of a network's script is at most 4,294,967,295; this one is more: 4294967296"):
            run_network(large).script()
    with pytest.raises(BadScenario, match="a mote of a network's script has at most one list"):
        run_network(Network([[beats, "echo"]])).script()
    with pytest.raises(BadScenario, match="a line of a network's script has at most 1,024 bytes; this one has more: mote 2 calls "):
        run_network(Network(["hello", [[Print(bytes(64))] * 20]])).script()


# Links.

def pairs(network):
    return [(link.sender, link.receiver) for link in network.setup.links]


def both(*ways):
    return [pair for one, other in ways for pair in ((one, other), (other, one))]


def test_shapes():
    def four():
        return Network(["hello"] * 4)

    assert pairs(four().line()) == both((1, 2), (2, 3), (3, 4)) and pairs(four().line([2, 4])) == both((2, 4))
    assert pairs(four().ring()) == both((1, 2), (2, 3), (3, 4), (4, 1)) and pairs(four().line([3])) == []
    assert pairs(four().mesh()) == both((1, 2), (1, 3), (1, 4), (2, 3), (2, 4), (3, 4))
    assert pairs(four().grid(2)) == both((1, 2), (1, 3), (2, 4), (3, 4)) and pairs(four().grid(3)) == both((1, 2), (1, 4), (2, 3))
    lots = [link.loss for link in four().line([1, 2, 3], lot=5, seed=2**32 - 2).setup.links]
    assert lots == [Loss(lot=5, seed=seed) for seed in (2**32 - 2, 2**32 - 1, 2**32, 2**32 + 1)]
    # After the largest it is 0, as docs/network.md has it, also where the largest is that of the last link.
    for first, seeds in ((2**64 - 2, [2**64 - 2, 2**64 - 1]), (2**64 - 1, [2**64 - 1, 0])):
        assert [link.loss.seed for link in four().line([1, 2], lot=5, seed=first).setup.links] == seeds
    links = [Link(1, 2), Link(2, 1, 7, Loss(every=3))]
    assert list(four().links(links).setup.links) == links and len(four()) == 4


def test_motes_at_positions():
    places = [(0, 0), (3, 4), (3, 0), (30, 0)]
    network = Network(["hello"] * 4).disk(places, range=5, delay=math.ceil)
    assert [(link.sender, link.receiver, link.delay) for link in network.setup.links] == [
        (1, 2, 5), (2, 1, 5), (1, 3, 3), (3, 1, 3), (2, 3, 4), (3, 2, 4)]
    assert pairs(Network(["hello"] * 4).disk({1: (0.5,), 4: (1.25,)}, range=1)) == both((1, 4))
    # The nodes of a layout, from 0 on, and by names.
    assert pairs(Network(["hello"] * 4).disk({1: (0,), 0: (1,), 2: (9,)}, range=1)) == both((1, 2))
    assert pairs(Network(["hello"] * 4).disk({"a": (0,), "b": (9,), "c": (1,)}, range=1)) == both((1, 3))
    assert pairs(Network(["hello"] * 3).disk([(0,), (1e300,), (-1e300,)], range=math.inf)) == both((1, 2), (1, 3), (2, 3))
    assert pairs(Network(["hello"] * 3).disk([(0,), (1,), (1,)], range=0)) == both((2, 3))


def test_motes_near_each_other_are_found_among_many():
    """By the distances of all pairs; and many of them quickly."""
    for number in range(40):
        chance = random.Random(f"disk {number}")
        sides, reach = chance.choice((1, 2, 3, 4)), chance.choice((0.5, 1, 1, 2.75, 1e-9, 1e9))
        places = [tuple(chance.choice((chance.uniform(-6, 6), chance.randrange(-6, 7))) for _ in range(sides)) for _ in range(20)]
        near = [(one, other) for one in range(20) for other in range(one + 1, 20) if math.dist(places[one], places[other]) <= reach]
        assert pairs(Network(["hello"] * 20).disk(places, range=reach)) == both(*((one + 1, other + 1) for one, other in near)), number
    begun = time.process_time()
    network = Network(["hello"] * 4000).disk([(number % 64, number // 64) for number in range(4000)], range=1)
    for _ in range(16_000):
        network.link(1, 2)
    for _ in range(2000):
        network.add("hello")
    assert len(network) == 6000 and len(network.setup.links) == 31_746
    assert time.process_time() - begun < 2


def test_positions_of_numpy():
    numpy = pytest.importorskip("numpy", reason="no python3-numpy")
    for kind in ("float64", "float32", "int16"):
        network = Network(["hello"] * 3).disk(numpy.array([[0, 0], [3, 4], [30, 0]], dtype=kind), range=numpy.float32(5), delay=math.ceil)
        assert network.setup.links == (Link(1, 2, 5), Link(2, 1, 5))


class Graph:
    """What is used of a graph of networkx."""

    def __init__(self, nodes, edges, directed=False):
        self._nodes, self._edges, self._directed = nodes, edges, directed

    def nodes(self):
        return self._nodes

    def edges(self, data):
        assert data is True
        return self._edges

    def is_directed(self):
        return self._directed


def test_a_graph():
    def three():
        return Network(["hello"] * 3)

    assert pairs(three().graph(Graph("abc", [("a", "c", {}), ("b", "b", {})]))) == [(1, 3), (3, 1), (2, 2)]
    assert pairs(three().graph(Graph([0, 1, 2], [(0, 2, {})], directed=True))) == [(1, 3)]
    links = three().graph(Graph([3, 1], [(3, 1, {"delay": 4, "lot": 3, "seed": 8})]), every=2).setup.links
    assert links == (Link(3, 1, 4, Loss(lot=3, seed=8)), Link(1, 3, 4, Loss(lot=3, seed=9)))
    assert [link.loss.seed for link in three().graph(Graph("ab", [("a", "b", {})]), lot=9, seed=5).setup.links] == [5, 6]
    # A seed of an edge may be for the lot of all.
    links = three().graph(Graph("abc", [("a", "b", {"seed": 70}), ("b", "c", {})]), lot=9, seed=5).setup.links
    assert [link.loss for link in links] == [Loss(lot=9, seed=seed) for seed in (70, 71, 5, 6)]
    # Numbers from 0 on, in any order.
    assert pairs(three().graph(Graph([2, 0, 1], [(0, 2, {})], directed=True))) == [(1, 3)]


def test_a_graph_of_networkx():
    networkx = pytest.importorskip("networkx", reason="no python3-networkx")
    graph = networkx.path_graph(3)
    graph.edges[1, 2]["delay"] = 6
    assert [(link.sender, link.receiver, link.delay) for link in Network(["hello"] * 3).graph(graph, delay=2).setup.links] == [
        (1, 2, 2), (2, 1, 2), (2, 3, 6), (3, 2, 6)]
    assert pairs(Network(["hello"] * 3).graph(networkx.DiGraph([(3, 1)]))) == [(3, 1)]
    pytest.importorskip("numpy", reason="no python3-numpy")
    ring = networkx.cycle_graph(4)
    assert len(Network(["hello"] * 4).graph(ring).disk(networkx.circular_layout(ring), range=1.5).setup.links) == 16


# Packets.

def test_packets():
    """A header, and for each frame seconds, nanoseconds, and twice its length."""
    network = Network([beats])
    network.tick(300)
    head = bytes.fromhex("4d3cb2a1 0200 0400 00000000 00000000 ffff0000 e6000000")
    data = packets(network.frames())
    assert data[:24] == head and len(data) == 24 + 30 * 17
    # At 10 ticks of 1/128 s, and at 130.
    assert data[24:41] == struct.pack("<4I", 0, 78_125_000, 1, 1) + b"b"
    assert data[24 + 12 * 17:24 + 13 * 17] == struct.pack("<4I", 1, 15_625_000, 1, 1) + b"b"
    # At 10 ms, and at 130.
    data = packets(network.frames(), 1000)
    assert data[24:41] == struct.pack("<4I", 0, 10_000_000, 1, 1) + b"b"
    assert data[24 + 12 * 17:24 + 13 * 17] == struct.pack("<4I", 0, 130_000_000, 1, 1) + b"b"
    # 1 6/7 s, less than a nanosecond left out.
    assert packets([Frame(13, 1, b"a")], 7)[24:32] == struct.pack("<2I", 1, 857_142_857)


def test_the_last_second_of_packets():
    assert packets([Frame(2**32 - 1, 1, b"a")], 1)[24:32] == b"\xff\xff\xff\xff\0\0\0\0"
    with pytest.raises(BadInput, match="^clock 4294967296 is beyond what a file of packets can have$"):
        packets([Frame(2**32, 1, b"a")], 1)


def test_a_file_of_packets(tmp_path):
    network = Network(["relay", "relay"]).link(1, 2, delay=64)
    # A data frame of IEEE 802.15.4 with short addresses: frame control, sequence number, PAN, to, from, payload.
    frame = bytes.fromhex("4188 07 cdab ffff 0100 6869")
    network.frame(1, frame)
    network.tick(64)
    place = tmp_path / "frames.pcap"
    network.pcap(place)
    assert place.read_bytes() == packets([Frame(0, 1, frame), Frame(64, 2, frame)])
    network.so_far().pcap(place, ticks_of_a_second=100)
    assert place.read_bytes() == packets([Frame(0, 1, frame), Frame(64, 2, frame)], 100)
    if shutil.which("tshark") is None:
        pytest.skip("no tshark: passed, but for what it reads")
    network.pcap(place)
    fields = ["frame.time_epoch", "frame.len", "wpan.seq_no", "wpan.dst_pan", "wpan.dst16", "wpan.src16"]
    words = ["tshark", "-r", place, "-T", "fields", *(word for field in fields for word in ("-e", field))]
    output = subprocess.run(words, capture_output=True, text=True, check=True).stdout
    assert output == "".join(f"{time}00000000\t11\t7\t0xabcd\t0xffff\t0x0001\n" for time in ("0.0", "0.5"))


# What can't be.

def started():
    network = pair()
    network.start()
    return network


WRONG = [
    (lambda: Network("hello"), WrongType, "motes must be a list, not str"),
    (lambda: Network(5), WrongType, "motes must be a list, not int"),
    (lambda: Network(["frob"]), NoApplication, "mote 1: application 1 (process 4): no application 'frob'"),
    (lambda: Network(["hello", "hello"]).add("echo", "frob"), NoApplication, "mote 3: application 2 (process 5): no application 'frob'"),
    (lambda: Network([["hello"] * 17]), toarmuts.TooManyApplications, "17 applications; a mote has at most 16"),
    (lambda: Network([[Wait()]]), WrongType, "application 1 is the call Wait(): write a list of calls, [Wait()]"),
    (lambda: Network(["hello"], mmem=5), BadSizes, "mote 1: mmem is 5; a multiple of 4 from 4 to 65,536 is allowed"),
    (lambda: Network().add("hello", mmem=8, quota=8), BadSizes, "quota is 8; 2 of them (1 application and the frames) exceed mmem"),
    (lambda: Network(options=toarmuts.Options(quiet=True)).add("hello", options=toarmuts.Options(quiet=True)), MoteError, "never quiet"),
    (lambda: Network(room=-1), BadNetwork, "room is -1; 0 to 4,294,967,295 is allowed"),
    (lambda: Network(rounds="5"), WrongType, "rounds must be an int, not str"),
    (lambda: Network(["hello"]).link(1, 2), WrongType, "there is no mote 2; there are 1 to 1"),
    (lambda: Network().link(1, 1), WrongType, "the network has no motes"),
    (lambda: pair().link(1, 2, delay=0), BadNetwork, "a link's delay is 0; 1 to 4,294,967,295 is allowed"),
    (lambda: pair().link("1", 2), WrongType, "a link's sender must be an int, not str"),
    (lambda: pair().link(1, 2, every=0), BadNetwork, "every is 0; 1 to 4,294,967,295 is allowed"),
    (lambda: pair().link(1, 2, lot=65537), BadNetwork, "lot is 65537; 0 to 65,536 is allowed"),
    (lambda: pair().link(1, 2, every=2, lot=3), BadNetwork, "a link has one rule for losses: every or lot"),
    (lambda: pair().link(1, 2, every=2, seed=5), BadNetwork, "seed is given, and there is no lot that it is for"),
    (lambda: pair().line(seed=1), BadNetwork, "seed is given, and there is no lot that it is for"),
    (lambda: Loss(seed=5), BadNetwork, "seed is 5, and there is no lot that it is for"),
    (lambda: pair().graph(Graph("ab", [("a", "b", {"seed": 5})])), BadNetwork, "seed is given, and there is no lot that it is for"),
    (lambda: pair().graph(Graph("ab", [("a", "b", {"every": 2, "seed": 5})]), lot=3), BadNetwork, "seed is given, and there is no lot"),
    (lambda: pair().link(1, 2, lot=1, seed=2**64), BadNetwork, "seed is 18446744073709551616; 0 to 18,446,744,073,709,551,615 is allowed"),
    (lambda: pair().links({Link(1, 2)}), WrongType, "links must be a list, not set"),
    (lambda: pair().line({1, 2}), WrongType, "motes must be a list, not set"),
    (lambda: pair().line(5), WrongType, "motes must be a list, not int"),
    (lambda: Network({"relay"}), WrongType, "motes must be a list, not set"),
    (lambda: Network({"relay": 1}), WrongType, "motes must be a list, not dict"),
    (lambda: pair().links([(1, 2)]), WrongType, "links must be a list of Link, not of tuple"),
    (lambda: Link(1, 2, 1, "every 3"), WrongType, "a link's loss must be a Loss, not str"),
    (lambda: pair().ring(), BadNetwork, "a ring of 2 motes; at least 3 are needed"),
    (lambda: pair().grid(0), BadNetwork, "width is 0; 1 to 4,294,967,295 is allowed"),
    (lambda: pair().line([1, 3]), WrongType, "there is no mote 3; there are 1 to 2"),
    (lambda: pair().disk([(0, 0)], range=1), BadNetwork, "1 positions for 2 motes"),
    (lambda: pair().disk({3: (0, 0)}, range=1), BadNetwork, "a position of mote 3, which there isn't"),
    (lambda: pair().disk({1: "ab"}, range=1), WrongType, "the position of mote 1 must be a list of numbers, not 'ab'"),
    (lambda: pair().disk(5, range=1), WrongType, "positions must be a list or a dict, not int"),
    (lambda: pair().disk([(0,), (1,)], range="1"), WrongType, "range must be a number, not str"),
    (lambda: pair().disk([(0,), (1,)], range=float("nan")), BadNetwork, "range is nan; it must be at least 0"),
    (lambda: pair().disk([(0,), (1,)], range=-1), BadNetwork, "range is -1; it must be at least 0"),
    (lambda: pair().disk([(0,), (float("nan"),)], range=1), BadNetwork, "a coordinate of mote 2 is nan; it must be finite"),
    (lambda: pair().disk([(float("inf"),), (1,)], range=1), BadNetwork, "a coordinate of mote 1 is inf; it must be finite"),
    (lambda: pair().disk([(0,), (10**400,)], range=1), BadNetwork, "a coordinate of mote 2 is 1000"),
    (lambda: pair().disk([(0,), (1, 2)], range=1), BadNetwork, "the position of mote 1 has 1 coordinates, that of mote 2 has 2"),
    (lambda: pair().disk([(0,), (True,)], range=1), WrongType, "the position of mote 2 must be a list of numbers, not (True,)"),
    (lambda: pair().disk([0, 1], range=1), WrongType, "the position of mote 1 must be a list of numbers, not 0"),
    (lambda: pair().disk({(0,), (1,)}, range=1), WrongType, "positions must be a list or a dict, not set"),
    (lambda: Network(["hello"] * 4).graph(Graph([0, 2, 3], [])), BadNetwork, "a node 0, which is the number of no mote"),
    (lambda: Network(["hello"] * 4).graph(Graph([7, "a"], [])), BadNetwork, "a node 7, which is the number of no mote"),
    (lambda: pair().disk([(0,), (1,)], range=2, delay=lambda distance: distance), WrongType, "a link's delay must be an int, not float"),
    (lambda: pair().graph([(1, 2)]), WrongType, "a graph must be one of networkx, not list"),
    (lambda: pair().graph(Graph("abc", [])), BadNetwork, "a graph of 3 nodes for 2 motes"),
    (lambda: started().link(1, 2), MoteError, "the network was started: motes and links are added before its first input"),
    (lambda: started().add("hello"), MoteError, "the network was started"),
    (lambda: pair().mote(3), WrongType, "there is no mote 3; there are 1 to 2"),
    (lambda: pair().mote("1"), WrongType, "a mote's number must be an int, not str"),
    (lambda: pair().mote(1).due, MoteError, "the network wasn't started: `start` does that, or its first input"),
    (lambda: pair().frame(3, b"a"), WrongType, "there is no mote 3; there are 1 to 2"),
    (lambda: pair().frame(1, b""), BadInput, "frame of 0 bytes: 1 to 127 are allowed"),
    (lambda: pair().serial(1, "a"), WrongType, "serial must be bytes, not str"),
    (lambda: pair().tick(-1), BadInput, "tick -1: 0 to 4,294,967,295 is allowed"),
    (lambda: pair().at(-1), BadInput, "at -1: the clock is at 0 already"),
    (lambda: pair().feed(b"tick 1"), WrongType, "a line of a script must be a str, not bytes"),
    (lambda: pair().run(5), WrongType, "a network's script must be a str, bytes or a list of lines, not int"),
    (lambda: pair().run([b"tick 1"]), WrongType, "a line of a script must be a str, not bytes"),
    (lambda: pair().frames(3), WrongType, "there is no mote 3; there are 1 to 2"),
    (lambda: pair().sent("1"), WrongType, "a mote's number must be an int, not str"),
    (lambda: run_network(pair()).frames(3), WrongType, "there is no mote 3; there are 1 to 2"),
    (lambda: run_network(pair()).sent(0), WrongType, "there is no mote 0; there are 1 to 2"),
    (lambda: run_network(pair()).printed("1"), WrongType, "a mote's number must be an int, not str"),
    (lambda: NetworkTranscript("").sent("1"), WrongType, "a mote's number must be an int, not str"),
    (lambda: pair().mote(1).printed(3), WrongType, "there is no process 3; a mote has 4 to 19"),
    (lambda: Mote().printed("4"), WrongType, "a process must be an int or None, not str"),
    (lambda: pair().until(lambda network: False, most=-1), BadInput, "most is -1; 0 to 4,294,967,295 is allowed"),
    (lambda: Mote().until(lambda mote: False, most="5"), WrongType, "most must be an int, not str"),
    (lambda: pair().until(5), WrongType, "until takes a function of the mote or network, not int"),
    (lambda: Mote().until(None), WrongType, "until takes a function of the mote or network, not NoneType"),
    (lambda: run_network([]), WrongType, "run_network takes a Network, not list"),
    (lambda: run_network(pair(), check=1), WrongType, "check must be True or False, not int"),
    (lambda: pickle.dumps(pair()), MoteError, "a network in hand can't be copied or pickled; its run, `so_far()`, can"),
    (lambda: NetworkTranscript(5), WrongType, "a transcript must be a str or bytes, not int"),
    (lambda: NetworkTranscript("").mote("1"), WrongType, "a mote's number must be an int, not str"),
    (lambda: NetworkTranscript("").of("lost"), WrongType, "a kind must be a NetworkKind, not str"),
    (lambda: "lost" in NetworkTranscript(""), WrongType, "a transcript has entries: look for a text in its data"),
    (lambda: started().pcap("/nowhere", ticks_of_a_second=0), BadNetwork, "ticks_of_a_second is 0; 1 to 1,000,000,000 is allowed"),
]


@pytest.mark.parametrize("make, fault, reason", WRONG, ids=[reason[:60] for _, _, reason in WRONG])
def test_wrong_arguments_are_told(make, fault, reason):
    with pytest.raises(fault) as caught:
        make()
    assert str(caught.value).startswith(reason) or reason in str(caught.value)


def test_lines_of_a_script():
    assert read_input("", 2) is None and read_input("# 5", 2) is None
    for line in ("tick 0", "tick 4294967295", "1 serial 0a", "2 frame ff", "2 serial " + "00" * 256):
        line_read = read_input(line, 2)
        assert line_read is not None and line_read.text == line
    assert Transcript(pair().start().mote(1).data) == pair().start().mote(1)
