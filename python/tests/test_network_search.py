"""Searches in networks: a fault that shows only where the third frame is lost is found, and made smaller; campaigns find it, too."""
import importlib.util
import pickle
import re
import subprocess
import sys

import pytest
from common import ROOT
from hypothesis import given, settings
from hypothesis import strategies as st
from hypothesis.stateful import run_state_machine_as_test
from networks import PROGRAM, read_network
from test_campaign import campaign

import toarmuts
from toarmuts import BadInput, BadNetwork, Link, Loss, Network, Print, Wait, WrongType, network_strategies, run_network
from toarmuts.campaign import again, make_network_case
from toarmuts.coverage import Cell, Coverage
from toarmuts.network_strategies import NetworkMachine, losses, network_inputs, network_scripts, networks

sys.path.insert(0, str(ROOT / "examples/python"))
import deliver  # noqa: E402  it is an example, and no package


def failure_of(machine):
    """The exception of a machine that fails."""
    with pytest.raises(Exception) as caught:
        run_state_machine_as_test(machine, settings=settings(max_examples=200, stateful_step_count=12))
    return caught.value, "\n".join(getattr(caught.value, "__notes__", []))


def machine_of(sending):
    """The protocol with a sender, over links that lose frames."""
    class Delivers(NetworkMachine):
        losses = network_strategies.losses()
        kinds = ("tick",)
        found = []
        on_failure = found.append

        def make(self):
            return Network([sending, deliver.receiver]).link(1, 2).link(2, 1)

        def look(self, lines):
            assert deliver.fault_of(self.network.printed(2)) is None

    return Delivers


def test_the_third_frame_is_lost():
    """By hand: the fault shows only there."""
    for every, printed in ((1, b""), (2, b"abd"), (3, b"abd"), (4, b"abc"), (5, b"abcd")):
        network = Network([deliver.sender, deliver.receiver]).link(1, 2, every=every).link(2, 1)
        assert run_network(network, ["tick 100"]).printed(2) == printed, every
        network = Network([deliver.repaired_sender, deliver.receiver]).link(1, 2, every=every).link(2, 1)
        assert run_network(network, ["tick 100"]).printed(2) == (b"" if every == 1 else b"abcd"), every


def test_a_machine_finds_the_fault_and_makes_it_smaller():
    machine = machine_of(deliver.sender)
    fault, output = failure_of(machine)
    assert isinstance(fault, AssertionError) and machine.found[-1] in output
    network, inputs = read_network(machine.found[-1])
    # The smallest: one link loses frames, and the clock goes on once.
    assert [link.loss for link in network.setup.links] == [Loss(every=2), Loss()] and len(inputs) == 1
    assert re.fullmatch("tick [0-9]+", inputs[0])
    run = run_network(network, inputs)
    assert deliver.fault_of(run.printed(2)) == "a letter is left out" and len(run.lost()) == 2
    if PROGRAM.exists():
        done = subprocess.run([PROGRAM], input=machine.found[-1], capture_output=True, text=True, check=False)
        assert (done.returncode, done.stdout) == (0, run.text)


def test_a_machine_finds_nothing_where_nothing_is_wrong():
    machine = machine_of(deliver.repaired_sender)
    run_state_machine_as_test(machine, settings=settings(max_examples=30, stateful_step_count=12))
    assert machine.found == []


def raises():
    stimulus = yield Wait()
    while stimulus != toarmuts.Event(toarmuts.EventCode.SERIAL_LINE, b"off"):
        stimulus = yield Wait()
    raise KeyError("off")


def chatty():
    while True:
        yield Print(bytes(64))
        yield Wait()


@pytest.mark.parametrize("applications, words", [
    ([raises], ["# ApplicationError: mote 2, process 4 received SERIAL_LINE b'off': KeyError: 'off'", "2 serial 6f66660a"]),
    ([raises, "echo"], ["# no file can have this run: a mote of a network's script has at most one list", "2 > serial 6f66660a"]),
])
def test_a_machine_tells_of_an_application_that_raises(applications, words):
    class Raises(NetworkMachine):
        texts = ["on", "off"]
        found = []
        on_failure = found.append

        def make(self):
            return Network(["blink", applications])

    fault, output = failure_of(Raises)
    assert isinstance(fault, toarmuts.ApplicationError) and fault.mote == 2
    for word in words:
        assert word in Raises.found[-1] and word in output


def test_a_machine_without_a_network():
    with pytest.raises(NotImplementedError, match="a NetworkMachine makes its network in `make`"):
        NetworkMachine()


@settings(max_examples=60)
@given(data=st.data())
def test_networks_are_drawn(data):
    network = data.draw(networks(["relay", "blink", ["echo", "hello"]], max_size=4, max_delay=5))
    assert 1 <= len(network) <= 4 and all(link.delay <= 5 for link in network.setup.links)
    script = data.draw(network_scripts(len(network), max_size=5))
    run = run_network(network, script)
    assert run.finished or run.text.endswith("halt\n")
    assert sum(run.transcript.mote(number).data.count(b"\n") for number in range(1, len(network) + 1)) <= len(run.transcript)
    if run.finished:
        with Network.of(network.setup) as held:
            held.run(script)
            held.start()
            assert held.transcript == run.transcript


@given(loss=losses(most_every=3, most_lot=10))
def test_losses_are_drawn(loss):
    assert loss == Loss() or (loss.every or 0) <= 3 and (loss.lot or 0) <= 10


def test_kinds_of_inputs():
    @given(line=network_inputs(3, kinds=("tick",), max_ticks=4))
    def ticks(line):
        assert line in {f"tick {number}" for number in range(5)}

    ticks()


@pytest.mark.parametrize("make, fault, reason", [
    (lambda: networks("hello"), WrongType, "motes must be a list, not str"),
    (lambda: networks([]), BadInput, "no motes: at least one is needed"),
    (lambda: networks(["hello"], max_size=0), BadNetwork, "max_size is 0; 1 to"),
    (lambda: network_inputs(0), BadNetwork, "motes is 0; 1 to"),
    (lambda: network_inputs(2, kinds=("frob",)), BadInput, "no kind of input 'frob'; there are tick, serial, text, frame"),
    (lambda: network_inputs(2, kinds=()), BadInput, "no kinds of inputs"),
    (lambda: losses(most_lot=65537), BadNetwork, "most_lot is 65537; 0 to 65,536 is allowed"),
    (lambda: make_network_case(["hello"]), WrongType, "the network of a case must be a Network, not list"),
    (lambda: make_network_case(Network(), "tick 1"), WrongType, "the script of a network's case must be a list of lines"),
])
def test_wrong_arguments_are_told(make, fault, reason):
    with pytest.raises(fault) as caught:
        make()
    assert str(caught.value).startswith(reason)


# Campaigns.

WORDS = ("deliver.py:Delivery", "--seeds", "0:4", "--count", "20")


def test_a_campaign_finds_the_fault_with_any_number_of_processes(tmp_path):
    found = [campaign(tmp_path / str(jobs), *WORDS, "--jobs", jobs) for jobs in (1, 2)]
    assert found[0] == found[1]
    status, output, files = found[0]
    assert status == 1 and "4 seeds, 80 runs" in output and list(files) == ["a-letter-is-left-out.net"]
    (text,) = files.values()
    network, inputs = read_network(text)
    assert len(inputs) == 1 and [link.loss == Loss() for link in network.setup.links] == [False, True]
    assert deliver.fault_of(run_network(network, inputs).printed(2)) == "a letter is left out"
    assert again(deliver.Delivery(), text) == "a letter is left out" and again(deliver.RepairedDelivery(), text) is None
    assert campaign(tmp_path / "again", "deliver.py:RepairedDelivery", "--again", tmp_path / "1/a-letter-is-left-out.net")[0] == 0


@pytest.mark.skipif(importlib.util.find_spec("distributed") is None, reason="no python3-distributed")
def test_dask_changes_nothing(tmp_path):
    assert campaign(tmp_path / "dask", *WORDS, "--jobs", 2, "--dask", "local") == campaign(tmp_path / "here", *WORDS, "--jobs", 1)


def test_a_campaign_finds_nothing_where_nothing_is_wrong(tmp_path):
    words = ("deliver.py:RepairedDelivery", "--seeds", "0:2", "--count", "20", "--jobs", 1, "--coverage")
    status, output, files = campaign(tmp_path / "none", *words)
    assert status == 0 and files == {} and "2 seeds, 40 runs" in output and re.search("packet-send +done [0-9]+", output)


def test_a_case_is_made_smaller():
    """Lines, links, losses and the last motes are left out, as long as it fails."""
    network = Network(["relay"] * 4).mesh(delay=2, every=9).link(1, 1, delay=3)
    case = make_network_case(network, ["tick 1", "2 frame 61", "tick 5", "1 serial 0a"])

    def fails(smaller):
        return b"1 > frame 61" in smaller.run().transcript.data

    small, tries = case.shrink(fails)
    assert small.script == ("2 frame 61", "tick 5") and small.setup.links == (Link(2, 1, 2),) and len(small.setup.motes) == 2
    assert tries > 10 and fails(small) and case.shrink(lambda smaller: False)[0] == case
    assert pickle.loads(pickle.dumps(small.run())).text == small.run().text


def test_a_file_with_more_motes_than_are_drawn():
    case = make_network_case(Network(["hello"]), [])
    with pytest.raises(toarmuts.BadScenario, match="the target draws another case than the file's, which has 3 motes"):
        case.with_file("mote 1..3 hello\n")
    made = case.with_file("# tick 4\nmote 1 hello\nlink 1 1 delay 3 lot 5 seed 6\nroom 7\n\ntick 5\ntick 6\r\n\x0ctick 7\u2028\n")
    assert made.script == ("tick 5", "tick 6\r", "\x0ctick 7\u2028") and made.setup.links == (Link(1, 1, 3, Loss(lot=5, seed=6)),)


def test_coverage_of_a_network():
    run = run_network(Network(["blink", "echo"]), ["tick 10", "2 serial 610a"])
    coverage, by_mote = Coverage().add(run), Coverage().add(run.mote(1)).add(run.mote(2))
    assert coverage == by_mote and coverage[Cell("input", "tick")] == 2 and coverage[Cell("print", "done")] == 2
