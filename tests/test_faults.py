"""The built programs with each growth of memory refused in turn, each read and write failing, and each one cut to a single byte."""

from pathlib import Path

import pytest

from fault_library import Faults
from tools import EXAMPLES, ROOT, program

NOTHING = Path("/dev/null")
SMALL_NETWORK = ROOT / "tests/tables/small.net"
# A program, its script, and its words: mote with the application that a sample is named after, and a network.
RUNS = [*(pytest.param("mote", script, [script.stem], id=script.stem) for script in sorted(EXAMPLES.glob("*.script"))),
        pytest.param("network", SMALL_NETWORK, [], id="network")]
of_each_run = pytest.mark.parametrize(("name", "script", "words"), RUNS)


@of_each_run
def test_no_fault(faults: Faults, name: str, script: Path, words: list[str]) -> None:
    """Without a fault the transcript is written. A run of mote asks for no memory: there are as many growths as without a script."""
    ran = faults(script, "REFUSE", 0, program(name), *words)
    assert (ran.status, ran.stderr) == (0, "") and ran.growths > 0
    if name == "mote":
        assert ran.stdout == script.with_suffix(".transcript").read_bytes()
        assert faults(NOTHING, "REFUSE", 0, program(name), *words).growths == ran.growths


@of_each_run
def test_refused_growths(faults: Faults, name: str, script: Path, words: list[str]) -> None:
    """Where memory is refused, nothing is written. In a network one list, of the motes' moments, asks once more, for less, and then all
    goes on."""
    whole = faults(script, "REFUSE", 0, program(name), *words)
    ran = [faults(script, "REFUSE", number, program(name), *words).told for number in range(1, whole.growths + 1)]
    assert ran.count(whole.told) <= (name == "network")
    assert [it for it in ran if it not in ((70, b"", f"{name}: out of memory\n"), whole.told)] == []


@of_each_run
def test_failing_transfers(faults: Faults, name: str, script: Path, words: list[str]) -> None:
    """Where a read or a write fails, that is reported, and the output is the transcript's beginning. Before a read mote writes all that is
    due: at the first one the lines of its boot, and at the second, at the end of the script, all."""
    whole = faults(script, "REFUSE", 0, program(name), *words)
    written: dict[int, list[bytes]] = {5: [], 6: []}
    for number in range(1, whole.transfers + 1):
        ran = faults(script, "FAIL", number, program(name), *words)
        assert (ran.status, ran.stderr) in ((5, f"{name}: read failed\n"), (6, f"{name}: write failed\n")), f"read or write {number}"
        assert whole.stdout.startswith(ran.stdout), f"read or write {number}"
        written[ran.status].append(ran.stdout)
    assert written[5] and written[6]
    if name == "mote":
        assert written[5] == [faults(NOTHING, "REFUSE", 0, program(name), *words).stdout, whole.stdout]


@of_each_run
def test_cut_transfers(faults: Faults, name: str, script: Path, words: list[str]) -> None:
    whole = faults(script, "REFUSE", 0, program(name), *words)
    for number in range(1, whole.wide + 1):
        assert faults(script, "CUT", number, program(name), *words).told == whole.told, f"cut {number}"
