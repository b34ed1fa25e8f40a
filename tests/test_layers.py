"""Layers by themselves: the program in tests/layers, in Rattle without contracts, which `rt try` builds once and runs on all cases, so
nothing of it is proved.

Its sources end in `.rt.txt`, since `rt ci` refuses a `.rt` file that it doesn't prove. They are copied beside the crates' sources.
"""

import json
import re
import shutil
from itertools import islice
from pathlib import Path
from typing import Iterator

import pytest

from plain_memory import Memory, wrong_lines
from run_laws import broken_laws
from run_replay import turn_in
from tools import CRATES, ROOT, needs, once, output_of, run, succeed

SOURCES = sorted((ROOT / "tests/layers").glob("*.rt.txt"))
FILES = [source.name.removesuffix(".rt.txt") for source in SOURCES if "fn check_all(" in source.read_text(encoding="utf-8")]
USED = ("mote_types arrayvec arena_core mmem_core heap_core node_memory process_core timer_core device_core kernel_core mote_text mote_run "
        "mote_kit mote_apps anyhow")
# The calls that allocate memory, in the order in which the program makes them, and its last case of a refused growth, which none of them
# makes.
ALLOCATING = ["Arena::new", "Scheduler::new", "SerialLine::new", "NodeMemory::new", "Kernel::boot"]
LAST_GROWTH = 10
HEADERS = (16, 8)
LAST_CALLS = {"exit": "exit", "broadcast": "broadcast 141 -"}
CASES = ["checks", *(f"growth {number}" for number in range(LAST_GROWTH + 1)), *(f"runs {header} {last}" for header in HEADERS
                                                                                 for last in LAST_CALLS)]
SEEDS = range(1, 51)
APPLICATIONS = 8
TICKS = {"exit": 100, "broadcast": 2}
# What an application at random calls by its choice, on a process, or on the timer, handle, block or pool of a number.
CHOICES = ("wait", "post-synch {process} 140 -", "kill {process}", "start {process}", "post {process} 141 -", "poll {process}",
           "timer-set {name} {size}", "callback-set {name} {size}", "mmem-alloc {name} {size}", "mmem-free {name}",
           "mmem-read {name} 0 {size}", "heap-alloc {name} {size}", "heap-realloc {name} {size}", "heap-free {name}", "memb-alloc {name}")


def crate_in(place: Path) -> Path:
    """The folder of the program's crate, in a copy of the tree."""
    lines = (ROOT / "crates.txt").read_text(encoding="utf-8")
    (place / "crates.txt").write_text(f"{lines}layers: {USED}\n", encoding="utf-8")
    for source in CRATES.glob("*/src"):
        shutil.copytree(source, place / source.relative_to(ROOT))
    room = place / "crates/layers"
    (room / "src").mkdir(parents=True)
    for source in SOURCES:
        shutil.copy(source, room / "src" / source.stem)
    return room


def run_cases(place: Path) -> None:
    """Builds the program, runs all cases, and stores what each prints in the file `outputs`. Only the cases of growths come to the one that
    is refused."""
    place.mkdir()
    room, cases = crate_in(place), place / "cases"
    cases.mkdir()
    for case in CASES:
        (cases / case.replace(" ", "-")).write_text(case, encoding="utf-8")
    refused, = re.findall(r"const REFUSED: u32 = ([\d_]+);", (ROOT / "tests/layers/growths.rt.txt").read_text(encoding="utf-8"))
    ran = run("rt", "try", "--steps", "1", "--seconds", "900", "--fail-alloc", refused.replace("_", ""), "--cases", cases, cwd=room)
    ended = re.findall(r"^case=(\S+) run=ended status=0 ", ran.stderr.decode(), re.M)
    assert ran.returncode == 0 and sorted(ended) == sorted(path.name for path in cases.iterdir()), output_of(ran)
    parts = re.split(r"^== ([a-z]\S*)\n", ran.stdout.decode(), flags=re.M)
    (place / "outputs").write_text(json.dumps(dict(zip(parts[1::2], parts[2::2]))), encoding="utf-8")


@pytest.fixture(scope="module")
def outputs(shared: Path) -> dict[str, str]:
    """What the program prints in each case."""
    found: dict[str, str] = json.loads((once(shared / "layers", run_cases) / "outputs").read_text(encoding="utf-8"))
    return {case: found[case.replace(" ", "-")] for case in CASES}


@needs("rt")
def test_layers(outputs: dict[str, str]) -> None:
    """The program prints a line for each file. The first check that fails is named in it."""
    lines = outputs["checks"].splitlines()
    assert [line.partition(":")[0] for line in lines] == FILES
    assert [line for line in lines if not re.fullmatch(r"\w+: [1-9]\d* checks pass", line)] == []


@needs("rt")
def test_refused_growths(outputs: dict[str, str]) -> None:
    """With ample memory each call that allocates succeeds. With each growth refused in turn, that call alone fails. Bad sizes are named
    first, whatever is refused."""
    without_memory = []
    for number in range(LAST_GROWTH + 1):
        outcomes = dict(re.findall(r"^(.*): (.*)$", outputs[f"growth {number}"], re.M))
        assert [outcomes.pop(f"{call}, 4,098 bytes") for call in ALLOCATING[3:]] == ["bad sizes"] * 2
        assert list(outcomes) == ALLOCATING and set(outcomes.values()) <= {"made", "no memory"}
        without_memory.append([call for call, outcome in outcomes.items() if outcome == "no memory"])
    assert without_memory[0] == without_memory[-1] == []
    refused = [call for call, in without_memory[1:-1]]
    assert sorted(refused, key=ALLOCATING.index) == refused and set(refused) == set(ALLOCATING)


def drawn_calls(x: int, last: str) -> Iterator[str]:
    """What an application at random calls that begins with this number."""
    while True:
        x = (x * 1103515245 + 12345) % 2**31
        name, size = x // 2**20 % 8, x // 2**23
        yield (*CHOICES, LAST_CALLS[last])[x // 2**16 % 16].format(process=4 + name, name=name, size=size)


def check_run(seed: int, last: str, header: int, end: str, transcript: str) -> None:
    lines = transcript.splitlines()
    is_cut = lines[-1] == "..."
    if is_cut:
        # As after a halt, the laws want nothing more.
        lines[-1] = "halt"
    else:
        assert end == ("halted" if lines[-1] == "halt" else "finished")
    ticks = [line for line in lines if line.startswith(">")]
    assert ticks == ["> tick 7"] * (len(ticks) if lines[-1] == "halt" else TICKS[last])
    turns = [turn for turn in map(turn_in, lines) if turn]
    for number in range(APPLICATIONS):
        calls = [turn.call for turn in turns if turn.pid == 4 + number]
        assert calls == list(islice(drawn_calls(seed + number, last), len(calls)))
    text = "\n".join(lines)
    assert wrong_lines(text, Memory(256, 512, header, None)) == []
    assert broken_laws(APPLICATIONS, text) == {}


@needs("rt")
@pytest.mark.parametrize("last", LAST_CALLS)
@pytest.mark.parametrize("header", HEADERS)
def test_hostile_applications(outputs: dict[str, str], header: int, last: str) -> None:
    """Fifty motes, each with eight applications that make calls at random: a plain replay has each reply to a call on memory, the laws of
    memory, events and timers hold, and the applications call what their numbers say. Of runs with broadcasts only the first lines are
    checked."""
    _, *parts = re.split(r"^== (\d+) (.*)\n", outputs[f"runs {header} {last}"], flags=re.M)
    runs = list(zip(map(int, parts[::3]), parts[1::3], parts[2::3]))
    assert [seed for seed, _, _ in runs] == list(SEEDS)
    for seed, end, transcript in runs:
        assert end in ("finished", "halted")
        check_run(seed, last, header, end, transcript)


@needs("rt")
def test_layout(tmp_path: Path) -> None:
    room = crate_in(tmp_path)
    succeed("rt", "fmt", cwd=room)
    assert [source.name for source in SOURCES if (room / "src" / source.stem).read_bytes() != source.read_bytes()] == []


@pytest.mark.parametrize("source", SOURCES, ids=lambda source: str(source.name))
def test_each_function_is_called(source: Path) -> None:
    text = source.read_text(encoding="utf-8")
    assert [name for name in re.findall(r"^fn (\w+)", text, re.M) if name != "main" and len(re.findall(rf"\b{name}\b", text)) == 1] == []
