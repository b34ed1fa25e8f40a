"""The value change dump of `mote_picture --vcd`: for every stored transcript its values at each line are those that a replay tells."""

from pathlib import Path
from typing import Any

import pytest

from page_data import first_difference, picture
from plain_memory import rounded
from run_replay import State, answers_in, states_of
from stored_runs import ALL, SAMPLES, StoredRun, stored_run
from tools import needs, succeed
from value_changes import Dump, NoDump, read_dump


def heap_stats_in(lines: list[str], answers: list[Any]) -> dict[int, int]:
    told = {}
    for number, line in enumerate(lines):
        answer = answers[number]
        if line.endswith(" -> heap-stats") and answer is not None:
            allocated, overhead = lines[answer].split(" ")[3:5]
            told[number] = int(allocated) + int(overhead)
    return told


def value_of(state: State, pid: int) -> str:
    if state.running == pid:
        return "3"
    return "2" if pid in state.active else "1" if pid in state.alive else "0"


def values_wanted(state: State, sizes: dict[str, int]) -> dict[str, str]:
    """The values of the signals at a line, but for those of the heap."""
    taken = sum(rounded(len(data)) for data in state.memory.managed.blocks.values())
    values = {
        "running": "z" if state.running is None else str(state.running), "queue": str(len(state.queue)),
        "timers": str(len(state.armed())), "managed_free": str(sizes["mmem"] - taken),
    }
    return {**values, **{f"process_{pid}": value_of(state, pid) for pid in range(4, 20)}}


def times_of(states: list[State], second: int) -> list[int]:
    """The time of each line: the lines at one clock follow one another."""
    times: list[int] = []
    for number, state in enumerate(states):
        is_first = number == 0 or states[number - 1].clock != state.clock
        times.append(state.clock * second if is_first else times[-1] + 1)
    return times


def check_values(dump: Dump, run: StoredRun, states: list[State]) -> None:
    sizes = {"mmem": 4096, "heap": 4096, **{key.lstrip("-"): int(value) for key, value in zip(run.sizes[::2], run.sizes[1::2])}}
    stats = heap_stats_in(run.lines, answers_in(run.lines))
    times = times_of(states, dump.second)
    told, wanted = [], []
    for number, (time, state) in enumerate(zip(times, states)):
        values = values_wanted(state, sizes)
        if number in stats:
            values["heap_free"] = str(sizes["heap"] - stats[number])
        wanted.append({signal: value for signal, value in values.items() if signal in dump.signals})
        told.append({signal: dump.signals[signal].at(time) for signal in wanted[-1]})
    assert not first_difference(told, wanted)
    # The last line of a clock comes before the next clock, and behind it nothing takes a turn.
    ends = [time + 1 for number, time in enumerate(times) if number + 1 == len(times) or states[number + 1].clock != states[number].clock]
    assert all(end % dump.second and dump.signals["running"].at(end) == "z" for end in ends), "no rest at the end of a clock"
    pids = {int(line.split(" ")[0]) for line in run.lines if " -> " in line}
    assert {f"process_{pid}" for pid in pids} <= set(dump.signals), "a process without a signal"


@pytest.mark.parametrize("name", ALL)
def test_dump(name: str) -> None:
    """The dump of a stored transcript; there is none of a quiet one."""
    run = stored_run(name)
    told = picture(["--vcd", *run.sizes], run.transcript)
    if run.looks_quiet:
        assert (told.returncode, told.stdout) == (2, b"")
        assert told.stderr == b"mote_picture: a quiet transcript tells no clock: --vcd needs the whole one\n"
    else:
        assert (told.returncode, told.stderr) == (0, b"")
        check_values(read_dump(told.stdout.decode()), run, states_of(run.lines))


@needs("vcd2fst")
@pytest.mark.parametrize("name", SAMPLES)
def test_viewer(tmp_path: Path, name: str) -> None:
    """The samples' dumps, by the reader that GTKWave has."""
    dump, made = tmp_path / "run.vcd", tmp_path / "run.fst"
    dump.write_bytes(picture(["--vcd", name.partition(".")[0]], stored_run(name).transcript).stdout)
    succeed("vcd2fst", dump, made)
    assert made.stat().st_size > 0


def test_part() -> None:
    told = picture(["--vcd", "--from", "5", "--to", "9"], "4 synch 129 - -> wait\n> tick 5\n> tick 5\n")
    assert [line for line in told.stdout.decode().splitlines() if line[0] == "#"] == ["#50", "#60"]


def test_small_dump() -> None:
    """A dump whose text is written here by the rules."""
    transcript = "4 synch 129 - -> timer-set 0 2\n4 answer done -> wait\n> tick 2\n4 event 136 0 -> wait\n"
    told = picture(["--vcd", "it's-me"], transcript).stdout.decode()
    head, _, values = told.partition("$enddefinitions $end\n")
    names = [words.split(" ")[4] for words in head.splitlines() if words.startswith("$var ")]
    assert names == ["running", "queue", "managed_free", "heap_free", "timers", "process_4_it_s_me"]
    assert "$timescale 100 ms $end\n" in head
    assert values == ("#0\nb100 !\nb0 \"\nb1000000000000 #\nb1000000000000 $\nb1 %\nb11 &\n#2\nbz !\nb1 &\n"
                      "#21\nb100 !\nb0 %\nb11 &\n#22\nbz !\nb1 &\n#30\n")


# ---- The reader of these tests ----

GOOD = ("$timescale 10 us $end\n$var reg 2 ! a $end\n$var reg 1 \" b $end\n$enddefinitions $end\n"
        "#0\nb10 !\nbx \"\n#5\nb0 !\nb1 \"\n#7\nb11 !\n")
SPOILT = {
    "a time once more": ("#7", "#5"), "a time that is less": ("#7", "#4"), "too wide": ("b11 !", "b111 !"), "no signal": ("b11 !", "b11 ?"),
    "a value twice": ("b11 !", "b0 !"), "a change twice": ("b0 !\n", "b0 !\nb1 !\n"), "no digits": ("b11 !", "b12 !"),
    "a letter twice": ("1 \" b", "1 ! b"), "a name twice": ("\" b", "\" a"), "no name": ("\" b", "\" b-c"),
    "before all times": ("#0\n", ""), "no end of declarations": ("$enddefinitions $end\n", ""), "no kind of signal": ("reg 2", "wire 2"),
    "a malformed line": ("#5\n", "#5\n\n"),
}


def test_reader() -> None:
    dump = read_dump(GOOD)
    assert (dump.second, dump.times) == (100_000, [0, 5, 7])
    assert [dump.signals["a"].at(time) for time in (0, 4, 5, 6, 7, 99)] == ["2", "2", "0", "0", "3", "3"]
    assert dump.signals["b"].at(4) == "x"


@pytest.mark.parametrize("name", SPOILT)
def test_no_dump(name: str) -> None:
    before, after = SPOILT[name]
    with pytest.raises(NoDump):
        read_dump(GOOD.replace(before, after, 1))
