"""The built program network on random networks: mote by mote beside `mote` and `scenario`, and a replay in lists that finds each arrival.
The same networks as a script, as a scenario file, from C and from Python give the same bytes.

The gate tries a few networks. For more, TOARMUTS_NETWORKS is their number, and TOARMUTS_NETWORKS_FROM the first one's (not of those that
are made in C):

    TOARMUTS_NETWORKS=10000 /usr/bin/python3 -m pytest -n auto tests/test_network_random.py
    TOARMUTS_NETWORKS=2000 /usr/bin/python3 -m pytest tests/test_network_random.py -k all_ways
"""

import os
import random
from collections import defaultdict
from dataclasses import dataclass, field
from pathlib import Path
from typing import Callable

import pytest

import test_library
import test_python
from tools import all_hold, program, run, succeed, with_sanitizers

NETWORKS = int(os.environ.get("TOARMUTS_NETWORKS", "120"))
FIRST = int(os.environ.get("TOARMUTS_NETWORKS_FROM", "0"))
PARTS = 8
MADE_IN_C = int(os.environ.get("TOARMUTS_NETWORKS", "60"))
# Runs the networks of a folder in Python, by the reader of scenario files, and writes what each comes to.
IN_PYTHON = """
import pathlib, sys, toarmuts
for script in pathlib.Path(sys.argv[1]).glob("*.net"):
    scenario, = toarmuts.read_scenarios("network\\n" + script.read_text())
    script.with_suffix(".python").write_bytes(scenario.run().transcript.data)
"""
sanitized, environments = test_library.sanitized, test_python.environments
APPLICATIONS = ("hello", "blink", "echo", "relay", "ping", "churn")
BEATS = {"blink": 10, "ping": 5}
CALLS = (
    "wait", "wait", "wait", "packet-open", "packet-read 0 1", "packet-done", "packet-count", "mmem-alloc 0 3", "mmem-alloc 1 9",
    "mmem-write 0 0 0a0b0c", "mmem-write 1 3 01020304", "packet-send 0", "packet-send 0", "packet-send 1", "mmem-free 0", "timer-set 0 4",
    "timer-set 1 17", "timer-reset 0", "timer-stop 1", "timer-restart 1", "callback-set 0 6", "clock", "print 6869", "post 4 140 7",
    "broadcast 141 x61", "poll 4", "post-synch 5 150 -", "heap-alloc 0 40", "memb-alloc 1", "alloc-event", "start 5", "kill 5", "exit",
)


@dataclass
class Mote:
    """A mote that was drawn: names of applications, calls of one more application, and sizes."""

    names: list[str]
    calls: list[str] | None
    sizes: dict[str, int]

    def words(self) -> list[str]:
        return [*self.names, *(word for name, size in self.sizes.items() for word in (f"--{name}", str(size)))]

    def line(self, number: int) -> str:
        calls = [] if self.calls is None else ["calls", *([", ".join(self.calls)] if self.calls else [])]
        return " ".join(["mote", str(number), *self.words(), *calls])

    def scenario(self, number: int, inputs: list[str]) -> str:
        calls = [] if self.calls is None else [f"calls {', '.join(self.calls)}".rstrip()]
        sizes = [f"{name} {size}" for name, size in self.sizes.items()]
        return "\n".join([f"== {number}", *(f"app {name}" for name in self.names), *calls, *sizes, *inputs]) + "\n"


@dataclass
class Drawn:
    motes: list[Mote]
    links: list[tuple[int, int, int, str]]
    room: int
    inputs: list[str]

    def script(self) -> str:
        setup = [mote.line(number) for number, mote in enumerate(self.motes, 1)]
        setup += [f"link {a} {b} delay {delay} {loss}".rstrip() for a, b, delay, loss in self.links]
        return "".join(line + "\n" for line in [*setup, f"room {self.room}", "rounds 3000", *self.inputs])


def drawn_loss(rng: random.Random) -> str:
    return rng.choice(("", "", f"every {rng.randint(1, 4)}", f"lot {rng.randrange(65537)} seed {rng.randrange(1000)}"))


def drawn_mote(rng: random.Random) -> Mote:
    names = [rng.choice(APPLICATIONS) for _ in range(rng.choice((0, 1, 1, 1, 2, 3)))]
    calls = [rng.choice(CALLS) for _ in range(rng.randrange(40))] if rng.randrange(3) == 0 else None
    if rng.randrange(150) == 0:
        names.append("clock-watcher")
    sizes = {"mmem": 4 * rng.randint(1, 40)} if rng.randrange(4) == 0 else {}
    if rng.randrange(8) == 0:
        # Room for the quotas of five applications and of the frames.
        sizes = {"mmem": 400, "quota": 4 * rng.randint(1, 16), "header": 8}
    return Mote(names, calls, sizes)


def drawn_input(rng: random.Random, count: int) -> str:
    mote, kind = rng.randint(1, count), rng.randrange(4)
    data = bytes(rng.randrange(256) for _ in range(rng.choice((1, 2, 12, 127)))).hex()
    return (f"tick {rng.choice((0, 1, 3, 7, 30))}", f"tick {rng.randint(1, 12)}", f"{mote} frame {data}", f"{mote} serial {data}0a")[kind]


def drawn_network(seed: int) -> Drawn:
    rng = random.Random(seed)
    count = rng.randint(2, 12)
    motes = [drawn_mote(rng) for _ in range(count)]
    links = [(rng.randint(1, count), rng.randint(1, count), rng.randint(1, 12), drawn_loss(rng)) for _ in range(rng.randrange(2 * count))]
    return Drawn(motes, links, rng.choice((1024, 1024, 12, 3)), [drawn_input(rng, count) for _ in range(rng.randint(1, 12))])


class Way:
    """A link of the replay: where it leads, its delay, its rule, and the frames so far or the number drawn last."""

    def __init__(self, to: int, delay: int, loss: str) -> None:
        self.to, self.delay = to, delay
        words = loss.split()
        self.rule, self.number = (words[0], int(words[1])) if words else ("", 0)
        self.state = int(words[3]) if self.rule == "lot" else 0

    def loses(self) -> bool:
        if self.rule == "every":
            self.state += 1
            return self.state % self.number == 0
        if self.rule == "lot":
            self.state = (self.state * 6364136223846793005 + 1442695040888963407) % 2 ** 64
            return self.state >> 48 < self.number
        return False


@dataclass
class Replay:
    """A medium of plain lists that follows a transcript: what was sent arrives, in its moment and in order, and nothing else does."""

    drawn: Drawn
    clock: int = 0
    # When each frame arrives, the number of its sending, sender, receiver, bytes.
    flying: list[tuple[int, int, int, int, str]] = field(default_factory=list)
    sent: int = 0
    awaited: list[str] = field(default_factory=list)
    clocks: dict[int, int] = field(default_factory=lambda: defaultdict(int))
    halted: set[int] = field(default_factory=set)
    ways: dict[int, list[Way]] = field(default_factory=lambda: defaultdict(list))

    def __post_init__(self) -> None:
        for a, b, delay, loss in self.drawn.links:
            self.ways[a].append(Way(b, delay, loss))
        split = [line.split() for line in self.drawn.inputs]
        self.outside = [(int(words[0]), f"> {words[1]} {words[2]}") for words in split if words[0] != "tick"]
        self.target = sum(int(words[1]) for words in split if words[0] == "tick")
        # Without a list of calls in the same mote nothing stops these.
        self.beating = [(number, BEATS[name]) for number, mote in enumerate(self.drawn.motes, 1) if mote.calls is None
                        for name in mote.names if name in BEATS]

    def follow(self, lines: list[str]) -> None:
        for line in lines:
            first, _, rest = line.partition(" ")
            if self.awaited:
                assert line == self.awaited.pop(0), line
            elif first == "=":
                self.go_on(int(rest))
            elif first == "missed":
                self.miss(*rest.split())
            else:
                self.follow_mote(int(first), rest)
        assert not self.awaited

    def follow_mote(self, mote: int, line: str) -> None:
        if line.startswith("note sent "):
            self.send(mote, line.split()[2])
        elif line.startswith("> tick "):
            self.clocks[mote] += int(line.split()[2])
            assert self.clocks[mote] == self.clock, "a mote is told another time than the network's"
        elif line.startswith(("> frame ", "> serial ")):
            assert self.clocks[mote] == self.clock, "a mote hears before it is told the time"
            self.hear(mote, line)
        elif line == "halt":
            self.halted.add(mote)

    def go_on(self, clock: int) -> None:
        """The clock advances: no arrival and no beat is skipped."""
        assert self.clock < clock <= self.target
        assert not [flight for flight in self.flying if flight[0] < clock], "time went on before an arrival"
        for mote, beat in self.beating:
            assert mote in self.halted or clock <= (self.clock // beat + 1) * beat, "a timer waits"
            assert mote in self.halted or self.clocks[mote] // beat == self.clock // beat, "a timer waited"
        self.clock = clock

    def send(self, mote: int, data: str) -> None:
        """A mote sends: over each of its links the frame is carried or lost, and that is written."""
        for way in self.ways[mote]:
            if way.loses():
                self.awaited.append(f"lost {mote} {way.to}")
            elif len(self.flying) >= self.drawn.room:
                self.awaited.append(f"full {mote} {way.to}")
            else:
                self.flying.append((self.clock + way.delay, self.sent, mote, way.to, data))
                self.sent += 1

    def arrives(self, to: int, data: str | None, sender: int | None = None) -> bool:
        """Removes the frame that arrives next, if it is this one."""
        due = sorted(flight for flight in self.flying if flight[0] <= self.clock)
        if not due or due[0][3] != to or data not in (None, due[0][4]) or sender not in (None, due[0][2]):
            return False
        assert due[0][0] == self.clock, "a frame is late"
        self.flying.remove(due[0])
        return True

    def hear(self, mote: int, line: str) -> None:
        """A mote is handed a frame that arrives, or the next input from outside."""
        assert mote not in self.halted
        if not self.arrives(mote, line.split()[2] if line.startswith("> frame ") else ""):
            assert self.outside and self.outside.pop(0) == (mote, line), f"nobody sent {line} to {mote}"

    def miss(self, sender: str, receiver: str) -> None:
        assert int(receiver) in self.halted
        if sender == "-":
            assert self.outside.pop(0)[0] == int(receiver)
        else:
            assert self.arrives(int(receiver), None, int(sender)), "nothing arrives"

    def finish(self) -> None:
        """At the end of a script no arrival is left, all inputs came, and the clock is where they took it."""
        assert self.clock == self.target and not self.outside
        assert not [flight for flight in self.flying if flight[0] <= self.clock]


def own_lines(lines: list[str]) -> dict[int, list[str]]:
    own: dict[int, list[str]] = defaultdict(list)
    for line in lines:
        first, _, rest = line.partition(" ")
        if first.isdigit():
            own[int(first)].append(rest)
    return own


def check_motes(drawn: Drawn, own: dict[int, list[str]], folder: Path) -> None:
    """Each mote's lines are what `mote` writes for the inputs in them; where it has a list of calls, what `scenario` writes."""
    listed = {}
    for number, mote in enumerate(drawn.motes, 1):
        inputs = [line.removeprefix("> ") for line in own[number] if line.startswith("> ")]
        if mote.calls is None and "clock-watcher" not in mote.names:
            ran = run(program("mote"), *mote.words(), stdin="".join(line + "\n" for line in inputs).encode())
            assert ran.stdout.decode().splitlines() == own[number], f"mote {number} of\n{drawn.script()}"
        else:
            listed[number] = mote.scenario(number, inputs)
    if listed:
        file = folder / "motes.scenario"
        file.write_text("".join(listed.values()), encoding="utf-8")
        wanted = [line for number in listed for line in (f"== {number}", *own[number])]
        assert succeed(program("scenario"), file).stdout.decode().splitlines() == wanted, drawn.script()


def check_network(seed: int, folder: Path) -> None:
    drawn = drawn_network(seed)
    ran = run(program("network"), stdin=drawn.script().encode())
    assert ran.returncode in (0, 3) and ran.stderr == b"", drawn.script()
    lines = ran.stdout.decode().splitlines()
    is_halted = ran.returncode == 3
    assert not is_halted or lines.pop() == "halt"
    replay = Replay(drawn)
    replay.follow(lines)
    if not is_halted:
        replay.finish()
    check_motes(drawn, own_lines(lines), folder)


@pytest.mark.parametrize("part", range(PARTS))
def test_random_networks(network: Path, mote: Path, scenario: Path, tmp_path: Path, part: int) -> None:
    """Each mote writes what `mote` and `scenario` write, and a replay finds each arrival."""
    assert network.exists() and mote.exists() and scenario.exists()
    for seed in range(FIRST + part, FIRST + NETWORKS, PARTS):
        try:
            check_network(seed, tmp_path)
        except AssertionError as fault:
            raise AssertionError(f"network {seed}: {fault}") from fault


@with_sanitizers
@test_python.lacks("venv", "ensurepip", "setuptools")
def test_all_ways(network: Path, scenario: Path, sanitized: Callable[[test_library.Program], Path],
                  environments: test_python.Environments, tmp_path: Path) -> None:
    """A network whose calls are made in C has the bytes of the same network as a script, as a scenario file and from Python."""
    all_hold(run(sanitized(test_library.NETWORK), "write", MADE_IN_C, tmp_path, timeout=3600))
    succeed(environments("environment"), "-c", IN_PYTHON, tmp_path, settings={"PYTHONDONTWRITEBYTECODE": "1"})
    scripts = sorted(tmp_path.glob("*.net"))
    assert len(scripts) == MADE_IN_C
    text = ""
    for script in scripts:
        wanted = script.with_suffix(".transcript").read_bytes()
        assert run(network, stdin=script).stdout == wanted == script.with_suffix(".python").read_bytes(), script.read_text(encoding="ascii")
        text += f"== {script.stem}\nnetwork\n{script.read_text(encoding='ascii')}{wanted.decode()}" + "ends finished\n" * (wanted == b"")
    (tmp_path / "all").write_text(text, encoding="ascii")
    assert succeed(scenario, "all", cwd=tmp_path).stdout.decode() == f"all: {MADE_IN_C} of {MADE_IN_C} runs as told\n"
