"""The state at each line of a transcript, computed again from the rules in docs/profile.md.

A line stands for the moment at which its call is carried out. Numbers of lines begin at 0. Where heap blocks lie isn't told here: that
depends on how gaps are chosen, and what a run's answers to heap-stats tell is enough to compare with.
"""

import copy
import dataclasses
import re
from typing import Iterator

from plain_memory import Memory

TURN = re.compile(r"(\d+) (event|synch|poll|callback|answer) (.*) -> (.*)")
FRAMES = 3
QUEUE_PLACES = 32
ROOM = 1 << 32


@dataclasses.dataclass
class Turn:
    """A line `PID ORIGIN STIMULUS -> CALL`."""

    pid: int
    origin: str
    stimulus: str
    call: str


@dataclasses.dataclass
class Timer:
    start: int = 0
    interval: int = 0
    is_armed: bool = False

    @property
    def due(self) -> int:
        return self.start + self.interval


TimerName = tuple[int, str, int]


@dataclasses.dataclass
class Broadcast:
    """A broadcast that is being delivered: the event, the line that posts it, and the processes that received it."""

    event: str
    line: int
    told: list[int]


@dataclasses.dataclass
class State:
    clock: int = 0
    running: int | None = None
    active: list[int] = dataclasses.field(default_factory=list)
    alive: list[int] = dataclasses.field(default_factory=list)
    queue: list[int] = dataclasses.field(default_factory=list)
    timers: dict[TimerName, Timer] = dataclasses.field(default_factory=dict)
    # It has room for each call that was accepted.
    memory: Memory = dataclasses.field(default_factory=lambda: Memory(ROOM, ROOM, 16, None))
    # What the line tells a process: who gives it at once, or in which line it was posted.
    giver: int | None = None
    posted: int | None = None

    def armed(self) -> dict[TimerName, int]:
        return {name: timer.due for name, timer in self.timers.items() if timer.is_armed}


def turn_in(line: str) -> Turn | None:
    told = TURN.fullmatch(line)
    return Turn(int(told[1]), told[2], told[3], told[4]) if told else None


def answers_in(lines: list[str]) -> list[int | None]:
    """For each line the one with the reply to its call: its process's next turn, if that has a reply."""
    answers: list[int | None] = [None] * len(lines)
    awaited: dict[int, int] = {}
    for number, line in enumerate(lines):
        turn = turn_in(line)
        if turn:
            if turn.origin == "answer" and turn.pid in awaited:
                answers[awaited[turn.pid]] = number
            awaited[turn.pid] = number
    return answers


class Replay:
    def __init__(self, lines: list[str]) -> None:
        self.lines = lines
        self.answers = answers_in(lines)
        self.state = State()
        # The process whose activation ends with the line before, and the broadcast that is being told.
        self.ending: int | None = None
        self.broadcast: Broadcast | None = None
        self.frames = 0

    def states(self) -> Iterator[State]:
        for number, line in enumerate(self.lines):
            self.take_line(number, line)
            yield copy.deepcopy(self.state)

    def take_line(self, number: int, line: str) -> None:
        if self.ending is not None:
            self.state.active.remove(self.ending)
            self.ending = None
        self.state.giver = self.state.posted = None
        turn = turn_in(line)
        if turn:
            self.take_turn(number, turn)
        elif line.startswith("> "):
            self.take_input(number, line)
        elif not line.startswith("note"):
            # How the run ended: nothing goes on.
            self.state.running = None
            self.state.active.clear()

    def take_input(self, number: int, line: str) -> None:
        """The mote was at rest."""
        state = self.state
        state.running = None
        state.active.clear()
        state.queue.clear()
        self.broadcast = None
        kind, value = line[2:].split(" ")
        behind = self.lines[number + 1] if number + 1 < len(self.lines) else ""
        if kind == "tick":
            state.clock += int(value)
        elif kind == "frame" and not behind.startswith("note lost"):
            self.frames += 1
            state.memory.managed.blocks[FRAMES, self.frames] = bytearray(len(value) // 2)

    def take_turn(self, number: int, turn: Turn) -> None:
        state = self.state
        state.running = turn.pid
        if turn.origin == "synch" and state.active:
            state.giver = state.active[-1]
        if turn.origin != "answer":
            state.active.append(turn.pid)
            self.take_stimulus(turn)
        if turn.call in ("wait", "exit"):
            self.ending = turn.pid
            if turn.call == "exit" or turn.pid not in state.alive:
                self.end_process(turn.pid)
            return
        answer = self.answers[number]
        told = turn_in(self.lines[answer]) if answer is not None else None
        if told and not told.stimulus.startswith("refused "):
            self.carry_out(number, turn)

    def take_stimulus(self, turn: Turn) -> None:
        state = self.state
        if turn.stimulus.startswith("129 "):
            state.alive.append(turn.pid)
        kind, number = "", ""
        if turn.origin == "callback":
            kind, number = "callback", turn.stimulus
        elif turn.origin == "event" and turn.stimulus.startswith("136 "):
            kind, number = "timer", turn.stimulus[4:]
        if kind:
            timer = state.timers.get((turn.pid, kind, int(number)))
            if timer and timer.is_armed and timer.due <= state.clock:
                timer.is_armed = False
        if turn.origin == "event":
            self.take_event(turn)

    def take_event(self, turn: Turn) -> None:
        """An event that is received has left the queue, and so have those before it."""
        if self.broadcast and self.broadcast.event == turn.stimulus and turn.pid not in self.broadcast.told:
            self.broadcast.told.append(turn.pid)
            self.state.posted = self.broadcast.line
            return
        for place, line in enumerate(self.state.queue):
            posting = turn_in(self.lines[line])
            assert posting is not None, "a line that posts is a turn"
            word, _, rest = posting.call.partition(" ")
            target, _, event = rest.partition(" ")
            if word == "broadcast" and rest == turn.stimulus:
                self.broadcast = Broadcast(rest, line, [turn.pid])
            elif word == "post" and (int(target), event) == (turn.pid, turn.stimulus):
                self.broadcast = None
            else:
                continue
            del self.state.queue[:place + 1]
            self.state.posted = line
            return

    def end_process(self, pid: int) -> None:
        """A process's timers leave the list with it; memory stays."""
        if pid in self.state.alive:
            self.state.alive.remove(pid)
        for (owner, _, _), timer in self.state.timers.items():
            if owner == pid:
                timer.is_armed = False

    def carry_out(self, number: int, turn: Turn) -> None:
        word, *arguments = turn.call.split(" ")
        numbers = [int(argument) for argument in arguments if argument.isdigit()]
        if word in ("post", "broadcast"):
            # Of a full queue the oldest event went to a process that doesn't run.
            self.state.queue[:] = [*self.state.queue[1 - QUEUE_PLACES:], number]
        elif word == "kill" and not self.exits_itself(number, numbers[0]):
            self.end_process(numbers[0])
        elif word.startswith(("timer-", "callback-")):
            self.set_timer(word, turn.pid, numbers)
        elif word == "packet-done":
            managed = self.state.memory.managed.blocks
            del managed[next(key for key in managed if key[0] == FRAMES)]
        else:
            self.state.memory.reply(turn.pid, turn.call)

    def exits_itself(self, number: int, pid: int) -> bool:
        """Whether a process that is killed in a line calls `exit` at its EXIT event: then it ends there."""
        answer = self.answers[number]
        turns = [turn_in(line) for line in self.lines[number:answer]]
        return any(turn and (turn.pid, turn.call) == (pid, "exit") for turn in turns)

    def set_timer(self, word: str, pid: int, numbers: list[int]) -> None:
        kind, _, what = word.partition("-")
        timer = self.state.timers.setdefault((pid, kind, numbers[0]), Timer())
        if what == "set":
            timer.start, timer.interval = self.state.clock, numbers[1]
        elif what == "restart":
            timer.start = self.state.clock
        elif what == "reset":
            timer.start = timer.due
        if what != "expired":
            timer.is_armed = what != "stop"


def states_of(lines: list[str]) -> list[State]:
    return list(Replay(lines).states())
