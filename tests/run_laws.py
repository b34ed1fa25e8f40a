"""The laws of docs/laws.md on memory, events and timers, as plain walks over a mote's transcript, which know nothing of the kernel.

A walk looks at the lines in their order, and stops at the first one that breaks its law. The transcript is not a quiet one.
"""

import dataclasses
from collections import defaultdict
from typing import Callable, Iterator

from plain_memory import BLOCKS, IN_USE, NOT_LIVE
from run_replay import Timer, Turn, answers_in, turn_in

FIRST_APPLICATION = 4
TIMER_EVENT = "136 "
# No process posts these: a timer's event, a line of the serial line, a packet.
KERNEL_EVENTS = (TIMER_EVENT, "138 ", "139 ")
TICK = "> tick "
SENT = "note sent "


@dataclasses.dataclass(frozen=True)
class Step:
    """A line, its turn if it is one, and the call that the turn has the reply to."""

    line: str
    turn: Turn | None
    asked: str | None

    @property
    def is_input(self) -> bool:
        """The line of an input: the mote rests before it."""
        return self.line.startswith("> ")


def steps_of(lines: list[str]) -> Iterator[Step]:
    turns = [turn_in(line) for line in lines]
    asked: dict[int, str] = {}
    for turn, answer in zip(turns, answers_in(lines)):
        if turn and answer is not None:
            asked[answer] = turn.call
    for number, (line, turn) in enumerate(zip(lines, turns)):
        yield Step(line, turn, asked.get(number))


def ends(turn: Turn) -> bool:
    """Whether a process ends with its turn: it exits, or receives that it was killed."""
    return turn.call == "exit" or turn.stimulus == "131 -"


class Law:
    """What a walk has seen so far."""

    def keeps(self, step: Step) -> bool:
        """Takes the next line. Returns whether it keeps the law."""
        raise NotImplementedError

    def may_rest(self) -> bool:
        """Whether the mote may rest where the walk is."""
        return True


# ---- Memory: a process reads and sends of its blocks what its own calls put there ----


@dataclasses.dataclass(frozen=True)
class BlockCall:
    """A process's call that names a block of its own: `mmem` or `heap`, what the call does, the block, and the arguments after it."""

    pid: int
    kind: str
    verb: str
    block: int
    arguments: list[str]

    def other_block(self) -> int:
        """The second block of a copy."""
        return int(self.arguments[0]) if self.verb == "copy" else self.block


def block_call(pid: int, call: str) -> BlockCall | None:
    word, *arguments = call.split(" ")
    kind, _, verb = word.partition("-")
    if word == "packet-send":
        kind = "mmem"
    if kind not in ("mmem", "heap") or not arguments:
        return None
    return BlockCall(pid, kind, verb, int(arguments[0]), arguments[1:])


def bytes_of(digits: str) -> bytes:
    return b"" if digits == "-" else bytes.fromhex(digits)


class MemoryLaw(Law):
    """Calls are refused 'not live' and 'in use' exactly where the process's own calls say so; a sent frame shows all of its block."""

    def __init__(self, _applications: int) -> None:
        self.blocks: dict[tuple[int, str, int], bytearray] = {}
        self.last_turn: Turn | None = None

    def keeps(self, step: Step) -> bool:
        if step.line.startswith(SENT):
            return self.is_sent_whole(bytes_of(step.line.removeprefix(SENT)))
        if step.turn is None:
            return True
        self.last_turn = step.turn
        call = block_call(step.turn.pid, step.asked) if step.asked else None
        if call is None:
            return True
        is_kept = self.is_rightly_refused(call, step.turn.stimulus) and self.is_rightly_read(call, step.turn.stimulus)
        if is_kept and step.turn.stimulus == "done":
            self.carry_out(call)
        return is_kept

    def is_sent_whole(self, frame: bytes) -> bool:
        """A note of a sent frame follows the turn that sends it."""
        call = block_call(self.last_turn.pid, self.last_turn.call) if self.last_turn else None
        return call is not None and call.verb == "send" and self.block(call) == frame

    def block(self, call: BlockCall) -> bytearray | None:
        return self.blocks.get((call.pid, call.kind, call.block))

    def is_rightly_refused(self, call: BlockCall, reply: str) -> bool:
        needed = (call.block, call.other_block())
        if max(needed) >= BLOCKS:
            # No block has that number, so there is another refusal.
            return reply.startswith("refused ")
        are_live = all((call.pid, call.kind, block) in self.blocks for block in needed)
        if call.verb == "alloc":
            return are_live == (reply == f"refused {IN_USE}")
        return are_live != (reply == f"refused {NOT_LIVE}")

    def is_rightly_read(self, call: BlockCall, reply: str) -> bool:
        """Bytes are the reply to a read alone."""
        word, _, digits = reply.partition(" ")
        if word != "bytes":
            return True
        block = self.block(call)
        if block is None or call.verb != "read":
            return False
        at, length = map(int, call.arguments)
        return at + length <= len(block) and block[at:at + length] == bytes_of(digits)

    def carry_out(self, call: BlockCall) -> None:
        """What a call with the reply `done` does to its block, or to the target of a copy."""
        key = (call.pid, call.kind, call.block)
        if call.verb == "alloc":
            self.blocks[key] = bytearray(int(call.arguments[0]))
        elif call.verb == "free":
            del self.blocks[key]
        elif call.verb == "realloc":
            size = int(call.arguments[0])
            self.blocks[key] = self.blocks[key][:size].ljust(size, b"\0")
        elif call.verb == "write":
            self.write(key, int(call.arguments[0]), bytes_of(call.arguments[1]))
        elif call.verb == "copy":
            self.write((call.pid, call.kind, call.other_block()), 0, bytes(self.blocks[key]))

    def write(self, key: tuple[int, str, int], at: int, data: bytes) -> None:
        """A write that would leave the block writes nothing, so what is read later breaks the law."""
        block = self.blocks[key]
        if at + len(data) <= len(block):
            block[at:at + len(data)] = data


# ---- Events: those of applications arrive in the order in which they were accepted ----


@dataclasses.dataclass
class Inbox:
    """The events that were accepted for an application and that it hasn't received yet."""

    awaited: list[str] = dataclasses.field(default_factory=list)
    has_ended: bool = False


class EventLaw(Law):
    """Where the mote rests no event is missing. An application that has ended is left out."""

    def __init__(self, applications: int) -> None:
        self.inboxes = {FIRST_APPLICATION + number: Inbox() for number in range(applications)}

    def may_rest(self) -> bool:
        return all(inbox.has_ended or not inbox.awaited for inbox in self.inboxes.values())

    def keeps(self, step: Step) -> bool:
        turn = step.turn
        if turn is None:
            return True
        if step.asked and turn.stimulus == "done":
            self.accept(step.asked)
        inbox = self.inboxes.get(turn.pid)
        if inbox is None:
            return False
        inbox.has_ended |= ends(turn)
        if inbox.has_ended or turn.origin != "event" or turn.stimulus.startswith(KERNEL_EVENTS):
            return True
        return inbox.awaited != [] and inbox.awaited.pop(0) == turn.stimulus

    def accept(self, call: str) -> None:
        """The reply to a call is `done`: it may be a post or a broadcast."""
        word, _, rest = call.partition(" ")
        if word == "broadcast":
            for inbox in self.inboxes.values():
                inbox.awaited.append(rest)
        elif word == "post":
            pid, _, event = rest.partition(" ")
            if int(pid) in self.inboxes:
                self.inboxes[int(pid)].awaited.append(event)


# ---- Timers: no event is early or comes twice, and none is lost ----


@dataclasses.dataclass
class WatchedTimer(Timer):
    """An arming is ripe where its deadline was reached before the timer was set or stopped again."""

    # Whether an event came since the timer was set or stopped; the number of all that came.
    was_given: bool = False
    given: int = 0
    # The number of earlier armings that are ripe.
    ripe: int = 0

    def is_ripe(self, clock: int) -> bool:
        return self.is_armed and self.due <= clock

    def set_aside(self, clock: int) -> None:
        self.ripe += self.is_ripe(clock)
        self.is_armed = self.was_given = False

    def arm(self, clock: int, start: int, interval: int) -> None:
        self.set_aside(clock)
        self.start, self.interval, self.is_armed = start, interval, True

    def gives_in_time(self, clock: int) -> bool:
        """An event comes. Returns whether there is a ripe arming for each one so far."""
        self.given += 1
        self.was_given = True
        return self.given <= self.ripe + self.is_ripe(clock)

    def is_not_lost(self, clock: int) -> bool:
        return self.was_given or not self.is_ripe(clock)


class TimerLaw(Law):
    """Where the mote rests each timer whose last arming is ripe has had its event. An application that has ended loses none."""

    def __init__(self, applications: int) -> None:
        self.clock = 0
        self.timers: dict[int, dict[int, WatchedTimer]] = {
            FIRST_APPLICATION + number: defaultdict(WatchedTimer) for number in range(applications)}
        self.ended: set[int] = set()

    def may_rest(self) -> bool:
        return all(timer.is_not_lost(self.clock) for pid, timers in self.timers.items() if pid not in self.ended
                   for timer in timers.values())

    def keeps(self, step: Step) -> bool:
        if step.line.startswith(TICK):
            self.clock += int(step.line.removeprefix(TICK))
        turn = step.turn
        if turn is None:
            return True
        if turn.pid not in self.timers:
            return False
        timers = self.timers[turn.pid]
        if step.asked and turn.stimulus == "done":
            self.carry_out(timers, step.asked)
        if ends(turn):
            self.ended.add(turn.pid)
        if not turn.stimulus.startswith(TIMER_EVENT):
            return True
        return timers[int(turn.stimulus.removeprefix(TIMER_EVENT))].gives_in_time(self.clock)

    def carry_out(self, timers: dict[int, WatchedTimer], call: str) -> None:
        """The reply to a call is `done`: it may arm or stop a timer."""
        word, *arguments = call.split(" ")
        if word not in ("timer-set", "timer-restart", "timer-reset", "timer-stop"):
            return
        timer = timers[int(arguments[0])]
        if word == "timer-set":
            timer.arm(self.clock, self.clock, int(arguments[1]))
        elif word == "timer-restart":
            timer.arm(self.clock, self.clock, timer.interval)
        elif word == "timer-reset":
            timer.arm(self.clock, timer.due, timer.interval)
        else:
            timer.set_aside(self.clock)


LAWS: dict[str, Callable[[int], Law]] = {"memory": MemoryLaw, "events": EventLaw, "timers": TimerLaw}


def first_fault(law: Law, steps: list[Step]) -> str | None:
    """The first line that breaks a law, or at which the mote must not rest, by its number. After a halt nothing need come."""
    for number, step in enumerate(steps, 1):
        if (step.is_input and not law.may_rest()) or not law.keeps(step):
            return f"line {number}: {step.line}"
    has_halted = bool(steps) and steps[-1].line == "halt"
    return None if has_halted or law.may_rest() else "the end"


def broken_laws(applications: int, transcript: str) -> dict[str, str]:
    """The laws that the transcript of a mote with n applications breaks, each with where it does."""
    steps = list(steps_of(transcript.splitlines()))
    faults = {name: first_fault(law(applications), steps) for name, law in LAWS.items()}
    return {name: fault for name, fault in faults.items() if fault is not None}
