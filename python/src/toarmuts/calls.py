"""The calls of an application: a class for each, with its arguments. Their ``help`` tells what these may be, and the refusals.

Written by scripts/make-calls from interface/rules.json: change that file, and run the program again.

>>> str(TimerSet(0, 10))
'timer-set 0 10'
"""
from __future__ import annotations

from dataclasses import dataclass

from .call import Call
from .values import Payload

__all__ = [
    "Post", "Broadcast", "PostSynch", "Poll", "Start", "Kill", "IsRunning", "AllocEvent", "TimerSet", "TimerStop",
    "TimerReset", "TimerRestart", "TimerExpired", "CallbackSet", "CallbackStop", "Clock", "Print", "Wait", "Exit",
    "MmemAlloc", "MmemFree", "MmemWrite", "MmemRead", "MmemCopy", "MmemAvail", "HeapAlloc", "HeapRealloc", "HeapFree",
    "HeapWrite", "HeapRead", "HeapStats", "MembAlloc", "MembFree", "MembWrite", "MembRead", "MembNumFree", "ListAdd",
    "ListPush", "ListInsert", "ListPop", "ListChop", "ListRemove", "ListHead", "ListNext", "ListLength", "PacketOpen",
    "PacketRead", "PacketDone", "PacketCount", "PacketSend",
]


@dataclass(frozen=True, eq=False, repr=False)
class Post(Call):
    """Puts an event at the end of the event queue, for one process."""

    process: int
    code: int
    payload: Payload = None


@dataclass(frozen=True, eq=False, repr=False)
class Broadcast(Call):
    """Puts an event at the end of the event queue, for every process on the process list."""

    code: int
    payload: Payload = None


@dataclass(frozen=True, eq=False, repr=False)
class PostSynch(Call):
    """Delivers an event to a process at once; the reply follows its activation."""

    process: int
    code: int
    payload: Payload = None


@dataclass(frozen=True, eq=False, repr=False)
class Poll(Call):
    """Marks a process for the next poll round."""

    process: int


@dataclass(frozen=True, eq=False, repr=False)
class Start(Call):
    """Puts a process at the head of the process list and sends it INIT."""

    process: int


@dataclass(frozen=True, eq=False, repr=False)
class Kill(Call):
    """Ends another process, which receives EXIT."""

    process: int


@dataclass(frozen=True, eq=False, repr=False)
class IsRunning(Call):
    """Asks whether a process runs."""

    process: int


@dataclass(frozen=True, eq=False, repr=False)
class AllocEvent(Call):
    """Draws an event number that was never drawn."""


@dataclass(frozen=True, eq=False, repr=False)
class TimerSet(Call):
    """Arms an event timer: it runs out this number of ticks after the present clock."""

    timer: int
    interval: int


@dataclass(frozen=True, eq=False, repr=False)
class TimerStop(Call):
    """Disarms an event timer."""

    timer: int


@dataclass(frozen=True, eq=False, repr=False)
class TimerReset(Call):
    """Arms an event timer with the interval that begins where its last one ended."""

    timer: int


@dataclass(frozen=True, eq=False, repr=False)
class TimerRestart(Call):
    """Arms an event timer with its interval, from the present clock on."""

    timer: int


@dataclass(frozen=True, eq=False, repr=False)
class TimerExpired(Call):
    """Asks whether an event timer isn't armed."""

    timer: int


@dataclass(frozen=True, eq=False, repr=False)
class CallbackSet(Call):
    """Arms a callback timer: it runs out this number of ticks after the present clock."""

    callback: int
    interval: int


@dataclass(frozen=True, eq=False, repr=False)
class CallbackStop(Call):
    """Disarms a callback timer."""

    callback: int


@dataclass(frozen=True, eq=False, repr=False)
class Clock(Call):
    """Asks for the clock, in ticks since boot."""


@dataclass(frozen=True, eq=False, repr=False)
class Print(Call):
    """Shows these bytes in the transcript."""

    data: bytes


@dataclass(frozen=True, eq=False, repr=False)
class Wait(Call):
    """Ends the activation; the process continues to run."""


@dataclass(frozen=True, eq=False, repr=False)
class Exit(Call):
    """Ends the activation and the process."""


@dataclass(frozen=True, eq=False, repr=False)
class MmemAlloc(Call):
    """Allocates a block of managed memory for a handle, its bytes all 0."""

    handle: int
    size: int


@dataclass(frozen=True, eq=False, repr=False)
class MmemFree(Call):
    """Frees a handle's block."""

    handle: int


@dataclass(frozen=True, eq=False, repr=False)
class MmemWrite(Call):
    """Writes bytes into a handle's block."""

    handle: int
    at: int
    data: bytes


@dataclass(frozen=True, eq=False, repr=False)
class MmemRead(Call):
    """Reads from a handle's block."""

    handle: int
    at: int
    length: int


@dataclass(frozen=True, eq=False, repr=False)
class MmemCopy(Call):
    """Copies all bytes of a handle's block to the front of another's."""

    source: int
    target: int


@dataclass(frozen=True, eq=False, repr=False)
class MmemAvail(Call):
    """Asks for the bytes of managed memory that are free for the caller."""


@dataclass(frozen=True, eq=False, repr=False)
class HeapAlloc(Call):
    """Allocates a block of heap memory, its bytes all 0."""

    heap_block: int
    size: int


@dataclass(frozen=True, eq=False, repr=False)
class HeapRealloc(Call):
    """Resizes a block of heap memory; further bytes are 0."""

    heap_block: int
    size: int


@dataclass(frozen=True, eq=False, repr=False)
class HeapFree(Call):
    """Frees a block of heap memory."""

    heap_block: int


@dataclass(frozen=True, eq=False, repr=False)
class HeapWrite(Call):
    """Writes bytes into a block of heap memory."""

    heap_block: int
    at: int
    data: bytes


@dataclass(frozen=True, eq=False, repr=False)
class HeapRead(Call):
    """Reads from a block of heap memory."""

    heap_block: int
    at: int
    length: int


@dataclass(frozen=True, eq=False, repr=False)
class HeapStats(Call):
    """Asks for the state of the whole heap."""


@dataclass(frozen=True, eq=False, repr=False)
class MembAlloc(Call):
    """Allocates the unused block of a pool with the lowest number, its bytes all 0."""

    pool: int


@dataclass(frozen=True, eq=False, repr=False)
class MembFree(Call):
    """Frees a block of a pool."""

    pool: int
    block: int


@dataclass(frozen=True, eq=False, repr=False)
class MembWrite(Call):
    """Writes bytes into a pool's block."""

    pool: int
    block: int
    at: int
    data: bytes


@dataclass(frozen=True, eq=False, repr=False)
class MembRead(Call):
    """Reads from a pool's block."""

    pool: int
    block: int
    at: int
    length: int


@dataclass(frozen=True, eq=False, repr=False)
class MembNumFree(Call):
    """Asks for the number of unused blocks of a pool."""

    pool: int


@dataclass(frozen=True, eq=False, repr=False)
class ListAdd(Call):
    """Moves a block to the end of a list."""

    chain: int
    block: int


@dataclass(frozen=True, eq=False, repr=False)
class ListPush(Call):
    """Moves a block to the front of a list."""

    chain: int
    block: int


@dataclass(frozen=True, eq=False, repr=False)
class ListInsert(Call):
    """Moves a block to the position directly after another one of a list."""

    chain: int
    previous: int
    block: int


@dataclass(frozen=True, eq=False, repr=False)
class ListPop(Call):
    """Removes the head of a list."""

    chain: int


@dataclass(frozen=True, eq=False, repr=False)
class ListChop(Call):
    """Removes the tail of a list."""

    chain: int


@dataclass(frozen=True, eq=False, repr=False)
class ListRemove(Call):
    """Removes a block from a list."""

    chain: int
    block: int


@dataclass(frozen=True, eq=False, repr=False)
class ListHead(Call):
    """Asks for the head of a list."""

    chain: int


@dataclass(frozen=True, eq=False, repr=False)
class ListNext(Call):
    """Asks for the block after another one of a list."""

    chain: int
    block: int


@dataclass(frozen=True, eq=False, repr=False)
class ListLength(Call):
    """Asks for the number of blocks in a list."""

    chain: int


@dataclass(frozen=True, eq=False, repr=False)
class PacketOpen(Call):
    """Becomes the receiver of frames."""


@dataclass(frozen=True, eq=False, repr=False)
class PacketRead(Call):
    """Reads from the front frame."""

    at: int
    length: int


@dataclass(frozen=True, eq=False, repr=False)
class PacketDone(Call):
    """Frees the front frame."""


@dataclass(frozen=True, eq=False, repr=False)
class PacketCount(Call):
    """Asks for the number of frames that are held."""


@dataclass(frozen=True, eq=False, repr=False)
class PacketSend(Call):
    """Sends the bytes of a handle's block as a frame; the block stays."""

    handle: int
