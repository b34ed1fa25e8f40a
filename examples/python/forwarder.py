"""An application with a fault: it forwards frames, and if memory is short it never frees one."""
from __future__ import annotations

from toarmuts import (Event, EventCode, MmemAlloc, MmemFree, MmemWrite, PacketDone, PacketOpen, PacketRead, PacketSend, Run, Turns, Wait)

CHUNK = 64


def forwarder(repaired: bool = False) -> Turns:
    """Sends each frame that it receives. The fault: a frame for which there is no block isn't freed."""
    yield PacketOpen()
    while True:
        match (yield Wait()):
            case Event(code=EventCode.PACKET, payload=int(length)):
                reply = yield MmemAlloc(0, length)
                if reply.ok:
                    yield from send(length)
                if reply.ok or repaired:
                    yield PacketDone()


def send(length: int) -> Turns:
    """Copies the front frame to block 0, sends that, and frees it."""
    for at in range(0, length, CHUNK):
        reply = yield PacketRead(at, min(CHUNK, length - at))
        yield MmemWrite(0, at, reply.value)
    yield PacketSend(0)
    yield MmemFree(0)


def repaired_forwarder() -> Turns:
    """The same without the fault."""
    yield from forwarder(repaired=True)


def fault_of(run: Run) -> str | None:
    """The first application frees each frame that it receives."""
    turns = run.transcript.turns(4)
    told = sum(isinstance(turn.stimulus, Event) and turn.stimulus.code == EventCode.PACKET for turn in turns)
    given_back = sum(turn.call == PacketDone() and turn.refusal is None for turn in turns)
    return "a frame is never given back" if told != given_back else None
