"""A small protocol with a fault: a sender sends letters to a receiver, one by one, and repeats each until it is acknowledged.

    toarmuts-campaign deliver.py:Delivery --seeds 0:8
    toarmuts-campaign deliver.py:RepairedDelivery --seeds 0:8
"""
from __future__ import annotations

import random
from collections.abc import Generator
from typing import Any

from toarmuts import (Call, Event, EventCode, Loss, MmemAlloc, MmemFree, MmemWrite, Network, NetworkRun, PacketDone, PacketOpen, PacketRead,
                      PacketSend, Print, TimerSet, Turns, Wait)
from toarmuts.campaign import NetworkCase, make_network_case

LETTERS = b"abcd"
PATIENCE = 10
KEPT = 2


def send(data: bytes) -> Turns:
    """Sends a frame."""
    yield MmemAlloc(0, len(data))
    yield MmemWrite(0, 0, data)
    yield PacketSend(0)
    yield MmemFree(0)


def receive(length: int) -> Generator[Call, Any, Any]:
    """Reads the front frame, and frees it."""
    reply = yield PacketRead(0, length)
    yield PacketDone()
    return reply.value


def sender(repaired: bool = False) -> Turns:
    """Sends the letters. The fault: only the first two are stored for repetition, so the third one can be lost."""
    yield PacketOpen()
    for number, letter in enumerate(LETTERS):
        is_acknowledged = False
        while not is_acknowledged:
            yield from send(bytes([number, letter]))
            yield TimerSet(0, PATIENCE)
            match (yield Wait()):
                case Event(code=EventCode.PACKET, payload=int(length)):
                    yield from receive(length)
                    is_acknowledged = True
                case _ if number >= KEPT and not repaired:
                    break
    while True:
        yield Wait()


def receiver() -> Turns:
    """Prints each letter that it didn't have before, and acknowledges all."""
    yield PacketOpen()
    last = -1
    while True:
        match (yield Wait()):
            case Event(code=EventCode.PACKET, payload=int(length)):
                number, letter = yield from receive(length)
                if number > last:
                    yield Print(bytes([letter]))
                    last = number
                yield from send(bytes([number]))


def repaired_sender() -> Turns:
    """The same without the fault."""
    yield from sender(repaired=True)


def fault_of(printed: bytes) -> str | None:
    """The letters arrive in order, and none is missing."""
    return None if LETTERS.startswith(printed) else "a letter is left out"


class Delivery:
    """The protocol over a link that loses frames."""

    sender = staticmethod(sender)

    def draw(self, chance: random.Random) -> NetworkCase:
        """A loss for the letters, and some ticks."""
        loss = chance.choice((Loss(), Loss(every=chance.randrange(2, 9)), Loss(lot=chance.randrange(20_000), seed=chance.randrange(1000))))
        network = Network([self.sender, receiver]).link(1, 2, every=loss.every, lot=loss.lot, seed=loss.seed).link(2, 1)
        return make_network_case(network, [f"tick {chance.randrange(30)}" for _ in range(chance.randrange(1, 9))])

    def check(self, run: NetworkRun) -> str | None:
        """What is wrong."""
        return fault_of(run.printed(2))


class RepairedDelivery(Delivery):
    """The same with the repaired sender."""

    sender = staticmethod(repaired_sender)
