"""The numbers of a transcript by their names.

Written by scripts/make-calls from interface/rules.json: change that file, and run the program again.

>>> Refusal(12).name
'NO_ROOM'
"""
from __future__ import annotations

import enum

__all__ = ["EventCode", "Origin", "Refusal", "ReplyKind"]


class Refusal(enum.IntEnum):
    """Why a call is refused, or a frame is lost (docs/transcript.md)."""

    FULL = 1
    """The event queue is full; of a frame: 8 are held."""
    NOT_RUNNING = 2
    """The process does not run."""
    ALREADY = 3
    """It is so already: started, or the receiver."""
    BUSY = 4
    """Another activation is in the way, or another process is the receiver."""
    RESERVED = 5
    """The event code is the kernel's own."""
    NO_EVENT = 6
    """All event numbers were drawn."""
    BAD_NAME = 7
    """No process, timer, handle, block, pool or list has that name."""
    IN_USE = 8
    """The handle or block is in use."""
    NOT_LIVE = 9
    """The handle or block is not live."""
    EMPTY = 10
    """The list is empty, or the block is its last."""
    RANGE = 11
    """An invalid length or range."""
    NO_ROOM = 12
    """Memory has no room for it."""
    NO_BLOCK = 13
    """The pool has no unused block."""
    LINKED = 14
    """The block is in a list, or in the pool's other list."""
    NOT_LINKED = 15
    """The block is not in that list."""
    NO_PACKET = 16
    """No frame is held."""
    NOT_RECEIVER = 17
    """The caller is not the receiver."""
    OVER_QUOTA = 18
    """With quotas: the process's own quota of managed memory has no room for it."""


class EventCode(enum.IntEnum):
    """The events of the kernel; applications draw 140 to 255."""

    NONE = 128
    """No event."""
    INIT = 129
    """The process is started."""
    POLL = 130
    """The process was polled."""
    EXIT = 131
    """The process is killed: this is its last activation."""
    SERVICE_REMOVED = 132
    """A service is gone; nothing sends it."""
    CONTINUE = 133
    """Free for applications."""
    MSG = 134
    """Free for applications."""
    EXITED = 135
    """Another process ended: the payload is its number."""
    TIMER = 136
    """An event timer ran out: the payload is its number."""
    COM = 137
    """Free for applications."""
    SERIAL_LINE = 138
    """A line came in on the serial line: it is the payload."""
    PACKET = 139
    """A frame came in, for the receiver: the payload is its length."""


class Origin(enum.IntEnum):
    """Where a stimulus comes from."""

    EVENT = 0
    SYNCH = 1
    POLL = 2
    CALLBACK = 3
    ANSWER = 4


class ReplyKind(enum.IntEnum):
    """The kinds of replies to calls."""

    DONE = 0
    REFUSED = 1
    NUM = 2
    WIDE = 3
    FLAG = 4
    BYTES = 5
    STATS = 6
