"""The library by cffi in API mode."""
from __future__ import annotations

import weakref
from typing import Any, NamedTuple

from ._native import ffi, lib  # type: ignore[import]
from .errors import LibraryError
from .library import (ADVANCE_SIZE, APPLICATION_SIZE, FIRST_ROOM, LINK_SIZE, MAKE, NETWORK_MOTE_SIZE, NO_ROOM, ROW_SIZE, Configuration,
                      Held, HeldNetwork, NetworkSizes, Outcome)
from .rooms import Room, RunsInRooms

STRUCTURES = {"transcript_row": ROW_SIZE, "advance": ADVANCE_SIZE, "toarmuts_application": APPLICATION_SIZE,
              "toarmuts_network_mote": NETWORK_MOTE_SIZE, "toarmuts_link": LINK_SIZE}


class _Room(Room):
    """The memory of one run: a configuration, an outcome, and room for a transcript."""

    def __init__(self) -> None:
        super().__init__()
        self.configuration = ffi.new("struct toarmuts_configuration *")
        self.outcome = ffi.new("struct toarmuts_outcome *")

    def allocate(self, size: int) -> Any:
        """Memory of the library's kind."""
        return ffi.new("uint8_t[]", size)


def fill(configuration: Any, numbers: Configuration) -> None:
    """Fills in ``struct toarmuts_configuration``."""
    (configuration.mmem, configuration.heap, configuration.header, configuration.has_quota, configuration.quota,
     configuration.quiet) = numbers


class CffiLibrary(RunsInRooms[_Room]):
    """The calls of the compiled module."""

    backend = "cffi"

    def __init__(self) -> None:
        super().__init__(_Room)
        sizes = {name: ffi.sizeof(f"struct {name}") for name in STRUCTURES}
        if sizes != STRUCTURES:
            raise LibraryError(f"toarmuts: the compiled library has structures of {sizes} bytes; {MAKE}")

    def _run_in(self, room: _Room, configuration: Configuration, applications: bytes, script: bytes) -> Outcome:
        """Runs, again with more room where there was too little."""
        fill(room.configuration, configuration)
        room.make(FIRST_ROOM)
        outcome = room.outcome
        while True:
            lib.run_mote(room.configuration, applications, len(applications), script, len(script), room.transcript, room.size, outcome)
            if outcome.status != NO_ROOM:
                break
            room.make(outcome.length)
        transcript = bytes(ffi.buffer(room.transcript, outcome.length)) if outcome.length else b""
        return Outcome(outcome.status, outcome.line, transcript, outcome.reason, outcome.application, outcome.call)

    def table(self, text: bytes) -> bytearray:
        """The rows of a transcript's table."""
        rows = bytearray(ROW_SIZE * lib.transcript_lines(text, len(text)))
        if rows:
            lib.transcript_table(text, len(text), ffi.from_buffer("struct transcript_row *", rows))
        return rows

    def open(self, configuration: Configuration, applications: int) -> tuple[int, Held]:
        """Opens a mote."""
        numbers = ffi.new("struct toarmuts_configuration *")
        fill(numbers, configuration)
        mote = ffi.new("struct toarmuts_mote *")
        status: int = lib.open_mote(numbers, applications, mote)
        return status, CffiMote(mote)

    def open_network(self, sizes: NetworkSizes, motes: bytes, links: bytes) -> tuple[int, HeldNetwork]:
        """Opens a network with these links."""
        network = ffi.new("struct toarmuts_network *")
        numbers = ffi.new("struct toarmuts_network_sizes *", sizes)
        status: int = lib.open_network(numbers, ffi.from_buffer("struct toarmuts_network_mote[]", motes), len(motes) // NETWORK_MOTE_SIZE,
                                       ffi.from_buffer("struct toarmuts_link[]", links), len(links) // LINK_SIZE, network)
        return status, CffiNetwork(network)


class _Calls(NamedTuple):
    """The calls that a mote and a network both have."""

    advance: Any
    advance_bundled: Any
    clock: Any
    close: Any


class _CffiHeld:
    """A mote or a network that is open, until it is closed or nothing refers to it."""

    def __init__(self, held: Any, calls: _Calls) -> None:
        self._held, self._calls = held, calls
        self.advance_bytes = bytearray(ADVANCE_SIZE)
        self._advance = ffi.from_buffer("struct advance *", self.advance_bytes)
        self._call = ffi.new("struct toarmuts_call *")
        self._call_bytes = ffi.buffer(self._call)
        self._clock = ffi.new("uint64_t *")
        self._finalizer = weakref.finalize(self, calls.close, held)
        # At the interpreter's end the memory goes with the process: a daemon thread may be at work on it still.
        self._finalizer.atexit = False

    def advance(self, call: bytes) -> None:
        """Works on."""
        self._call_bytes[:] = call
        self._calls.advance(self._held, self._call, self._advance)

    def advance_bundled(self, application: bytearray) -> None:
        """Works on, where a bundled application makes the call."""
        self._calls.advance_bundled(self._held, ffi.from_buffer("struct toarmuts_application *", application), self._advance)

    def clock(self) -> int:
        """The ticks since boot."""
        self._calls.clock(self._held, self._clock)
        clock: int = self._clock[0]
        return clock

    def close(self) -> int:
        """Frees the memory."""
        status = self._finalizer()
        return 0 if status is None else int(status)


class CffiMote(_CffiHeld):
    """A mote."""

    def __init__(self, mote: Any) -> None:
        super().__init__(mote, _Calls(lib.advance_mote, lib.advance_mote_bundled, lib.toarmuts_clock, lib.toarmuts_close))

    def feed(self, line: bytes) -> int:
        """Feeds a line of a script."""
        status: int = lib.feed_line(self._held, line, len(line))
        return status

    def feed_input(self, kind: int, ticks: int, data: bytes) -> int:
        """Feeds an input."""
        status: int = lib.feed_input(self._held, kind, ticks, data, len(data))
        return status

    def due(self) -> tuple[int, int]:
        """The status, and the clock at which the next timer runs out."""
        return lib.toarmuts_due(self._held, self._clock), self._clock[0]


class CffiNetwork(_CffiHeld):
    """A network."""

    def __init__(self, network: Any) -> None:
        super().__init__(network, _Calls(lib.advance_network, lib.advance_network_bundled, lib.toarmuts_network_clock,
                                         lib.toarmuts_network_close))

    def execute(self, script: bytes, first: int) -> None:
        """Executes lines of a script from this offset on."""
        lib.advance_network_script(self._held, script, first, len(script), self._advance)

    def due(self, mote: int) -> tuple[int, int]:
        """The status, and the clock at which a mote's next timer runs out."""
        return lib.toarmuts_network_due(self._held, mote, self._clock), self._clock[0]
