"""The library by ctypes, over a shared library: where there is no cffi."""
from __future__ import annotations

import ctypes
import pathlib
import weakref
from typing import Any, NamedTuple

from .errors import LibraryError
from .library import (ADVANCE_SIZE, APPLICATION_SIZE, FIRST_ROOM, LINK_SIZE, MAKE, NETWORK_MOTE_SIZE, NO_ROOM, ROW_SIZE, Configuration,
                      Held, HeldNetwork, NetworkSizes, Outcome)
from .rooms import Room, RunsInRooms

NEEDED = ("toarmuts_run", "transcript_table", "transcript_lines", "run_mote", "open_mote", "feed_line", "feed_input", "toarmuts_clock",
          "toarmuts_close", "toarmuts_due", "advance_mote", "advance_mote_bundled", "open_network", "advance_network_script",
          "advance_network", "advance_network_bundled", "toarmuts_network_clock", "toarmuts_network_due", "toarmuts_network_close")


class _Outcome(ctypes.Structure):
    _fields_ = [("status", ctypes.c_uint32), ("line", ctypes.c_uint64), ("length", ctypes.c_size_t), ("reason", ctypes.c_uint32),
                ("application", ctypes.c_uint32), ("call", ctypes.c_size_t)]


class _Mote(ctypes.Structure):
    _fields_ = [("held", ctypes.c_void_p), ("is_open", ctypes.c_bool)]


class _Network(ctypes.Structure):
    _fields_ = [("held", ctypes.c_void_p), ("is_open", ctypes.c_bool)]


class _NetworkSizes(ctypes.Structure):
    _fields_ = [("room", ctypes.c_uint32), ("links", ctypes.c_uint32), ("rounds", ctypes.c_uint64)]


_Numbers = ctypes.c_uint32 * 6
_ApplicationBytes = ctypes.c_char * APPLICATION_SIZE


class _Room(Room):
    """The memory of one run: an outcome, and room for a transcript."""

    def __init__(self) -> None:
        super().__init__()
        self.outcome = _Outcome()

    def allocate(self, size: int) -> Any:
        """Memory of the library's kind."""
        return ctypes.create_string_buffer(size)


class CtypesLibrary(RunsInRooms[_Room]):
    """The calls of a shared library."""

    backend = "ctypes"

    def __init__(self, place: pathlib.Path) -> None:
        super().__init__(_Room)
        try:
            self._calls: Any = ctypes.CDLL(str(place))
        except OSError as fault:
            raise LibraryError(f"toarmuts: {place} can't be loaded: {fault}; {MAKE}") from fault
        lacking = [name for name in NEEDED if not hasattr(self._calls, name)]
        if lacking:
            raise LibraryError(f"toarmuts: {place} lacks {lacking[0]}, it is older than this package; {MAKE}")
        self._declare()

    def _declare(self) -> None:
        calls, size, pointer, u32 = self._calls, ctypes.c_size_t, ctypes.c_void_p, ctypes.c_uint32
        calls.run_mote.argtypes = [pointer, ctypes.c_char_p, size, ctypes.c_char_p, size, pointer, size, pointer]
        calls.run_mote.restype = None
        calls.transcript_lines.argtypes, calls.transcript_lines.restype = [ctypes.c_char_p, size], size
        calls.transcript_table.argtypes, calls.transcript_table.restype = [ctypes.c_char_p, size, pointer], size
        calls.open_mote.argtypes = [pointer, u32, pointer]
        calls.feed_line.argtypes = [pointer, ctypes.c_char_p, size]
        calls.feed_input.argtypes = [pointer, u32, u32, ctypes.c_char_p, size]
        calls.toarmuts_clock.argtypes, calls.toarmuts_close.argtypes = [pointer, pointer], [pointer]
        calls.advance_mote.argtypes, calls.advance_mote.restype = [pointer, ctypes.c_char_p, pointer], None
        calls.advance_mote_bundled.argtypes, calls.advance_mote_bundled.restype = [pointer, pointer, pointer], None
        calls.toarmuts_due.argtypes = [pointer, pointer]
        for name in ("open_mote", "feed_line", "feed_input", "toarmuts_clock", "toarmuts_due", "toarmuts_close"):
            getattr(calls, name).restype = u32
        self._declare_networks()

    def _declare_networks(self) -> None:
        calls, u64, pointer, u32 = self._calls, ctypes.c_uint64, ctypes.c_void_p, ctypes.c_uint32
        calls.open_network.argtypes = [pointer, ctypes.c_char_p, u64, ctypes.c_char_p, u64, pointer]
        calls.advance_network_script.argtypes = [pointer, ctypes.c_char_p, u64, u64, pointer]
        calls.advance_network_script.restype = None
        calls.advance_network.argtypes, calls.advance_network.restype = [pointer, ctypes.c_char_p, pointer], None
        calls.advance_network_bundled.argtypes, calls.advance_network_bundled.restype = [pointer, pointer, pointer], None
        calls.toarmuts_network_clock.argtypes, calls.toarmuts_network_close.argtypes = [pointer, pointer], [pointer]
        calls.toarmuts_network_due.argtypes = [pointer, u32, pointer]
        for name in ("open_network", "toarmuts_network_clock", "toarmuts_network_due", "toarmuts_network_close"):
            getattr(calls, name).restype = u32

    def _run_in(self, room: _Room, configuration: Configuration, applications: bytes, script: bytes) -> Outcome:
        """Runs, again with more room where there was too little."""
        numbers, outcome = _Numbers(*configuration), room.outcome
        room.make(FIRST_ROOM)
        while True:
            self._calls.run_mote(ctypes.byref(numbers), applications, len(applications), script, len(script), room.transcript, room.size,
                                 ctypes.byref(outcome))
            if outcome.status != NO_ROOM:
                break
            room.make(outcome.length)
        transcript = ctypes.string_at(room.transcript, outcome.length)
        return Outcome(outcome.status, outcome.line, transcript, outcome.reason, outcome.application, outcome.call)

    def table(self, text: bytes) -> bytearray:
        """The rows of a transcript's table."""
        rows = bytearray(ROW_SIZE * self._calls.transcript_lines(text, len(text)))
        if rows:
            place = (ctypes.c_char * len(rows)).from_buffer(rows)
            self._calls.transcript_table(text, len(text), ctypes.addressof(place))
        return rows

    def open(self, configuration: Configuration, applications: int) -> tuple[int, Held]:
        """Opens a mote."""
        numbers, mote = _Numbers(*configuration), _Mote()
        status: int = self._calls.open_mote(ctypes.byref(numbers), applications, ctypes.byref(mote))
        return status, CtypesMote(self._calls, mote)

    def open_network(self, sizes: NetworkSizes, motes: bytes, links: bytes) -> tuple[int, HeldNetwork]:
        """Opens a network with these links."""
        numbers, network = _NetworkSizes(*sizes), _Network()
        status: int = self._calls.open_network(ctypes.byref(numbers), motes, len(motes) // NETWORK_MOTE_SIZE, links,
                                               len(links) // LINK_SIZE, ctypes.byref(network))
        return status, CtypesNetwork(self._calls, network)


class _Calls(NamedTuple):
    """The calls that a mote and a network both have."""

    advance: Any
    advance_bundled: Any
    clock: Any
    due: Any
    close: Any


class _CtypesHeld:
    """A mote or a network that is open, until it is closed or nothing refers to it."""

    def __init__(self, held: _Mote | _Network, calls: _Calls) -> None:
        self._held, self._calls = held, calls
        self.advance_bytes = bytearray(ADVANCE_SIZE)
        self._advance = (ctypes.c_char * ADVANCE_SIZE).from_buffer(self.advance_bytes)
        self._pointer = ctypes.addressof(held)
        self._finalizer = weakref.finalize(self, _close, calls.close, held)
        # At the interpreter's end the memory goes with the process: a daemon thread may be at work on it still.
        self._finalizer.atexit = False

    def advance(self, call: bytes) -> None:
        """Works on."""
        self._calls.advance(self._pointer, call, ctypes.addressof(self._advance))

    def advance_bundled(self, application: bytearray) -> None:
        """Works on, where a bundled application makes the call."""
        state = _ApplicationBytes.from_buffer(application)
        self._calls.advance_bundled(self._pointer, ctypes.addressof(state), ctypes.addressof(self._advance))

    def clock(self) -> int:
        """The ticks since boot."""
        clock = ctypes.c_uint64()
        self._calls.clock(self._pointer, ctypes.byref(clock))
        return clock.value

    def _due(self, *mote: int) -> tuple[int, int]:
        clock = ctypes.c_uint64()
        return self._calls.due(self._pointer, *mote, ctypes.byref(clock)), clock.value

    def close(self) -> int:
        """Frees the memory."""
        status = self._finalizer()
        return 0 if status is None else int(status)


class CtypesMote(_CtypesHeld):
    """A mote."""

    def __init__(self, calls: Any, mote: _Mote) -> None:
        super().__init__(mote, _Calls(calls.advance_mote, calls.advance_mote_bundled, calls.toarmuts_clock, calls.toarmuts_due,
                                      calls.toarmuts_close))
        self._feed, self._feed_input = calls.feed_line, calls.feed_input

    def feed(self, line: bytes) -> int:
        """Feeds a line of a script."""
        status: int = self._feed(self._pointer, line, len(line))
        return status

    def feed_input(self, kind: int, ticks: int, data: bytes) -> int:
        """Feeds an input."""
        status: int = self._feed_input(self._pointer, kind, ticks, data, len(data))
        return status

    def due(self) -> tuple[int, int]:
        """The status, and the clock at which the next timer runs out."""
        return self._due()


class CtypesNetwork(_CtypesHeld):
    """A network."""

    def __init__(self, calls: Any, network: _Network) -> None:
        super().__init__(network, _Calls(calls.advance_network, calls.advance_network_bundled, calls.toarmuts_network_clock,
                                         calls.toarmuts_network_due, calls.toarmuts_network_close))
        self._execute = calls.advance_network_script

    def execute(self, script: bytes, first: int) -> None:
        """Executes lines of a script from this offset on."""
        self._execute(self._pointer, script, first, len(script), ctypes.addressof(self._advance))

    def due(self, mote: int) -> tuple[int, int]:
        """The status, and the clock at which a mote's next timer runs out."""
        return self._due(mote)


def _close(call: Any, held: _Mote | _Network) -> int:
    """Closes a mote or a network; a call of its own, so that its memory lasts until then."""
    status: int = call(ctypes.addressof(held))
    return status
