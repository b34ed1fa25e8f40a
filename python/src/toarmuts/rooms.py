"""The memory of runs, which a thread keeps between them."""
from __future__ import annotations

import threading
from typing import Any, Generic, TypeVar

from .library import MOST_ROOM_KEPT, Configuration, Outcome


class Room:
    """The memory of one run: room for a transcript, and what else a library's calls need."""

    def __init__(self) -> None:
        self.size = 0
        self.transcript: Any = None

    def allocate(self, size: int) -> Any:
        """Memory for this number of bytes."""
        raise NotImplementedError

    def make(self, size: int) -> None:
        """Allocates at least this number of bytes."""
        if self.size < size:
            self.size = size
            self.transcript = self.allocate(size)

    def shrink(self) -> None:
        """Frees what is too much to keep."""
        if self.size > MOST_ROOM_KEPT:
            self.size, self.transcript = 0, None


AnyRoom = TypeVar("AnyRoom", bound=Room)


class _Kept(threading.local, Generic[AnyRoom]):
    """The rooms that a thread keeps between its runs."""

    def __init__(self) -> None:
        self.rooms: list[AnyRoom] = []


class RunsInRooms(Generic[AnyRoom]):
    """The calls of a library that runs in rooms of this kind."""

    def __init__(self, kind: type[AnyRoom]) -> None:
        self._kind = kind
        self._kept: _Kept[AnyRoom] = _Kept()

    def run(self, configuration: Configuration, applications: bytes, script: bytes) -> Outcome:
        """Runs in memory that nobody else has meanwhile: a signal handler or a tracer may make another run in between."""
        rooms = self._kept.rooms
        try:
            room = rooms.pop()
        except IndexError:
            room = self._kind()
        try:
            return self._run_in(room, configuration, applications, script)
        finally:
            if not rooms:
                room.shrink()
                rooms.append(room)

    def _run_in(self, room: AnyRoom, configuration: Configuration, applications: bytes, script: bytes) -> Outcome:
        """Runs, again with more room where there was too little."""
        raise NotImplementedError
