"""The compiled library: by cffi where the package was built with it and it is installed, or by ctypes. Other threads run during each
call."""
from __future__ import annotations

import functools
import hashlib
import importlib.util
import json
import os
import pathlib
import warnings
from typing import Any, NamedTuple, Protocol

from .errors import LibraryError, Reason

HERE = pathlib.Path(__file__).resolve().parent
MAKE = "`./prove toarmuts` in the repository, and then `pip install ./python`, make it"

# Statuses of toarmuts.h beside those of a run's end.
NOT_TEXT, NO_APPLICATION, TOO_MANY_APPLICATIONS, BAD_SIZES, NO_ROOM, OUT_OF_MEMORY = range(16, 22)
CLOSED, IS_OPEN, AWAITS_CALL, NO_TURN, NOT_AT_REST, NO_CALL, NO_INPUT, TOO_MANY_INPUTS, NO_LINE = range(22, 31)
BAD_LINK, NO_MOTE, NO_TIMER, IS_STARTED, NO_FRAME = range(31, 36)

# Of native/stack.h: nothing was done, since the thread's stack has fewer KiB left than this.
STACK_TOO_SMALL = 64
KIB_OF_A_RUN, KIB_OF_A_STEP = 240, 168

FIRST_ROOM = 1 << 16
MOST_ROOM_KEPT = 1 << 24

ROW_SIZE = 56
ADVANCE_SIZE = 4312
APPLICATION_SIZE = 152

Configuration = tuple[int, int, int, int, int, int]
"""mmem, heap, header, whether there is a quota, quota, quiet: ``struct toarmuts_configuration``."""


NetworkSizes = tuple[int, int, int]
"""room, links, rounds: ``struct toarmuts_network_sizes``."""

# Of struct toarmuts_network_mote and struct toarmuts_link.
NETWORK_MOTE_SIZE, LINK_SIZE = 28, 32


class Why(NamedTuple):
    """Why there was no run: the reason, and the application and the call of its list that it is about, both from 0 on."""

    reason: Reason
    application: int
    call: int


class Outcome(NamedTuple):
    """All that ``toarmuts_run`` returns, in one piece: no later run can change it."""

    status: int
    line: int
    transcript: bytes
    reason: int
    application: int
    call: int

    @property
    def why(self) -> Why:
        """Why there was no run."""
        return Why(Reason(self.reason), self.application, self.call)


class CanAdvance(Protocol):
    """A mote or a network of the library."""

    advance_bytes: bytearray
    """``struct advance`` of native/advance.h, as the last advance left it."""

    def advance(self, call: bytes) -> None:
        """Makes a call, if it has a kind, and works on; the result is in ``advance_bytes``."""

    def advance_bundled(self, application: bytearray) -> None:
        """The same, where a bundled application makes the call: the bytes of ``struct toarmuts_application``."""

    def clock(self) -> int:
        """The ticks since boot."""

    def close(self) -> int:
        """Frees the memory."""


class Held(CanAdvance, Protocol):
    """A mote of the library."""

    def feed(self, line: bytes) -> int:
        """Feeds a line of a script; returns the status."""

    def feed_input(self, kind: int, ticks: int, data: bytes) -> int:
        """Feeds an input; returns the status."""

    def due(self) -> tuple[int, int]:
        """The status, and the clock at which the next timer runs out."""


class HeldNetwork(CanAdvance, Protocol):
    """A network of the library. Motes are numbered from 1 on."""

    def execute(self, script: bytes, first: int) -> None:
        """Executes lines of a script from this offset on, each with its line end; the result is in ``advance_bytes``."""

    def due(self, mote: int) -> tuple[int, int]:
        """The status, and the clock at which a mote's next timer runs out."""


class Library(Protocol):
    """The calls of the library."""

    backend: str

    def run(self, configuration: Configuration, applications: bytes, script: bytes) -> Outcome:
        """Runs applications over a script."""

    def table(self, text: bytes) -> bytearray:
        """The rows of a transcript's table."""

    def open(self, configuration: Configuration, applications: int) -> tuple[int, Held]:
        """Opens a mote that goes step by step."""

    def open_network(self, sizes: NetworkSizes, motes: bytes, links: bytes) -> tuple[int, HeldNetwork]:
        """Opens a network with these links. The bytes are those of ``struct toarmuts_network_mote`` and ``struct toarmuts_link``."""


def _by_cffi() -> Library:
    from .by_cffi import CffiLibrary

    return CffiLibrary()


def _by_ctypes() -> Library:
    from .by_ctypes import CtypesLibrary

    return CtypesLibrary(_shared_library())


def _shared_library() -> pathlib.Path:
    """The library for ctypes: what TOARMUTS_LIBRARY names, or what was built with the package."""
    named = os.environ.get("TOARMUTS_LIBRARY")
    if named is not None:
        if not os.path.exists(named):
            raise LibraryError(f"TOARMUTS_LIBRARY names {named}, which isn't there; {MAKE}")
        return pathlib.Path(named)
    found = sorted(HERE.glob("_library*.so"))
    if not found:
        raise LibraryError(f"toarmuts: the compiled library isn't in {HERE}; {MAKE}")
    return found[0]


def _refuse_other_backend(asked: str) -> None:
    """Raises LibraryError where the package was built only for the other one."""
    for_cffi, for_ctypes = any(HERE.glob("_native*.so")), any(HERE.glob("_library*.so")) or "TOARMUTS_LIBRARY" in os.environ
    other = "ctypes" if asked == "cffi" else "cffi"
    if (asked == "cffi" and for_ctypes and not for_cffi) or (asked == "ctypes" and for_cffi and not for_ctypes):
        raise LibraryError(f"TOARMUTS_BACKEND is {asked!r}, and toarmuts was built for {other}; "
                           f"`TOARMUTS_BACKEND={asked} pip install ./python` in the repository builds it so")


def _has_cffi() -> bool:
    """Whether cffi is installed: a wheel that was built with it may be used without."""
    return importlib.util.find_spec("_cffi_backend") is not None


def _choose() -> Library:
    asked = os.environ.get("TOARMUTS_BACKEND", "")
    if asked not in ("", "cffi", "ctypes"):
        raise LibraryError(f"TOARMUTS_BACKEND is {asked!r}; cffi or ctypes is allowed")
    _refuse_other_backend(asked)
    by_cffi = asked == "cffi" or (not asked and "TOARMUTS_LIBRARY" not in os.environ and any(HERE.glob("_native*.so")))
    if by_cffi and not asked and not _has_cffi():
        by_cffi = not any(HERE.glob("_library*.so"))
    try:
        return _by_cffi() if by_cffi else _by_ctypes()
    except LibraryError:
        raise
    except (ImportError, OSError, AttributeError) as fault:
        raise LibraryError(f"toarmuts: the compiled library can't be loaded: {fault}; {MAKE}") from fault


@functools.lru_cache(maxsize=None)
def library() -> Library:
    """The library, loaded once."""
    loaded = _choose()
    if "TOARMUTS_LIBRARY" not in os.environ:
        _warn_where_stale()
    return loaded


def _note() -> dict[str, Any]:
    """What the build noted; nothing where the package is used in its repository."""
    try:
        content: dict[str, Any] = json.loads((HERE / "built.json").read_text(encoding="utf-8"))
    except OSError:
        return {}
    return content


def repository() -> pathlib.Path | None:
    """The repository that the package was built from, where it is still there; TOARMUTS_REPOSITORY may name another."""
    named = os.environ.get("TOARMUTS_REPOSITORY") or _note().get("repository")
    if named:
        folder = pathlib.Path(named)
    elif HERE.parts[-3:] == ("python", "src", "toarmuts"):
        folder = HERE.parents[2]
    else:
        return None
    return folder if (folder / "crates" / "toarmuts").is_dir() and not belongs_to_another(folder) else None


def belongs_to_another(place: pathlib.Path) -> bool:
    """Whether a file or folder belongs to someone other than this user, root, and whoever installed the package: then nothing of it is
    run. A path that was noted at the build may be anyone's by now."""
    if "TOARMUTS_REPOSITORY" in os.environ:
        return False
    return place.stat().st_uid not in (0, os.geteuid(), HERE.stat().st_uid)


def _warn_where_stale() -> None:
    """Warns where the library is unproved, or is no longer the repository's."""
    note, root = _note(), repository()
    made = root / "crates/toarmuts/out/libtoarmuts.a" if root is not None else None
    # An editable installation has no note.
    if not note.get("is_proved", bool(note) or made is None or made.exists()):
        warnings.warn("the library of toarmuts is unproved; `./prove toarmuts` in the repository, and then `pip install ./python`, "
                      "make a proved one", stacklevel=2)
    if made is None or "library" not in note:
        return
    if made.exists() and hashlib.sha256(made.read_bytes()).hexdigest() != note["library"]:
        warnings.warn(f"toarmuts was built with another library than {made}: `pip install {root}/python` rebuilds it", stacklevel=2)
