"""Toarmuts: runs of a proved sensor mote, their transcripts as objects, and applications in Python.

>>> import toarmuts
>>> run = toarmuts.run(["blink"], "tick 10\\ntick 10\\n")
>>> run.end.value, run.printed()
('finished', b'on\\noff\\n')
>>> for entry in run.transcript[:3]:
...     print(entry)
4 synch 129 - -> timer-set 0 10
4 answer done -> wait
> tick 10

``toarmuts.strategies`` (for Hypothesis), ``toarmuts.campaign`` and ``toarmuts.ipv6`` are modules of their own. docs/python.md of the
repository goes from a clone to a first result.
"""
import importlib as _importlib
import sys as _sys
import typing as _typing

from .applications import Application, ApplicationLike, CallList, Table, Turns
from .call import Call
from .calls import *  # noqa: F401,F403  a class for each call
from .calls import __all__ as _calls
from .coverage import Cell, Coverage, coverage_of
from .difference import Difference, first_difference
from .errors import (ApplicationError, BadCall, BadInput, BadNetwork, BadScenario, BadSizes, BadTranscript, LibraryError, MoteError,
                     NoApplication, NoPicture, NotInPython, NotReached, OutOfMemory, Reason, RunEnded, StackTooSmall, ToarmutsError,
                     TooManyApplications, WrongType)
from .errors import no_attribute as _no_attribute
from .library import library as _library
from .links import Link, Loss
from .mote import Mote
from .network import Network, NetworkMote
from .network_runs import NetworkRun, run_network
from .network_transcript import Frame, NetworkEntry, NetworkKind, NetworkTranscript
from .numbers import EventCode, Origin, Refusal, ReplyKind
from .options import Options
from .record import BadRecord, Record, RecordCheck, read_record
from .rules import RULES, Rules
from .runs import Run, run
from .scenario import Scenario, read_scenarios
from .script import Script
from .transcript import Ending, Entry, Input, InputKind, Note, NoteKind, Transcript, Turn
from .values import Callback, End, Event, Payload, Reply, Stats, Status, Stimulus

__version__ = "0.2.0"

try:
    # Not in the first run: a signal's handler may make another one in the midst of that.
    _library()
except LibraryError:
    # Each run raises it.
    pass

__all__ = [
    "Application", "ApplicationError", "ApplicationLike", "BadCall", "BadInput", "BadNetwork", "BadRecord", "BadScenario", "BadSizes",
    "BadTranscript", "Call", "CallList", "Callback", "Cell", "Coverage", "Difference", "End", "Ending", "Entry", "Event", "EventCode",
    "Frame", "Input", "InputKind", "LibraryError", "Link", "Loss", "Mote", "MoteError", "Network", "NetworkEntry", "NetworkKind",
    "NetworkMote", "NetworkRun", "NetworkTranscript", "NoApplication", "NoPicture", "NotInPython", "NotReached", "Note", "NoteKind",
    "Options", "Origin", "OutOfMemory", "Payload", "RULES", "Reason", "Record", "RecordCheck", "Refusal", "Reply", "ReplyKind", "Rules",
    "Run", "RunEnded", "Scenario", "Script", "StackTooSmall", "Stats", "Status", "Stimulus", "Table", "ToarmutsError",
    "TooManyApplications", "Transcript", "Turn", "Turns", "WrongType", "coverage_of", "first_difference", "read_record", "read_scenarios",
    "run", "run_network",
]
__all__ += _calls

if _typing.TYPE_CHECKING:
    # For a checker of types.
    from . import campaign as campaign, ipv6 as ipv6, network_strategies as network_strategies, strategies as strategies  # noqa: F401
else:
    def __getattr__(name):
        """Modules that take more than the package needs, once they are asked for."""
        if name in ("campaign", "ipv6", "network_strategies", "strategies"):
            return _importlib.import_module(f"{__name__}.{name}")
        fault = _no_attribute(f"module {__name__!r}", name)
        # `from toarmuts import NAME` drops the reason of an AttributeError.
        if _sys._getframe(1).f_code.co_name == "_handle_fromlist" and "it is now" in str(fault):
            raise ImportError(str(fault).replace("has no attribute", "has no name"))
        raise fault
