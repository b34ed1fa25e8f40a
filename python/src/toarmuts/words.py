"""Entries in words."""
from __future__ import annotations

from .call import Call
from .numbers import EventCode, Origin, Refusal
from .transcript import BAD_LINE, HALT, Ending, Entry, Input, InputKind, Note, Turn
from .rules import RULES
from .values import Callback, Event, Payload, Reply, Stimulus


def bytes_words(data: bytes) -> str:
    """Bytes as text where they are text, otherwise in hex."""
    if data and all(32 <= byte < 127 or byte in b"\n\r\t" for byte in data):
        return repr(data)[1:]
    return data.hex() or "no bytes"


def _payload_words(payload: Payload) -> str:
    if payload is None:
        return ""
    return " with " + (bytes_words(payload) if isinstance(payload, bytes) else str(payload))


def refusal_words(refusal: Refusal) -> str:
    """A refusal's number, and what it means."""
    return f"refused with {refusal.value}: {RULES.refusals[refusal.value].about}"


def _event_words(event: Event, origin: Origin | None) -> str:
    name = EventCode(event.code).name.replace("_", " ") if event.code in RULES.events else str(event.code)
    words = f"event {name}{_payload_words(event.payload)}"
    if event.code == EventCode.TIMER and isinstance(event.payload, int):
        words = f"its event timer {event.payload} ran out"
    elif event.code == EventCode.INIT:
        words = "it starts (INIT)"
    return f"{words}, at once" if origin is Origin.SYNCH and event.code != EventCode.INIT else words


def stimulus_words(stimulus: Stimulus, origin: Origin | None = None) -> str:
    """What a process receives, in words."""
    if isinstance(stimulus, Event):
        return _event_words(stimulus, origin)
    if isinstance(stimulus, Callback):
        return f"its callback timer {stimulus.timer} ran out"
    if stimulus.refusal is not None:
        return f"its call was {refusal_words(stimulus.refusal)}"
    return f"the reply to its call is {_reply_words(stimulus)}"


def _reply_words(reply: Reply) -> str:
    return bytes_words(reply.value) if isinstance(reply.value, bytes) else str(reply)


def call_words(call: Call) -> str:
    """A call in words, with bytes as text."""
    shown = []
    for name, argument in zip(call.rule.arguments, call.arguments):
        words = name.replace("_", " ")
        value = bytes_words(argument) if isinstance(argument, bytes) else argument
        shown.append(f"no {words}" if argument is None else f"{words} {value}")
    return f"{call.word}{' (' + ', '.join(shown) + ')' if shown else ''}"


def explain(entry: Entry) -> str:
    """An entry in words."""
    if isinstance(entry, Turn):
        return f"process {entry.process}: {stimulus_words(entry.stimulus, entry.origin)}; it calls {call_words(entry.call)}"
    if isinstance(entry, Input):
        if entry.kind is InputKind.TICK:
            return f"the clock goes on by {entry.ticks}"
        what = "on the serial line" if entry.kind is InputKind.SERIAL else "as a frame"
        return f"{bytes_words(entry.data)} comes in {what}"
    if isinstance(entry, Note):
        if entry.refusal is not None:
            return f"the frame was lost: {RULES.refusals[entry.refusal.value].about}"
        return f"a frame was sent: {bytes_words(entry.data)}"
    return _ending_words(entry)


def _ending_words(entry: Entry) -> str:
    kind = entry._kind
    if kind == HALT:
        return f"the mote halted: the turns and rounds of this input reached {RULES.limits['work_of_an_input']:,}"
    if kind == BAD_LINE and isinstance(entry, Ending):
        return f"line {entry.bad_line} of the script is malformed"
    return f"the script has more than {RULES.limits['bytes_of_a_script']:,} bytes"
