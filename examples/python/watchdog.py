"""An application with a fault: it stops a timer, and mistakes the event that the timer had posted before for a new one."""
from __future__ import annotations

from toarmuts import Event, EventCode, Print, Run, TimerExpired, TimerReset, TimerRestart, TimerSet, Turns, Wait

BEAT, WATCHDOG = 0, 1
PATIENCE = 8


def watchdog(repaired: bool = False) -> Turns:
    """Prints ``beat`` every five ticks, and ``dead`` if eight pass without one.

    The fault: where the clock jumps over both, the two events wait in the queue. ``beat`` sets the watchdog anew, but its event is
    delivered all the same.
    """
    yield TimerSet(BEAT, 5)
    yield TimerSet(WATCHDOG, PATIENCE)
    while True:
        stimulus = yield Wait()
        if stimulus == Event(EventCode.TIMER, BEAT):
            yield Print(b"beat\n")
            yield TimerRestart(WATCHDOG)
            yield TimerReset(BEAT)
        elif stimulus == Event(EventCode.TIMER, WATCHDOG):
            expired = yield TimerExpired(WATCHDOG)
            if expired.value or not repaired:
                yield Print(b"dead\n")


def repaired_watchdog() -> Turns:
    """The same without the fault."""
    yield from watchdog(repaired=True)


def fault_of(run: Run) -> str | None:
    """``dead`` comes eight ticks after the last ``beat``, and not before."""
    last = 0
    for turn in run.transcript.turns(4):
        clock = turn.clock or 0
        if turn.call == Print(b"beat\n"):
            last = clock
        elif turn.call == Print(b"dead\n") and clock < last + PATIENCE:
            return "it is dead too soon"
    return None
