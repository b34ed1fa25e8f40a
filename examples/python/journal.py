"""An application with a fault: after a restart it still has its block, and mistakes the refusal of a new one for a lack of memory."""
from __future__ import annotations

from toarmuts import Call, Event, EventCode, Exit, HeapAlloc, HeapWrite, Refusal, Reply, Run, Stimulus, Wait

SIZE = 32


class Journal:
    """Stores the last line of the serial line in a block of heap memory.

    The fault: what a process holds is there when it is started again, so that its block is refused as in use then; and it ends itself.
    """

    repaired = False

    def __init__(self) -> None:
        self.opens = False

    def turn(self, stimulus: Stimulus) -> Call:
        """The call for this stimulus."""
        match stimulus:
            case Event(code=EventCode.INIT):
                self.opens = True
                return HeapAlloc(0, SIZE)
            case Reply() if self.opens:
                self.opens = False
                is_there = stimulus.ok or (self.repaired and stimulus.refusal is Refusal.IN_USE)
                return Wait() if is_there else Exit()
            case Event(code=EventCode.SERIAL_LINE, payload=bytes(line)):
                return HeapWrite(0, 0, line[:SIZE])
        return Wait()


class RepairedJournal(Journal):
    """The same without the fault."""

    repaired = True


def fault_of(run: Run) -> str | None:
    """The first application never ends itself."""
    return "the journal ends itself" if any(turn.call == Exit() for turn in run.transcript.turns(4)) else None
