"""The memory of a mote in plain lists, after docs/managed-memory.md, heap-memory.md and pools.md: the reply that each call must have."""

import re
from dataclasses import dataclass, field
from typing import Callable

# The refusals of calls on memory.
BAD_NAME, IN_USE, NOT_LIVE, EMPTY, RANGE, NO_ROOM, NO_BLOCK, LINKED, NOT_LINKED, OVER_QUOTA = 7, 8, 9, 10, 11, 12, 13, 14, 15, 18
# A rest of a gap of more bytes than these stays a gap.
LARGEST_SPLINTER = 16
USABLE = (12, 28, 60, 124)
BLOCKS = 16
MOST_READ = 64
TURN = re.compile(r"(\d+) (\w+) (.*) -> (.*)")


class Refused(Exception):
    """A call is refused, with this number."""


def rounded(size: int) -> int:
    return (size + 3) // 4 * 4


def read(data: bytearray, at: int, length: int) -> str:
    if length > MOST_READ or at + length > len(data):
        raise Refused(RANGE)
    return f"bytes {data[at:at + length].hex() or '-'}"


def write(data: bytearray, at: int, written: bytes) -> str:
    if at + len(written) > len(data):
        raise Refused(RANGE)
    data[at:at + len(written)] = written
    return "done"


class Managed:
    """Blocks by process and handle, which have no position."""

    def __init__(self, size: int, quota: int | None) -> None:
        self.size, self.quota = size, quota
        self.blocks: dict[tuple[int, int], bytearray] = {}

    def live(self, pid: int, handle: int) -> bytearray:
        if handle >= BLOCKS:
            raise Refused(BAD_NAME)
        if (pid, handle) not in self.blocks:
            raise Refused(NOT_LIVE)
        return self.blocks[pid, handle]

    def free(self, pid: int) -> int:
        used = sum(rounded(len(data)) for (owner, _), data in self.blocks.items() if self.quota is None or owner == pid)
        return (self.size if self.quota is None else self.quota) - used

    def mmem_alloc(self, pid: int, handle: int, size: int) -> str:
        if handle >= BLOCKS:
            raise Refused(BAD_NAME)
        if (pid, handle) in self.blocks:
            raise Refused(IN_USE)
        if size == 0:
            raise Refused(RANGE)
        if rounded(size) > self.free(pid):
            raise Refused(NO_ROOM if self.quota is None else OVER_QUOTA)
        self.blocks[pid, handle] = bytearray(size)
        return "done"

    def mmem_free(self, pid: int, handle: int) -> str:
        self.live(pid, handle)
        del self.blocks[pid, handle]
        return "done"

    def mmem_read(self, pid: int, handle: int, at: int, length: int) -> str:
        return read(self.live(pid, handle), at, length)

    def mmem_write(self, pid: int, handle: int, at: int, data: bytes) -> str:
        return write(self.live(pid, handle), at, data)

    def mmem_copy(self, pid: int, source: int, target: int) -> str:
        if max(source, target) >= BLOCKS:
            raise Refused(BAD_NAME)
        return write(self.live(pid, target), 0, bytes(self.live(pid, source)))

    def mmem_avail(self, pid: int) -> str:
        return f"num {self.free(pid)}"


@dataclass
class Placed:
    """A block of the heap: its owner and number, where its header begins, and the bytes behind that, of which it has some."""
    key: tuple[int, int]
    at: int
    room: int
    data: bytearray


@dataclass
class Heap:
    """Blocks from the lowest position on, and the gaps between them."""
    size: int
    header: int
    blocks: list[Placed] = field(default_factory=list)

    def end(self, block: Placed) -> int:
        return block.at + self.header + block.room

    def gaps(self) -> list[tuple[int, int]]:
        """Where each gap begins and ends. The last one is the top gap, which may be empty."""
        ends = [0, *map(self.end, self.blocks)]
        lower = [(end, block.at) for end, block in zip(ends, self.blocks) if end < block.at]
        return [*lower, (ends[-1], self.size)]

    def least_room(self, size: int) -> int:
        return max(rounded(size), 8 if self.header == 8 else 4)

    @staticmethod
    def room(least: int, most: int) -> int:
        """The room that a block takes which needs the least, where there is the most below the top gap."""
        return least if most - least > LARGEST_SPLINTER else most

    def place(self, size: int) -> tuple[int, int]:
        """Where a new block goes, and its room."""
        least = self.least_room(size)
        *lower, (top, limit) = self.gaps()
        fitting = [(end - begin, begin) for begin, end in lower if end - begin >= self.header + least]
        if fitting:
            length, begin = min(fitting)
            return begin, self.room(least, length - self.header)
        if limit - top < self.header + least:
            raise Refused(NO_ROOM)
        return top, least

    def room_in_place(self, block: Placed, size: int) -> int | None:
        least, end = self.least_room(size), self.end(block)
        if least <= block.room:
            return self.room(least, block.room)
        *lower, (top, limit) = self.gaps()
        if top == end:
            return least if block.room + limit - top >= least else None
        most = block.room + sum(behind - begin for begin, behind in lower if begin == end)
        return self.room(least, most) if most >= least else None

    def live(self, pid: int, number: int) -> Placed:
        if number >= BLOCKS:
            raise Refused(BAD_NAME)
        for block in self.blocks:
            if block.key == (pid, number):
                return block
        raise Refused(NOT_LIVE)

    def insert(self, block: Placed) -> None:
        self.blocks = sorted([*self.blocks, block], key=lambda it: it.at)

    def heap_alloc(self, pid: int, number: int, size: int) -> str:
        if number >= BLOCKS:
            raise Refused(BAD_NAME)
        if any(block.key == (pid, number) for block in self.blocks):
            raise Refused(IN_USE)
        if size == 0:
            raise Refused(RANGE)
        self.insert(Placed((pid, number), *self.place(size), bytearray(size)))
        return "done"

    def heap_realloc(self, pid: int, number: int, size: int) -> str:
        block = self.live(pid, number)
        if size == 0:
            raise Refused(RANGE)
        room = self.room_in_place(block, size)
        # The old block is still live where a new one is looked for.
        at, room = self.place(size) if room is None else (block.at, room)
        self.blocks.remove(block)
        self.insert(Placed(block.key, at, room, block.data[:size].ljust(size, b"\0")))
        return "done"

    def heap_free(self, pid: int, number: int) -> str:
        self.blocks.remove(self.live(pid, number))
        return "done"

    def heap_read(self, pid: int, number: int, at: int, length: int) -> str:
        return read(self.live(pid, number).data, at, length)

    def heap_write(self, pid: int, number: int, at: int, data: bytes) -> str:
        return write(self.live(pid, number).data, at, data)

    def heap_stats(self, _pid: int) -> str:
        available = sum(end - begin for begin, end in self.gaps())
        footprint = self.end(self.blocks[-1]) if self.blocks else 0
        count = len(self.blocks)
        return f"stats {sum(block.room for block in self.blocks)} {self.header * count} {available} {footprint} {count}"


class Pools:
    """The used blocks of the pools, which all processes share, and the lists, two for each pool."""

    def __init__(self) -> None:
        self.used: dict[tuple[int, int], bytearray] = {}
        # Which process allocated each of them.
        self.owners: dict[tuple[int, int], int] = {}
        self.lists: list[list[int]] = [[] for _ in range(2 * len(USABLE))]

    @staticmethod
    def check_names(pool: int, *blocks: int) -> None:
        if pool >= len(USABLE) or max(blocks, default=0) >= BLOCKS:
            raise Refused(BAD_NAME)

    def live(self, pool: int, block: int) -> bytearray:
        self.check_names(pool, block)
        if (pool, block) not in self.used:
            raise Refused(NOT_LIVE)
        return self.used[pool, block]

    def memb_alloc(self, pid: int, pool: int) -> str:
        self.check_names(pool)
        for block in range(BLOCKS):
            if (pool, block) not in self.used:
                self.used[pool, block], self.owners[pool, block] = bytearray(USABLE[pool]), pid
                return f"num {block}"
        raise Refused(NO_BLOCK)

    def memb_free(self, _pid: int, pool: int, block: int) -> str:
        self.live(pool, block)
        if block in self.lists[2 * pool] + self.lists[2 * pool + 1]:
            raise Refused(LINKED)
        del self.used[pool, block], self.owners[pool, block]
        return "done"

    def memb_read(self, _pid: int, pool: int, block: int, at: int, length: int) -> str:
        return read(self.live(pool, block), at, length)

    def memb_write(self, _pid: int, pool: int, block: int, at: int, data: bytes) -> str:
        return write(self.live(pool, block), at, data)

    def memb_num_free(self, _pid: int, pool: int) -> str:
        self.check_names(pool)
        return f"num {BLOCKS - sum(of == pool for of, _ in self.used)}"

    def named(self, chain: int, *blocks: int) -> list[int]:
        self.check_names(chain // 2, *blocks)
        return self.lists[chain]

    def taken_out(self, chain: int, block: int) -> list[int]:
        """The list without the block, which is to be put there."""
        found = self.named(chain, block)
        self.live(chain // 2, block)
        if block in self.lists[chain ^ 1]:
            raise Refused(LINKED)
        if block in found:
            found.remove(block)
        return found

    def list_add(self, _pid: int, chain: int, block: int) -> str:
        self.taken_out(chain, block).append(block)
        return "done"

    def list_push(self, _pid: int, chain: int, block: int) -> str:
        self.taken_out(chain, block).insert(0, block)
        return "done"

    def list_insert(self, _pid: int, chain: int, previous: int, block: int) -> str:
        before = list(self.named(chain, previous, block))
        found = self.taken_out(chain, block)
        if previous not in found:
            self.lists[chain] = before
            raise Refused(NOT_LINKED)
        found.insert(found.index(previous) + 1, block)
        return "done"

    def end_of(self, chain: int) -> list[int]:
        found = self.named(chain)
        if not found:
            raise Refused(EMPTY)
        return found

    def list_pop(self, _pid: int, chain: int) -> str:
        return f"num {self.end_of(chain).pop(0)}"

    def list_chop(self, _pid: int, chain: int) -> str:
        return f"num {self.end_of(chain).pop()}"

    def list_head(self, _pid: int, chain: int) -> str:
        return f"num {self.end_of(chain)[0]}"

    def list_remove(self, _pid: int, chain: int, block: int) -> str:
        found = self.named(chain, block)
        if block not in found:
            raise Refused(NOT_LINKED)
        found.remove(block)
        return "done"

    def list_next(self, _pid: int, chain: int, block: int) -> str:
        found = self.named(chain, block)
        if block not in found:
            raise Refused(NOT_LINKED)
        if found[-1] == block:
            raise Refused(EMPTY)
        return f"num {found[found.index(block) + 1]}"

    def list_length(self, _pid: int, chain: int) -> str:
        return f"num {len(self.named(chain))}"


class Memory:
    """All three."""

    def __init__(self, managed: int, heap: int, header: int, quota: int | None) -> None:
        self.managed, self.heap, self.pools = Managed(managed, quota), Heap(heap, header), Pools()

    def reply(self, pid: int, call: str) -> str | None:
        """The reply to a process's call in the words of a transcript, or None where it isn't one on memory."""
        word, *arguments = call.split(" ")
        name = word.replace("-", "_")
        parts = (self.managed, self.heap, self.pools)
        carry_out: Callable[..., str] | None = next((getattr(part, name) for part in parts if hasattr(part, name)), None)
        if carry_out is None:
            return None
        values: list[int | bytes] = list(map(int, arguments[:-1] if word.endswith("-write") else arguments))
        if word.endswith("-write"):
            values.append(bytes.fromhex(arguments[-1].strip("-")))
        try:
            return carry_out(pid, *values)
        except Refused as why:
            return f"refused {why.args[0]}"


def wrong_lines(transcript: str, memory: Memory) -> list[str]:
    """The replies to calls on memory that the replay doesn't have, each below its call."""
    awaited: dict[str, tuple[str, str | None]] = {}
    wrong = []
    for line in transcript.splitlines():
        turn = TURN.fullmatch(line)
        if turn is None:
            continue
        process, origin, stimulus, call = turn.groups()
        if origin == "answer":
            asked, reply = awaited.pop(process)
            if reply not in (None, stimulus):
                wrong.append(f"{asked}\n{line}, and not {reply}")
        if call not in ("wait", "exit"):
            awaited[process] = line, memory.reply(int(process), call)
    return wrong
