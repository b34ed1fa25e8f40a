"""What a page of `mote_picture --page` says: its data, and what holds at each line by these, and by the rules."""

import json
from typing import Any, Iterator, Sequence

from run_replay import State
from tools import CRATES, Completed, program, run

WEB = CRATES / "mote_picture/web"
# A page's data may have lists with so many numbers to an item: their names, and the fields.
TABLES = {
    "activations": ("pid", "first", "last"), "lives": ("pid", "first", "end"), "gifts": ("from", "to", "first"),
    "curves": ("from", "first", "to", "last"), "armings": ("pid", "timer", "first", "end", "due", "told"), "waits": ("first", "end"),
    "managed": ("pid", "name", "at", "taken", "size", "first", "end"), "heap": ("pid", "name", "at", "taken", "size", "first", "end"),
    "used": ("pid", "name", "at", "taken", "size", "first", "end"), "linked": ("pid", "name", "at", "taken", "size", "first", "end"),
}
# What is told of a transcript's lines: for each, all that holds there.
Told = list[dict[str, Any]]


def picture(words: Sequence[str], transcript: str) -> Completed:
    return run(program("mote_picture"), *words, stdin=transcript.encode())


def template_parts() -> tuple[str, str]:
    """The texts before and after a page's data, from the files that the source is made of."""
    page = (WEB / "page.html").read_text(encoding="utf-8")
    for place, name in (("@STYLE@\n", "page.css"), ("@SCRIPT@\n", "page.js")):
        page = page.replace(place, (WEB / name).read_text(encoding="utf-8"))
    front, back = page.split("@DATA@")
    return front, back


def data_in(page: str) -> tuple[str, Any]:
    """A page's data, as text and parsed; both are empty where the page is none of the template."""
    front, back = template_parts()
    if not page.startswith(front) or not page.endswith(back):
        return "", {}
    text = page[len(front):len(page) - len(back)]
    return text, json.loads(text)


def items_in(data: Any, name: str) -> Iterator[dict[str, Any]]:
    fields, numbers = TABLES[name], data[name]
    for place in range(0, len(numbers), len(fields)):
        yield dict(zip(fields, numbers[place:place + len(fields)]))


def there(data: Any, name: str, line: int) -> list[dict[str, Any]]:
    return [item for item in items_in(data, name) if item["first"] <= line and (item["end"] is None or line < item["end"])]


def lists_in(data: Any, line: int) -> list[Any]:
    lists: dict[int, list[int]] = {}
    chains = data["chains"]
    place = 0
    while place < len(chains):
        made, name, count = chains[place:place + 3]
        if made <= line:
            lists[name] = chains[place + 3:place + 3 + count]
        place += 3 + count
    return [[name, blocks] for name, blocks in sorted(lists.items()) if blocks]


def told_by_data(data: Any, line: int) -> dict[str, Any]:
    """All that holds at a line, by a page's data."""
    active = [item for item in items_in(data, "activations") if item["first"] <= line <= item["last"]]
    blocks = sorted(there(data, "managed", line), key=lambda block: int(block["at"]))
    return {
        "active": [item["pid"] for item in sorted(active, key=lambda item: int(item["first"]))],
        "managed": [[block["pid"], block["pid"] != 3 and block["name"], block["size"]] for block in blocks],
        "heap": sorted([block["pid"], block["name"], block["size"]] for block in there(data, "heap", line)),
        "used": sorted([block["at"], block["pid"]] for block in there(data, "used", line)),
        "linked": sorted([block["at"], block["name"]] for block in there(data, "linked", line)),
        "lists": lists_in(data, line),
        "timers": sorted([item["pid"], item["timer"] >= 8, item["timer"] % 8, item["due"]] for item in there(data, "armings", line)),
        "events": sorted(item["first"] for item in there(data, "waits", line)),
    }


def told_by_replay(state: State) -> dict[str, Any]:
    memory, lists = state.memory, list(enumerate(state.memory.pools.lists))
    linked = [(16 * (name // 2) + block, name) for name, blocks in lists for block in blocks]
    return {
        "active": state.active,
        "managed": [[pid, pid != 3 and name, len(data)] for (pid, name), data in memory.managed.blocks.items()],
        "heap": sorted([*block.key, len(block.data)] for block in memory.heap.blocks),
        "used": sorted([16 * pool + block, pid] for (pool, block), pid in memory.pools.owners.items()),
        "linked": sorted([block, name] for block, name in linked),
        "lists": [[name, blocks] for name, blocks in lists if blocks],
        "timers": sorted([pid, kind == "callback", number, due] for (pid, kind, number), due in state.armed().items()),
        "events": state.queue,
    }


def marks_in(data: Any, line: int) -> dict[str, Any]:
    """What the lanes show at a line: which processes live, who gives whom something at once, and who posted what is told to whom, and in
    which line."""
    return {
        "lives": sorted(life["pid"] for life in there(data, "lives", line)),
        "gifts": [[gift["from"], gift["to"]] for gift in items_in(data, "gifts") if gift["first"] == line],
        "curves": [[curve["from"], curve["first"], curve["to"]] for curve in items_in(data, "curves") if curve["last"] == line],
    }


def marks_wanted(state: State, lines: Sequence[str]) -> dict[str, Any]:
    """The same, by the rules. A turn's first word is its process."""
    posted = state.posted
    return {
        "lives": sorted(state.alive),
        "gifts": [] if state.giver is None else [[state.giver, state.running]],
        "curves": [] if posted is None else [[int(lines[posted].partition(" ")[0]), posted, state.running]],
    }


def first_difference(told: Told, wanted: Told) -> str:
    """The first line with another description, and that description; nothing if all are the same."""
    for line, (own, other) in enumerate(zip(told, wanted)):
        for key, value in other.items():
            if own.get(key) != value:
                return f"line {line + 1}, {key}: {own.get(key)} and not {value}"
    return "" if len(told) == len(wanted) else f"{len(told)} lines and not {len(wanted)}"
