"""Networks for tests: read from scripts of the program `network`, and drawn by chance."""
from __future__ import annotations

import random
import re
from typing import NamedTuple

from common import NAMES, ROOT, random_call

from toarmuts import Network, Options

PROGRAM = ROOT / "crates/network/out/network"
SETS_UP = ("mote", "link", "line", "ring", "mesh", "grid", "room", "rounds")


class StoredNetwork(NamedTuple):
    """A worked network: its name, script and transcript, the words after `network`, and the status of its run."""
    name: str
    script: str
    transcript: str
    words: str = ""
    status: int = 0


def stored_networks():
    """Those of tests/networks, whose form tests/stored_cases.py has."""
    for file in sorted((ROOT / "tests/networks").iterdir()):
        text = file.read_text()
        texts = dict(re.findall(r"^-- (\w+)\n((?:(?!-- ).*\n)*)", text, re.M))
        words, status = re.match(r"\$ network ?(.*)", text)[1], re.search(r"^-- status (\d+)$", text, re.M)
        yield StoredNetwork(file.stem, texts.get("stdin", ""), texts.get("stdout", ""), words, int(status[1]) if status else 0)


def carriage(words):
    """What the end of a line with links says."""
    named = dict(zip(words[::2], map(int, words[1::2])))
    return {name: named[name] for name in ("delay", "every", "lot", "seed") if name in named}


def span(word):
    """The motes of N..M."""
    first, last = map(int, word.split(".."))
    return range(first, last + 1)


def add_motes(network, numbers, words):
    """Adds the motes of a line."""
    first, _, last = numbers.partition("..")
    names, is_list, calls = f" {words}".partition(" calls")
    sizes = {name: int(size) for name, size in re.findall(r"--([a-z]+) ([0-9]+)", names)}
    applications = re.sub(r"--[a-z]+ [0-9]+", "", names).split()
    applications += [f"calls{calls}"] if is_list else []
    network.add(*applications, count=int(last or first) - int(first) + 1, options=Options(**sizes))


def read_network(text):
    """A network and the inputs of a script for the program, where each line of it is well formed."""
    lines = [line for line in text.splitlines() if line and not line.startswith("#")]
    limits = {word: int(number) for word, number in (line.split(" ")[:2] for line in lines if line.startswith(("room ", "rounds ")))}
    network = Network(**limits)
    for word, _, rest in (line.partition(" ") for line in lines):
        words = rest.split(" ")
        if word == "mote":
            add_motes(network, words[0], " ".join(words[1:]))
        elif word == "link":
            network.link(int(words[0]), int(words[1]), **carriage(words[2:]))
        elif word == "grid":
            network.grid(int(words[2]), span(words[0]), **carriage(words[3:]))
        elif word in ("line", "ring", "mesh"):
            getattr(network, word)(span(words[0]), **carriage(words[1:]))
    return network, [line for line in lines if line.partition(" ")[0] not in SETS_UP]


def random_mote(chance):
    """A mote of up to four applications; the last one may be a list of calls."""
    applications = [chance.choice(NAMES) for _ in range(chance.choice((0, 1, 1, 1, 2, 3)))]
    if chance.random() < 0.4:
        applications.append([random_call(chance) for _ in range(chance.randrange(12))])
    if chance.random() < 0.02:
        applications.insert(0, "clock-watcher")
    sizes = {"mmem": 4 * chance.randint(8, 40)} if chance.random() < 0.25 else {}
    if chance.random() < 0.1:
        sizes = {"mmem": 400, "quota": 4 * chance.randint(1, 16), "header": 8}
    return applications, Options(**sizes)


def random_loss(chance):
    """A rule for losses, or none."""
    return chance.choice(({}, {}, {"every": chance.randint(1, 4)}, {"lot": chance.randrange(65537), "seed": chance.randrange(2**32)}))


def random_input(chance, motes):
    """A line after those that set a network up."""
    mote, data = chance.randint(1, motes), bytes(chance.randrange(256) for _ in range(chance.choice((1, 2, 12, 126)))).hex()
    return chance.choice((f"tick {chance.choice((0, 1, 3, 7, 30))}", f"tick {chance.randint(1, 12)}", f"{mote} frame {data}",
                          f"{mote} serial {data}0a", "# nothing"))


def random_network(number):
    """A network of 1 to 8 motes that isn't started, and inputs."""
    chance = random.Random(f"network {number}")
    motes = chance.randint(1, 8)
    network = Network(room=chance.choice((1024, 1024, 12, 3)), rounds=3000)
    for _ in range(motes):
        applications, options = random_mote(chance)
        network.add(*applications, options=options)
    for _ in range(chance.randrange(2 * motes)):
        network.link(chance.randint(1, motes), chance.randint(1, motes), delay=chance.randint(1, 12), **random_loss(chance))
    if motes > 2 and chance.random() < 0.3:
        getattr(network, chance.choice(("line", "ring", "mesh")))(delay=chance.randint(1, 4), **random_loss(chance))
    return network, [random_input(chance, motes) for _ in range(chance.randint(1, 12))]
