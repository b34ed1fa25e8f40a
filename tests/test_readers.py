"""Readers of one form, which are separate programs, on the same random texts: each accepts what the others do, and reads the same.

The files of a network are read in C (`./contiki --network`), by the proved programs `network` and `scenario`, and in Python; lists of
calls by the library, in Python and on the page; sizes of a mote by `mote` and by programs in C. Seeds are fixed. What differs is reported
with the shortest text that shows it.
"""

import json
import random
import re
from concurrent.futures import ThreadPoolExecutor
from pathlib import Path
from typing import Any, Callable, Iterable, NamedTuple

import pytest

import test_python
from contiki_programs import HELLO, Contiki
from devtools import Browser
from test_bounded import OF_DRIVER
from test_lists import list_of, spoilt_list
from tools import ROOT, SANITIZERS, run, succeed
from web_page import in_chromium

environments = test_python.environments
MOTES = 6
FIRST_LINE = f"mote 1..{MOTES} hello\n"
SETUP_LINES, INPUT_LINES, SHAPES, LISTS, SIZES = 500, 350, 60, 1500, 250

# Reads each text of a list in JSON, as its kind says, and writes what it is, or where it is malformed.
IN_PYTHON = r"""
import json, re, sys
import toarmuts
from toarmuts.call import Call, read_calls
from toarmuts.errors import BadCall, BadScenario, NoApplication

def mote(number, it):
    sizes = "".join(f" --{name} {getattr(it.options, name)}" for name in ("mmem", "heap", "header", "quota"))
    return f"mote {number} {' '.join(named.shown for named in it.named)}{sizes.removesuffix(' --quota None')}".replace("  ", " ")

def network(text):
    try:
        scenario, = toarmuts.read_scenarios("network\n" + text)
    except BadScenario as fault:
        number = re.match(r"line (\d+): ", str(fault))[1]
        return f"bad line {int(number) - 1}"
    setup = scenario.network.setup
    lines = [*(mote(number, it) for number, it in enumerate(setup.motes, 1)), *map(str, setup.links), f"room {setup.room}",
             f"rounds {setup.rounds}", *scenario.script.lower().splitlines()]
    return "\n".join(lines)

def calls(text):
    try:
        return [str(call) for call in read_calls(text)]
    except BadCall:
        return None

def library(text):
    try:
        made = [str(turn.call) for turn in toarmuts.run([f"calls {text}" if text else "calls"], "").transcript.turns()]
    except NoApplication:
        return None
    return made

def call(text):
    try:
        return str(Call.parse(text))
    except BadCall:
        return None

json.dump([globals()[kind](text) for kind, text in json.load(sys.stdin)], sys.stdout)
"""


class Reading(NamedTuple):
    """What a reader says of a text."""

    reader: str
    says: object


def differences(texts: Iterable[str], *readers: tuple[str, Iterable[object]]) -> str:
    """How many texts readers differ on, and the shortest one with what each says; empty if they agree. None: a reader doesn't read it."""
    found = []
    for text, *said in zip(texts, *(says for _, says in readers)):
        readings = [Reading(name, says) for (name, _), says in zip(readers, said) if says is not None]
        if len({json.dumps(says) for _, says in readings}) > 1:
            found.append((len(text), text, readings))
    if not found:
        return ""
    _, text, readings = min(found, key=lambda it: it[:2])
    return "\n".join([f"{len(found)} texts are read differently, the shortest one is {text!r}:",
                      *(f"  {it.reader}: {it.says}" for it in readings)])


def each(work: Callable[[str], object], texts: Iterable[str]) -> list[object]:
    """Runs a program for each text, four at a time."""
    with ThreadPoolExecutor(4) as pool:
        return list(pool.map(work, texts))


# ---- Files of networks ----

NUMBERS = ["0", "1", "2", "3", "4", "5", "6", "7", "8"]
ODD_NUMBERS = ["01", "65535", "65536", "65537", "4294967295", "4294967296", "18446744073709551617", "-1", "+1", "", "1x", " 1", "1.", "16",
               "20", "64", "4096", "1e1", "0x1", "\u0661"]
HEX = ["", "0", "00", "aB", "Ff", "fF0", "gg", "0g", "g0", "/0", ":0", "@0", "G0", "`0", "6869" * 32, "61" * 127, "61" * 128, "61" * 256,
       "61" * 257, "61 ", " 61", "6 1"]
STRANGE_LINES = ["", "#", " ", "#" * 1024, "#" * 1025, "mote", "link", "room", "rounds", "grid", "\ufeff", "MOTE 7 {app}", "mote 7 {app}\r",
                 "#\r", "link 1 2 delay 1\t", "mote 7 {app}\0", "#\0", "# \u00e9", "grid 1..4", "link 1 2 delay 1 ", "tack 5", "\u00a0"]


def number(chance: random.Random) -> str:
    return chance.choice(NUMBERS if chance.random() < 0.9 else ODD_NUMBERS)


def span(chance: random.Random) -> str:
    form = chance.choice(["{0}..{1}"] * 12 + ["{0}", "{0}.{1}", "{0}...{1}", "{0}..{1}..3", "..{1}", "{0}..", "{1}..{0}"])
    return form.format(chance.choice("1123"), chance.choice("3456") if chance.random() < 0.8 else number(chance))


def loss(chance: random.Random) -> str:
    return chance.choice(["", "", f" every {number(chance)}", f" lot {number(chance)} seed {number(chance)}", " every", " lot 5",
                          f" every {number(chance)} ", f" lot {number(chance)} seed {number(chance)} x", f" lot 5 sead {number(chance)}"])


def setup_line(chance: random.Random) -> str:
    """A line among those that set a network up, after one for six motes. Most are well formed, or nearly so."""
    delay = f"delay {number(chance)}{loss(chance)}"
    sizes = "".join(f" --{chance.choice(['mmem', 'heap', 'header', 'quota', 'size'])} {number(chance)}" for _ in range(chance.randrange(3)))
    kinds = [f"link {number(chance)} {number(chance)} {delay}", f"line {span(chance)} {delay}", f"ring {span(chance)} {delay}",
             f"mesh {span(chance)} {delay}", f"grid {span(chance)} width {number(chance)} {delay}",
             f"{chance.choice(['room', 'rounds'])} {number(chance)}{chance.choice([''] * 5 + [' ', 'x', ' 1'])}",
             f"mote {chance.choice(['7', '7..8', '8', '6', '7..6', '07'])}{chance.choice([' {app}'] * 4 + [' {app} ', '  {app}'])}{sizes}",
             f"mote 7 {{app}} --mmem {chance.choice(['64', '4', '2', '65536', '65540'])} --heap {chance.choice(['20', '16', '22'])}"
             f" --header {chance.choice(['8', '16', '12'])} --quota {chance.choice(['4', '8', '32', '36', '64', '68', '0'])}"]
    return chance.choice(kinds) if chance.random() < 0.9 else chance.choice(STRANGE_LINES)


def input_line(chance: random.Random) -> str:
    kind = chance.choice(["serial", "frame"] * 4 + ["Serial", "tick", "frame ", ""])
    tick = f"tick {number(chance)}{chance.choice([''] * 6 + [' ', 'x', chr(13)])}"
    lines = [f"{number(chance)} {kind} {chance.choice(HEX)}"] * 3 + [tick]
    strange = ["", "#", "1 serial", "1 frame", "tick", "tick  5", "1  serial 61", "mote 7 {app}", "link 1 2 delay 1", "tick 5 # x",
               "x" * 1024, "#" * 1024, "#" * 1025, "tick 5\0", "1 serial 61\0", "#\0", "tick 1\ttick 2"]
    return chance.choice(lines) if chance.random() < 0.85 else chance.choice(strange)


def is_of_scenarios(text: str) -> bool:
    """Whether a scenario file has this line for the network's script. There a number begins a line of a transcript, too, and a comment is
    one of the file."""
    other = re.search(r"^[0-9]\S*(?! (?:serial|frame)(?: |$))(?: |$)|^#.{1024}|\0", text.split("\n", 1)[1], re.M)
    return other is None


@pytest.fixture(scope="module")
def reader_in_c(tmp_path_factory: pytest.TempPathFactory) -> Path:
    built = tmp_path_factory.mktemp("readers") / "reader"
    succeed("gcc", "-std=c11", "-g", "-O1", "-D_XOPEN_SOURCE=700", "-DREPLAY", *SANITIZERS, *OF_DRIVER, ROOT / "tests/fuzz/network_files.c",
            "-o", built)
    return built


def read_in_c(reader: Path, cases: list[tuple[str, str]]) -> list[object]:
    """What the reader in C says of each first file and script: the lines that it read, or where one is malformed."""
    given = [f"{first}\x01{script}".replace("{app}", "hello.c").replace("hello\n", "hello.c\n").encode() for first, script in cases]
    ran = succeed(reader, stdin=b"".join(b"%d\n%b" % (len(case), case) for case in given))
    said: list[object] = []
    for (first, _), text in zip(cases, ran.stdout.decode().split("\0")):
        *lines, last = text.replace("hello.c", "hello").replace("\x01", "").splitlines()
        above = first.count("\n") if last.startswith("bad input") else 0
        said.append("\n".join(lines) if last == "ok" else f"bad line {above + int(last.split()[-1])}")
    assert len(said) == len(cases)
    return said


def read_in_python(python: Path, kind: str, texts: list[str]) -> list[Any]:
    ran = succeed(python, "-c", IN_PYTHON, stdin=json.dumps([(kind, text) for text in texts]).encode())
    said: list[Any] = json.loads(ran.stdout)
    return said


def read_by_network(program: Path, text: str) -> str:
    ran = run(program, "--quiet", stdin=text.encode())
    assert ran.returncode in (0, 2, 3), (text, ran)
    return ran.stdout.decode().splitlines()[-1] if ran.returncode == 2 else "ok"


def read_by_scenario(program: Path, folder: Path, text: str) -> str | None:
    if not is_of_scenarios(text):
        return None
    file = folder / f"{abs(hash(text))}.scenario"
    file.write_bytes(b"network\n" + text.encode())
    ran = run(program, file.name, cwd=folder)
    found = re.match(rb"scenario: [^:]*: line (\d+): ", ran.stderr)
    assert (ran.returncode == 2) == (found is not None), (text, ran)
    return "ok" if found is None else f"bad line {int(found[1]) - 1}"


def agree_on_files(cases: list[tuple[str, str]], in_c: list[object], in_python: list[object], network: Path, scenario: Path,
                   folder: Path) -> str:
    """What differs among the four readers: where a file is malformed, and between C and Python what was read."""
    texts = [(first + script).replace("{app}", "hello") for first, script in cases]

    def outcome(said: object) -> object:
        return None if said is None else said if str(said).startswith("bad line") else "ok"
    places = differences(
        texts, ("C", map(outcome, in_c)), ("Python", map(outcome, in_python)),
        ("network", each(lambda text: read_by_network(network, text), texts)),
        ("scenario", each(lambda text: read_by_scenario(scenario, folder, text), texts)))
    return places or differences(texts, ("C", in_c), ("Python", in_python))


def test_files_of_networks(environments: test_python.Environments, reader_in_c: Path, network: Path, scenario: Path,
                           tmp_path: Path) -> None:
    """Lines that set up a network, and inputs, each after a good line."""
    chance = random.Random(5)
    lines = [(f"{FIRST_LINE}{setup_line(chance)}\n", "") for _ in range(SETUP_LINES)]
    inputs = [(FIRST_LINE, f"tick 1\n{input_line(chance)}\n") for _ in range(INPUT_LINES)]
    cases = list(dict.fromkeys(lines + inputs))
    texts = [(first + script).replace("{app}", "hello") for first, script in cases]
    in_python: list[object] = [said if is_of_scenarios(text) else None for text, said in
                               zip(texts, read_in_python(environments("environment"), "network", texts))]
    in_c = read_in_c(reader_in_c, cases)
    assert 100 < sum(str(said).startswith("bad line") for said in in_c) < len(cases) - 100
    found = agree_on_files(cases, in_c, in_python, network, scenario, tmp_path)
    assert not found, found


# ---- Shapes ----

def pairs_of(shape: str, first: int, last: int, width: int) -> list[tuple[int, int]]:
    """The pairs that a shape links, in their order, by the table of docs/network.md."""
    motes = range(first, last + 1)
    if shape == "mesh":
        return [(a, b) for a in motes for b in motes if a < b]
    if shape == "grid":
        return [(a, b) for a in motes for b in (a + 1, a + width) if b <= last and (b - a == width or (b - first) % width != 0)
                ] if width > 1 else [(a, a + 1) for a in motes if a < last]
    return [(a, a + 1) for a in motes if a < last] + ([(last, first)] if shape == "ring" else [])


def shape_of(chance: random.Random) -> tuple[str, list[str]]:
    """The line of a shape, and those of its links."""
    shape, first, delay = chance.choice(["line", "ring", "mesh", "grid"]), chance.randint(1, 6), chance.randint(1, 9)
    last, width = first + chance.randint(2, 14), chance.randint(1, 17)
    lot, seed = chance.choice([0, 7, 30000, 65536]), chance.choice([0, 3, 2**32 - 1000, 2**32 - 2, 2**32 - 1])
    rule, seeded = chance.choice([("", False), (" every 2", False), (f" lot {lot} seed", True), (f" lot {lot} seed", True)])
    both = [link for pair in pairs_of(shape, first, last, width) for link in (pair, pair[::-1])]
    links = [f"link {a} {b} delay {delay}{rule}{f' {seed + place}' if seeded else ''}" for place, (a, b) in enumerate(both)]
    return f"{shape} {first}..{last}{f' width {width}' if shape == 'grid' else ''} delay {delay}{rule}{f' {seed}' if seeded else ''}", links


def test_shapes(environments: test_python.Environments, reader_in_c: Path, network: Path) -> None:
    """The links of a shape, in C and in Python as in the table; each further one has the next seed, also where that exceeds 32 bits. The
    program network writes what it writes with these links, where they can be written."""
    chance = random.Random(6)
    shapes = list(dict(shape_of(chance) for _ in range(SHAPES)).items())
    first = "mote 1..20 calls mmem-alloc 0 1, 3 packet-send 0, timer-set 0 40, wait, packet-send 0\n"

    def links_in(said: object) -> str:
        return "\n".join(re.findall("^link .*", str(said), re.M))
    lines = [line for line, _ in shapes]
    in_c = read_in_c(reader_in_c, [(f"mote 1..20 hello\n{line}\n", "") for line in lines])
    in_python = read_in_python(environments("environment"), "network", [f"mote 1..20 hello\n{line}\n" for line in lines])
    found = differences(lines, ("the table", ["\n".join(links) for _, links in shapes]), ("C", map(links_in, in_c)),
                        ("Python", map(links_in, in_python)))
    runs = [(line, links) for line, links in shapes if all(int(link.split()[-1]) < 2**32 for link in links)]

    def transcript(setup: str) -> object:
        return succeed(network, stdin=f"{first}{setup}\ntick 100\n".encode()).stdout.decode()
    found = found or differences([line for line, _ in runs], ("network", each(transcript, [line for line, _ in runs])),
                                 ("its links", each(transcript, ["\n".join(links) for _, links in runs])))
    assert len(runs) > SHAPES // 3 and not found, found


# ---- Calls ----

def plain_calls(chance: random.Random) -> list[str]:
    """Lists of calls: good ones, and calls with a fault."""
    return [*(list_of(chance)[0] for _ in range(LISTS // 3)), *(spoilt_list(chance) for _ in range(LISTS)),
            "", "wait,", "wait, ", ", wait", "wait , wait", "wait,wait", "0 wait", "128 wait", "129 wait", "01 wait", "1 1 wait", "+1 wait",
            "64 wait, 65 wait", "127 wait, exit", "Wait", "wait 1", "print", "print -", "print 6", "print 6G", "print " + "61" * 64,
            "print " + "61" * 65, "kill 256", "kill 255", "kill 0x1", "post 4 140 x" + "61" * 127, "post 4 140 x" + "61" * 128,
            "post 4 140 x", "post 4 140 x-",
            "post 4 140 4294967295", "post 4 140 4294967296", "post 4 256 -", "timer-set 8 0", "wait\r", "wait\t", "\u0661 wait"]


def test_lists_of_calls(environments: test_python.Environments) -> None:
    """The library makes exactly the calls that Python reads, and refuses the lists that Python refuses."""
    texts = list(dict.fromkeys(text for text in plain_calls(random.Random(8)) if "\r" not in text))
    python = environments("environment")
    read, made = read_in_python(python, "calls", texts), read_in_python(python, "library", texts)
    # After its calls an application waits; it may wait for ever before the last one.
    shown = [turns if calls is not None and turns == (calls + ["wait"] * len(turns or ()))[:len(turns or ())] else calls
             for calls, turns in zip(read, made)]
    found = differences(texts, ("Python", [calls or "refused" for calls in shown]), ("the library", [turns or "refused" for turns in made]))
    assert not found, found


@in_chromium
def test_calls_on_the_page(environments: test_python.Environments, browser: Browser, tmp_path: Path) -> None:
    """The page's reader of a call, for what is typed there, accepts the same words as Python, and makes the same text of them."""
    lists = plain_calls(random.Random(9))
    parts = (call for text in lists for call in text.split(", "))
    texts = list(dict.fromkeys(call for call in parts if call == " ".join(call.split()) and '"' not in call))[:2000]
    rules = (ROOT / "interface/rules.json").read_text(encoding="utf-8")
    scripts = "\n".join((ROOT / f"web/js/{name}.js").read_text(encoding="utf-8") for name in ("bytes", "calls"))
    page = tmp_path / "calls.html"
    page.write_text(f"<!doctype html><meta charset=utf-8><script>const RULES = {rules};\n{scripts}\nconst isWholePage = true;</script>",
                    encoding="utf-8")
    opened = browser.open(page.as_uri(), 400, 300, False)
    opened.wait_for("typeof isWholePage !== 'undefined'")
    by_page = opened.ask(f"return {json.dumps(texts)}.map((text) => {{ try {{ return readCall(text).text; }} catch (error) {{"
                         " if (error instanceof BadCall) return null; throw error; } });")
    opened.close()
    read = read_in_python(environments("environment"), "call", texts)
    found = differences(texts, ("Python", [text or "refused" for text in read]), ("the page", [text or "refused" for text in by_page]))
    assert 100 < sum(text is None for text in by_page) < len(texts) - 100 and not found, found


# ---- Sizes of one mote ----

def size_words(chance: random.Random) -> str:
    """Arguments that are sizes, or nearly so."""
    words = []
    for _ in range(chance.randrange(1, 4)):
        name = chance.choice(["--mmem", "--heap", "--header", "--quota", "--mmem", "--quiet", "--size", "--mme"])
        value = chance.choice(["64", "20", "16", "8", "4", "0", "65536", "65540", "4294967296", "18446744073709551680", "064", "+64", "-64",
                               "64x", "", " 64", "6 4", "0x40", "32"])
        words += [name] if name == "--quiet" else [f"{name}={value}"] if chance.random() < 0.4 else [name, value]
    return json.dumps(words)


def test_sizes_of_a_mote(contiki: Contiki, mote: Path) -> None:
    """A program in C takes the sizes that mote takes, and refuses the others with the same status."""
    chance = random.Random(10)
    texts = list(dict.fromkeys(size_words(chance) for _ in range(SIZES)))
    built = contiki.build(HELLO)

    def status(*command: str | Path) -> Callable[[str], object]:
        return lambda text: run(*command[:1], *json.loads(text), *command[1:]).returncode
    found = differences(texts, ("mote", each(status(mote, "hello"), texts)), ("a program in C", each(status(built), texts)))
    assert not found, found
