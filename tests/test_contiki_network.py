"""Networks of programs in C: ./contiki --network.

The expected transcripts and texts are written out from the rules of docs/network.md and docs/contiki.md. Applications of mote in C are
compared with the program network, and each mote with a run of ./contiki for it alone, on the inputs in its lines. For more networks of
random calls, TOARMUTS_LISTS is their number, and TOARMUTS_LISTS_FROM the first one's.
"""

import os
import random
import re
from pathlib import Path
from typing import Mapping

import pytest

from contiki_programs import SOURCES, STRICT, Contiki, outcome, program_of
from random_calls import random_lists
from test_network_random import APPLICATIONS, drawn_input, drawn_loss
from tools import EXAMPLES, Completed, Word, output_of, run, table, with_sanitizers

NETWORKS = EXAMPLES / "contiki/networks"
OWN = SOURCES / "networks"
WORKED = sorted(NETWORKS.glob("*.net"))
COPIES = [[], ["--sanitize"]]
RANDOM = 24
LISTS = int(os.environ.get("TOARMUTS_LISTS", "12"))
FIRST = int(os.environ.get("TOARMUTS_LISTS_FROM", "0"))


def sources_of(network: Path) -> list[Path]:
    words = re.findall(r"^mote \S+ (.*)$", network.read_text(encoding="utf-8"), re.M)
    return [network.parent / name for name in dict.fromkeys(" ".join(words).split()) if name.endswith(".c")]


def write_network(folder: Path, text: str) -> Path:
    file = folder / "network.net"
    file.write_text(text, encoding="utf-8")
    return file


class Runner:
    def __init__(self, contiki: Contiki, folder: Path) -> None:
        self.contiki, self.folder = contiki, folder

    def __call__(self, network: str, sources: list[Path], script: str, *words: Word,
                 settings: Mapping[str, str] | None = None) -> Completed:
        return self.contiki("--network", write_network(self.folder, network), *words, *sources, stdin=script.encode(), settings=settings)

    def text(self, network: str, sources: list[Path], script: str, *words: Word) -> list[str]:
        ran = self(network, sources, script, "--text", *words)
        assert (ran.returncode, ran.stderr) == (0, b""), output_of(ran)
        return ran.stdout.decode().splitlines()


@pytest.fixture
def runner(contiki: Contiki, tmp_path: Path) -> Runner:
    return Runner(contiki, tmp_path)


# ---- Examples ----

@pytest.mark.parametrize("words", COPIES, ids=["swapped", "copies"])
@pytest.mark.parametrize("network", WORKED, ids=lambda network: str(network.stem))
def test_example(contiki: Contiki, sanitizing_compiler: str, network: Path, words: list[str]) -> None:
    text = network.with_suffix(".text")
    ran = contiki("--network", network, "--cc", sanitizing_compiler, *STRICT, *words, *(["--text"] if text.exists() else []),
                  *sources_of(network), stdin=network.with_suffix(".script"))
    wanted = (text if text.exists() else network.with_suffix(".transcript")).read_bytes()
    assert (ran.returncode, ran.stdout, ran.stderr) == (0, wanted, b""), output_of(ran)


def test_each_example_is_tried() -> None:
    stems = {network.stem for network in WORKED} | {source.stem for network in WORKED for source in sources_of(network)}
    assert {path.stem for path in NETWORKS.iterdir()} == stems


def test_a_hundred_motes(runner: Runner) -> None:
    """A message floods a grid of ten rows: each mote but the first prints it once, from a neighbour, in the order of their distances."""
    lines = runner.text("mote 1..100 flooding.c\ngrid 1..100 width 10 delay 2\n", [NETWORKS / "flooding.c"], "1 serial 680a\ntick 60\n")
    heard = [re.fullmatch(r"(\d+) h, of 1 by (\d+)", line) for line in lines]
    motes = [(int(match[1]) - 1, int(match[2]) - 1) for match in heard if match]
    assert sorted(mote for mote, _ in motes) == list(range(1, 100)) and len(lines) == 99
    assert all(abs(a // 10 - b // 10) + abs(a % 10 - b % 10) == 1 for a, b in motes)
    distances = [mote // 10 + mote % 10 for mote, _ in motes]
    assert distances == sorted(distances)


@with_sanitizers
def test_message_of_a_high_number(runner: Runner) -> None:
    """A message's origin is a byte: also the largest one, of mote 255, is known again."""
    setup = "mote 1..255 flooding.c\nlink 255 1 delay 1\nlink 1 255 delay 1\n"
    lines = runner.text(setup, [NETWORKS / "flooding.c"], "255 serial 680a\ntick 3\n", "--sanitize")
    assert lines == ["1 h, of 255 by 255"]


# ---- Static data, names and numbers of motes ----

@pytest.mark.parametrize("words", [*COPIES, ["-fcommon", "-fdata-sections"]], ids=["swapped", "copies", "other sections"])
def test_static_data(runner: Runner, words: list[str]) -> None:
    """Each mote has its own static data: those of its program, of the driver and of modules."""
    script = "1 serial 610a\n2 serial 620a\n1 serial 630a\n3 serial 640a\n1 serial 650a\n2 serial 660a\n"
    lines = runner.text("mote 1..3 own_data.c\n", [OWN / "own_data.c"], script, *words)
    counts = {1: "", 2: "", 3: ""}
    for line, (mote, letter) in zip(lines, [(1, "a"), (2, "b"), (1, "c"), (3, "d"), (1, "e"), (2, "f")]):
        counts[mote] += letter
        n = len(counts[mote])
        assert line == f"{mote} {mote}: {n} {40 + n} {n} t{counts[mote]} {n} {n} {2 * n} {n} 0 0 0 1"
    assert len(lines) == 6


def test_two_programs(runner: Runner) -> None:
    """Programs with the same names don't meet, and one of two sources is named by both."""
    sources = [OWN / "own_data.c", OWN / "node.c", SOURCES / "parts/first.c", SOURCES / "parts/second.c", SOURCES / "parts/plain.c"]
    lines = runner.text("mote 1 node.c\nmote 2 own_data.c\nmote 3 first.c second.c plain.c\nmote 4 node.c\n", sources, "2 serial 610a\n")
    assert [line.split()[0] for line in lines if line[0] in "14"] == ["1", "4"] and "2 2: 1 41 1 ta 1 1 2 1 0 0 0 1" in lines
    assert any(line.startswith("3 ") for line in lines)


@pytest.mark.parametrize("words", COPIES, ids=["swapped", "copies"])
def test_numbers_and_addresses(runner: Runner, words: list[str]) -> None:
    """Each two bytes of an address are the mote's number, the high one first. Random numbers are a mote's own."""
    count = 4 if words else 300
    lines = runner.text(f"mote 1..{count} node.c\n", [OWN / "node.c"], "", *words)
    drawn = []
    for number, line in enumerate(lines, 1):
        address, rand, rest = line.split(" ", 4)[2:]
        assert line.startswith(f"{number} {number} {number:04x}{number:04x}{number:04x}{number:04x} ") and rest == "0 0", line
        assert address == f"{number:04x}" * 4
        drawn.append(int(rand))
        # The generator of random.h, whose state begins with the number.
        assert drawn[-1] == (number * 6364136223846793005 + 1442695040888963407) % 2 ** 64 >> 48
    assert len(lines) == count


# ---- Frames ----

ONE, TWO = "0100" * 4, "0200" * 4
SELF, OTHER, NOBODY = ("0001" * 4, "0002" * 4, "0000" * 4)


def test_frames_from_outside(runner: Runner) -> None:
    """A frame for a mote is delivered without its header, one for another mote is dropped, and one without a header is delivered whole."""
    frames = table("contiki_frames")
    lines = runner.text("mote 1 node.c\n", [OWN / "node.c"], "".join(f"1 frame {frame}\n" for _, frame, _ in frames))
    assert lines[1:] == [line for _, _, wanted in frames for line in wanted]


def test_frames_that_are_sent(runner: Runner) -> None:
    """Headers of frames: to all by NULL and by linkaddr_null, to one, to itself, under another address; numbers count on."""
    script = "".join(f"1 serial {line.encode().hex()}0a\n" for line in ("n", "a", "22", "s", "r"))
    ran = runner("mote 1 node.c\n", [OWN / "node.c"], script, "--quiet")
    sent = re.findall(r"^1 note sent (.*)$", ran.stdout.decode(), re.M)
    assert sent == [f"41d801cdabffff{ONE}6e", f"41d802cdabffff{ONE}61", f"61dc03cdab{TWO}{ONE}3200", f"61dc04cdab{ONE}{ONE}73",
                    "41d805cdabffff080706050403020172"], output_of(ran)


def test_numbers_of_frames(runner: Runner) -> None:
    ran = runner("mote 1 node.c\n", [OWN / "node.c"], "1 serial 6e0a\n" * 257, "--quiet")
    assert [int(number, 16) for number in re.findall(r"note sent 41d8(..)", ran.stdout.decode())] == [*range(1, 256), 1, 2]


@pytest.mark.parametrize(("letter", "header", "most"), [("n", 15, 112), ("2", 21, 106)], ids=["to all", "to one"])
def test_longest_frame(runner: Runner, letter: str, header: int, most: int) -> None:
    """A frame has 127 bytes with its header; with one more the program is stopped, and the mote is named."""
    lines = [(letter * length).encode().hex() for length in (most, most + 1)]
    ran = runner("mote 1 node.c\nmote 2 node.c\nlink 1 2 delay 1\n", [OWN / "node.c"], f"1 serial {lines[0]}0a\ntick 1\n", "--text")
    assert ran.stdout.decode().splitlines()[2:] == [f"2 {most} {SELF} {NOBODY if letter == 'n' else OTHER} 1 1", f"2 -60 105 {ord(letter)}"]
    ran = runner("mote 1 node.c\n", [OWN / "node.c"], f"1 serial {lines[1]}0a\n")
    assert ran.returncode == 1 and ran.stderr.decode().endswith(
        f"a frame of {most + 1} bytes can't be sent: with its header, of {header} bytes, it has at most 127\n"), output_of(ran)
    assert ran.stderr.startswith(b"contiki: mote 1, process 4 (Node), handling LINE (138) at line ")


# ---- Against the program network, and against each mote alone ----

def drawn_script(seed: int) -> tuple[str, list[str], str]:
    """A network of applications of mote with {} after each name, their names, and inputs."""
    rng = random.Random(f"contiki {seed}")
    count = rng.randint(2, 9)
    names = [rng.choice(APPLICATIONS) for _ in range(count)]
    setup = [f"mote {number} {name}{{}}" + (f" --mmem {4 * rng.randint(1, 40)}" if rng.randrange(4) == 0 else "")
             for number, name in enumerate(names, 1)]
    setup += [f"link {rng.randint(1, count)} {rng.randint(1, count)} delay {rng.randint(1, 12)} {drawn_loss(rng)}".rstrip()
              for _ in range(rng.randrange(2 * count))]
    setup += [f"room {rng.choice((1024, 12, 3))}", "rounds 3000"]
    return "\n".join(setup) + "\n", names, "".join(drawn_input(rng, count) + "\n" for _ in range(rng.randint(1, 12)))


@pytest.mark.parametrize("seed", range(RANDOM))
def test_random_network(contiki: Contiki, runner: Runner, network: Path, seed: int) -> None:
    """Applications of mote in C write what the program network does; each mote writes what it writes alone, on the inputs in its lines."""
    setup, names, script = drawn_script(seed)
    sources = [EXAMPLES / f"contiki/mote/{name}.c" for name in sorted(set(names))]
    wanted = run(network, stdin=(setup.format(*[""] * len(names)) + script).encode())
    ran = runner(setup.format(*[".c"] * len(names)), sources, script, *(["--sanitize"] if seed % 4 == 0 else []))
    assert (ran.returncode, ran.stdout) == (wanted.returncode, wanted.stdout), output_of(ran)
    for number, name in enumerate(names, 1):
        size = re.findall(rf"^mote {number} .* (--mmem) (\d+)$", setup, re.M)
        built = contiki.build(EXAMPLES / f"contiki/mote/{name}.c", "gcc", "--sanitize")
        alone(ran, number, built, *(size[0] if size else ()))


def alone(whole: Completed, number: int, built: Path, *words: str, settings: Mapping[str, str] | None = None) -> None:
    """The lines of a mote in a network's transcript are those of a run for it alone, on the inputs in them."""
    own = [line.partition(" ")[2] for line in whole.stdout.decode().splitlines() if line.startswith(f"{number} ")]
    script = "".join(line[2:] + "\n" for line in own if line.startswith("> "))
    assert run(built, *words, stdin=script.encode(), settings=settings).stdout.decode().splitlines() == own, f"mote {number}"


@pytest.mark.parametrize("seed", range(FIRST, FIRST + LISTS))
def test_random_lists(contiki: Contiki, runner: Runner, seed: int) -> None:
    """Eight processes of each mote make random calls, for each mote other ones. Each mote writes what it writes alone."""
    rng = random.Random(f"lists {seed}")
    count, built = rng.randint(2, 8), contiki.build(SOURCES / "lists.c", "gcc", "--sanitize")
    lists = [runner.folder / f"lists.{number}" for number in range(1, count + 1)]
    for file in lists:
        file.write_text(random_lists(rng).replace("calls ", "").replace("calls", ""), encoding="utf-8")
    links = [f"link {rng.randint(1, count)} {rng.randint(1, count)} delay {rng.randint(1, 9)} {drawn_loss(rng)}".rstrip() + "\n"
             for _ in range(rng.randrange(3 * count))]
    script = "".join(drawn_input(rng, count) + "\n" for _ in range(rng.randint(1, 20)))
    ran = runner(f"mote 1..{count} lists_by_number.c\nrounds 3000\n{''.join(links)}", [OWN / "lists_by_number.c"], script,
                 *(["--sanitize"] if seed % 4 == 0 else []), settings={"LISTS": str(runner.folder / "lists")})
    assert ran.returncode in (0, 3), output_of(ran)
    for number, file in enumerate(lists, 1):
        alone(ran, number, built, settings={"LISTS": str(file)})


# ---- What is shown ----

def test_parts_of_the_transcript(contiki: Contiki) -> None:
    """--quiet has the turns that print or send and the frames that were sent, --only the lines of one mote, --text what is printed."""
    network = NETWORKS / "flooding.net"
    command: list[Word] = ["--network", network, NETWORKS / "flooding.c"]
    script = network.with_suffix(".script")
    whole = network.with_suffix(".transcript").read_text(encoding="utf-8").splitlines()
    quiet = [line for line in whole if re.search("-> print |-> packet-send |note sent ", line)]
    own = [line[2:] for line in whole if line.startswith("3 ")]
    texts = [bytes.fromhex(line.rpartition(" ")[2]).decode().rstrip("\n") for line in own if "-> print " in line]
    quiet_own = [line[2:] for line in quiet if line.startswith("3 ")]
    for words, wanted in ((["--quiet"], quiet), (["--only", "3"], own), (["--only=3", "--quiet"], quiet_own),
                          (["--only", "3", "--text"], texts)):
        ran = contiki(*command, *words, stdin=script)
        assert (ran.returncode, ran.stdout.decode().splitlines(), ran.stderr) == (0, wanted, b""), output_of(ran)


def test_text_of_begun_lines(runner: Runner, tmp_path: Path) -> None:
    source = tmp_path / "begun.c"
    source.write_text(program_of('while(1) { PROCESS_WAIT_EVENT(); printf("%s", (char *)data); }'), encoding="utf-8")
    script = "1 serial 610a\n1 serial 620a\n2 serial 630a\n1 serial 640a\n"
    ran = runner("mote 1..2 begun.c\n", [source], script, "--text")
    assert outcome(ran) == (0, "1 ab\n2 c\n1 d", "")


# ---- Malformed lines, and what is refused ----

HELLO = EXAMPLES / "contiki/hello-world.c"
TWO_MOTES = "mote 1..2 hello-world.c\n"
MALFORMED = {
    "#" + "x" * 1024 + "\n": "it has more than 1,024 bytes",
    **{setup: why for why, setups in table("contiki_network_malformed").items() for setup in setups},
}


@pytest.mark.parametrize("setup", MALFORMED, ids=lambda setup: str(setup)[-50:].strip())
def test_malformed_setup(runner: Runner, setup: str) -> None:
    """The run ends at a malformed line of the first file, before any mote is started. A line after it doesn't count."""
    ran = runner(setup + "frob\n", [HELLO], "tick 1\n")
    number, why = setup.count("\n"), f"malformed: {MALFORMED[setup]}".removesuffix(": ")
    assert outcome(ran) == (2, f"bad line {number}\n", f"contiki: line {number} of {runner.folder / 'network.net'} is {why}\n")


NOT_UTF8 = [b"\x80", b"\xbf", b"\xc1\xbf", b"\xc2", b"\xc2\x41", b"\xe0\x9f\xbf", b"\xe1\x80", b"\xed\xa0\x80", b"\xef\xbf\xc0",
            b"\xf0\x8f\xbf\xbf", b"\xf0\x90\x80", b"\xf4\x90\x80\x80", b"\xf5\x80\x80\x80", b"\xff", b"caf\xe9"]
UTF8 = "\x7f\x80\u07ff\u0800\ud7ff\ue000\uffff\U00010000\U0010ffff"


@pytest.mark.parametrize("locale", ["C", "C.UTF-8"])
def test_setup_that_is_no_text(contiki: Contiki, runner: Runner, locale: str) -> None:
    """A line of the first file that isn't UTF-8 is malformed, in any locale; its end isn't taken for a part of a character."""
    file, settings = runner.folder / "network.net", {"LC_ALL": locale}
    for line in NOT_UTF8 if locale == "C" else [b"caf\xe9"]:
        file.write_bytes(b"# " + line + b"\nmote 1 hello-world.c\n")
        ran = contiki("--network", file, HELLO, settings=settings)
        assert outcome(ran) == (2, "bad line 1\n", f"contiki: line 1 of {file} is malformed: it isn't UTF-8\n"), line
    file.write_bytes(b"mote 1 hello-world.c\n# " + UTF8.encode() + b"\n")
    assert outcome(contiki("--network", file, "--text", HELLO, settings=settings)) == (0, "1 Hello, world\n", "")


def test_quotas_of_processes(runner: Runner) -> None:
    """Quotas that are too many with a program's processes are known when that is compiled: after all lines."""
    ran = runner(TWO_MOTES + "mote 3 hello-world.c --quota 4096\nmote 4 hello-world.c\n", [HELLO], "")
    why = f"contiki: line 2 of {runner.folder / 'network.net'} is malformed: no mote has these sizes\n"
    assert outcome(ran) == (2, "bad line 2\n", why)


@pytest.mark.parametrize("line", ["frob", "tick", "tick 07", "tick 1 2", "1 tick 5", "serial 61", "3 serial 61", "0 serial 61", "1 serial",
                                  "1 serial 6", "1 serial 6g", "1 frame " + "00" * 128, "1 serial " + "00" * 257, "1  serial 61",
                                  "mote 3 hello-world.c", "1..2 serial 61", "tick 4294967296"], ids=lambda line: str(line)[:20])
def test_malformed_input(runner: Runner, line: str) -> None:
    """The run ends at a malformed line of the script, with all that was before it."""
    ran = runner(TWO_MOTES, [HELLO], f"tick 1\n\n# nothing\n{line}\ntick 1\n", "--quiet")
    why = "contiki: line 4 of the script is malformed: inputs are tick N, N serial HEX and N frame HEX, where N is a mote\n"
    hello = "4 synch 129 - -> print 48656c6c6f2c20776f726c640a\n"
    assert outcome(ran) == (2, f"1 {hello}2 {hello}bad line 4\n", why)


@pytest.mark.parametrize(("words", "status", "why"), [
    (["--network"], 64, "--network needs an argument"), (["--network", "none.net", HELLO], 64, "none.net: no such file"),
    (["--network", "{net}", "--only", "3", HELLO], 64, "no mote 3"),
    (["--network", "{net}", "--only", "0", HELLO], 64, "--only needs the number of a mote"),
    (["--only", "1", HELLO], 64, "--only shows one mote of a network: --network is missing"),
    (["--network", "{net}", "--mmem", "64", HELLO], 64, "the sizes of a network's motes are in its file: leave out --mmem"),
    (["--network", "{net}", "--test", HELLO], 64, "--build and --test are for one mote: leave out --network"),
    (["--network", "{net}", "--build", "x", HELLO], 64, "--build and --test are for one mote: leave out --network"),
    (["--network", "{net}", "--picture", HELLO], 64, "--picture is for one mote: pipe the transcript to network-picture {net}"),
    (["--network", "{net}"], 64, "no source is given; see --help"),
], ids=lambda word: " ".join(map(str, word)) if isinstance(word, list) else "")
def test_refused_arguments(contiki: Contiki, tmp_path: Path, words: list[Word], status: int, why: str) -> None:
    net = write_network(tmp_path, TWO_MOTES)
    told_why = why.replace("{net}", str(net))
    assert outcome(contiki(*(net if word == "{net}" else word for word in words))) == (status, "", f"contiki: {told_why}\n")


def test_last_line_without_an_end(runner: Runner) -> None:
    assert runner.text(f"mote 1 {HELLO.name}", [HELLO], "") == ["1 Hello, world"]


def test_names_of_sources(runner: Runner, tmp_path: Path) -> None:
    """A word is a source's path or its last part; if two have this last part, it must be the path."""
    text = HELLO.read_text(encoding="utf-8")
    for folder in ("one", "two"):
        (tmp_path / folder).mkdir()
        (tmp_path / folder / "same name.c").write_text("#error not this one\n", encoding="utf-8")
        (tmp_path / folder / "same.c").write_text(text.replace("world", folder), encoding="utf-8")
    sources = [tmp_path / "one/same.c", tmp_path / "two/same.c", tmp_path / "two/same name.c"]
    assert runner.text(f"mote 1 {sources[1]}\nmote 2 {sources[0]}\n", sources, "") == ["1 Hello, two", "2 Hello, one"]
    ran = runner("mote 1 same.c\n", sources, "")
    why = f"contiki: same.c in {tmp_path / 'network.net'} names two sources, {sources[0]} and {sources[1]}: write its path there\n"
    assert outcome(ran) == (64, "", why)


def test_source_that_does_not_compile(runner: Runner, tmp_path: Path) -> None:
    """A source with a main, one that calls what isn't there, and one without AUTOSTART_PROCESSES."""
    source = tmp_path / "wrong.c"
    source.write_text(HELLO.read_text(encoding="utf-8") + "int main(void) { return 0; }\n", encoding="utf-8")
    ran = runner("mote 1 wrong.c\n", [source], "")
    assert ran.returncode == 65 and b"\ncontiki: a source has a main: leave it out" in ran.stderr, output_of(ran)
    source.write_text(HELLO.read_text(encoding="utf-8") + "void none(void);\nvoid calls(void) { none(); }\n", encoding="utf-8")
    ran = runner("mote 1 wrong.c\n", [source], "")
    assert ran.returncode == 65 and b"none" in ran.stderr, output_of(ran)
    source.write_text('#include "contiki.h"\n', encoding="utf-8")
    ran = runner("mote 1 hello-world.c\nmote 2 wrong.c\n", [HELLO, source], "")
    assert outcome(ran) == (64, "", "contiki: mote 2: no AUTOSTART_PROCESSES, so no process is started\n")


# ---- Motes that fail ----

FAULTY = "mote 1..3 faulty.c\n"
AT = "contiki: mote 2, process 4 (Faulty), handling LINE (138) at line 8 of the transcript, after 2 calls: "
BEGUN = "1 line of 1\n2 line of 2\n2 half"
HALTED = ("contiki: mote 2 halted: one input may cause at most 10,000 turns and rounds; the last turn was that of process 4 "
          "(Faulty)\n")
FAULTS = {
    "*(volatile int *)(zero * 8L) = 1": (139, "a crash: an invalid address (SIGSEGV)"),
    "zero = 7 / zero": (136, "a crash: a division by 0 (SIGFPE)"),
    "abort()": (134, "the program was aborted (SIGABRT)"),
    "exit(0)": (1, "the program called exit"),
    "process_post(&faulty, 255, NULL)": (1, "event 255 belongs to the driver, and can't be posted"),
    "nullnet_len = 500; nullnet_buf = (uint8_t *)1; NETSTACK_NETWORK.output(NULL)":
        (1, "a frame of 500 bytes can't be sent: with its header, of 15 bytes, it has at most 127"),
}


@pytest.mark.parametrize("fault", FAULTS)
def test_fault(runner: Runner, fault: str) -> None:
    """Where a mote crashes or goes beyond a limit, the run ends, and the mote is named. What it printed is written."""
    status, why = FAULTS[fault]
    ran = runner(FAULTY, [OWN / "faulty.c"], "1 serial 0a\n2 serial 0a\n3 serial 0a\n", "--text", f"-DFAULT={fault}")
    assert outcome(ran) == (status, BEGUN, AT + why + "\n")


def test_misuse_of_memory(runner: Runner, sanitizing_compiler: str) -> None:
    """The sanitizers name the line of a source; the mote is named, too."""
    ran = runner(FAULTY, [OWN / "faulty.c"], "1 serial 0a\n2 serial 0a\n", "--text", "--sanitize", "--cc", sanitizing_compiler,
                 "-DFAULT=((char *)heapmem_alloc(4))[4] = 1")
    assert ran.returncode == 1 and b"heap-buffer-overflow" in ran.stderr and b"faulty.c:20" in ran.stderr, output_of(ran)
    assert b"contiki: mote 2, process 4 (Faulty), handling LINE (138)" in ran.stderr and ran.stdout.decode() == BEGUN


@pytest.mark.parametrize("words", COPIES, ids=["swapped", "copies"])
@pytest.mark.parametrize("fault", ["while(1) clock_time()", 'while(1) printf("x\\n")', "process_poll(&faulty)"])
def test_halt(runner: Runner, fault: str, words: list[str]) -> None:
    """A mote that never rests is halted and named. The others go on, and a later print of theirs is whole."""
    script = "1 serial 0a\n2 serial 0a\n3 serial 0a\n2 serial 0a\ntick 3\n2 frame 61\n1 serial 0a\n"
    ran = runner(FAULTY, [OWN / "faulty.c"], script, f"-DFAULT={fault}", *words)
    lines = ran.stdout.decode().splitlines()
    assert (ran.returncode, ran.stderr.decode()) == (0, HALTED)
    assert lines[lines.index("2 halt") + 1:] == [
        "3 > serial 0a", "3 4 event 138 x -> print 6c696e65206f6620330a", "3 4 answer done -> wait", "missed - 2", "= 3", "missed - 2",
        "1 > tick 3", "1 > serial 0a", "1 4 event 138 x -> print 6c696e65206f6620310a", "1 4 answer done -> wait"]


def test_rounds(runner: Runner) -> None:
    """A line that takes more rounds than its network allows ends the run: status 3, and why."""
    script = "1 serial 680a\ntick 1\ntick 60\ntick 1\n"
    setup = "mote 1..2 flooding.c\nlink 1 2 delay 1\n"
    whole = runner(setup, [NETWORKS / "flooding.c"], script)
    assert whole.returncode == 0 and whole.stdout.endswith(b"= 62\n")
    ran = runner(setup + "rounds 2\n", [NETWORKS / "flooding.c"], script)
    assert (ran.returncode, ran.stderr) == (3, b"contiki: the last line took all its rounds: `rounds N` sets how many it may take\n")
    # The clock goes on, and mote 2 is told the time: then it would hear the frame.
    wanted = whole.stdout.decode().splitlines()
    assert ran.stdout.decode().splitlines() == [*wanted[:wanted.index("2 > tick 1") + 1], "halt"]


def test_no_motes(runner: Runner) -> None:
    assert outcome(runner("", [HELLO], "tick 5\ntick 1\n")) == (0, "= 5\n= 6\n", "")
