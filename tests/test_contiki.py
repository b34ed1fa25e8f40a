"""Programs in C for Contiki-NG, on the proved mote: examples and applications, with all warnings and the sanitizers."""

import random
import re
from pathlib import Path

import pytest

from call_rules import OF_MOTE
from contiki_programs import SOURCES, STRICT, Contiki, script_of, transcript_of
from random_calls import random_lists
from tools import EXAMPLES, ROOT, once, output_of, run, succeed

EXAMPLE_SOURCES = sorted((EXAMPLES / "contiki").glob("*.c"))
# Each source beside a script and a transcript, or the text that it prints; `parts` is a folder of sources.
FURTHER_SOURCES = sorted(script.with_suffix("" if script.with_suffix("").is_dir() else ".c") for script in SOURCES.glob("*.script"))
DEFAULTS = {"mmem": 4096, "heap": 4096, "header": 16, "has_quota": 0, "quota": 0, "quiet": 0}
RUNS_OF_APPLICATION = 50
RUNS_OF_LISTS = 200
PART = 50


@pytest.mark.parametrize("source", EXAMPLE_SOURCES + FURTHER_SOURCES, ids=lambda source: str(source.name))
def test_example(contiki: Contiki, sanitizing_compiler: str, source: Path) -> None:
    """Each example writes its transcript, and so do further sources; those of a text write that."""
    is_text = source.with_suffix(".text").exists()
    ran = run(contiki.build(source, sanitizing_compiler, "--sanitize"), *(["--text"] if is_text else []), stdin=script_of(source))
    wanted = source.with_suffix(".text").read_bytes() if is_text else transcript_of(source)
    assert (ran.returncode, ran.stdout) == (0, wanted), output_of(ran)
    assert ran.stderr == b"", output_of(ran)


def test_each_source_is_tried() -> None:
    """Each source there has a script; three are for other tests."""
    assert {path.stem for path in SOURCES.glob("*.c")} - {path.stem for path in FURTHER_SOURCES} == {"lists", "reference", "spins"}


def random_line(chance: random.Random) -> str:
    """A line of a script; a few are malformed."""
    hexes = "".join(chance.choice(["61", "0a", "0d", "F0", "80", "00"]) for _ in range(chance.randrange(1, 40)))
    kinds = [f"tick {chance.randrange(30)}", f"serial {hexes}", f"serial {hexes}0a", f"frame {hexes * 3}"[:260], "# nothing",
             "tick 07"]
    return chance.choices(kinds, weights=[8, 4, 6, 6, 1, 0.05])[0] + "\n"


def random_script(chance: random.Random) -> bytes:
    script = "".join(random_line(chance) for _ in range(chance.randrange(60)))
    return (script if chance.random() < 0.9 else script.rstrip("\n")).encode()


def random_sizes(chance: random.Random) -> dict[str, int]:
    """Sizes and options, of which few differ from the usual ones. Some boot no mote."""
    sizes = dict(DEFAULTS)
    for name, least, most in ("mmem", 0, 512), ("heap", 16, 512), ("quota", 4, 64), ("header", 8, 16):
        if chance.random() < 0.3:
            sizes[name] = chance.randrange(least, most + 1, 8 if name == "header" else 4)
            sizes["has_quota"] |= name == "quota"
    sizes["quiet"] = chance.random() < 0.2
    return {name: int(size) for name, size in sizes.items()}


def words_of(sizes: dict[str, int]) -> list[str]:
    words = [word for name in ("mmem", "heap", "header") for word in ("--" + name, str(sizes[name]))]
    words += ["--quota", str(sizes["quota"])] if sizes["has_quota"] else []
    return words + (["--quiet"] if sizes["quiet"] else [])


@pytest.fixture(scope="module")
def reference(toarmuts_library: Path, shared: Path) -> Path:
    def make(built: Path) -> None:
        succeed("gcc", *STRICT, f"-I{toarmuts_library}", SOURCES / "reference.c", toarmuts_library / "toarmuts_memory.c",
                toarmuts_library / "libtoarmuts.a", "-o", built)
    return once(shared / "contiki_reference", make)


def compare(name: str, built: Path, reference: Path, applications: str, chance: random.Random, room: Path) -> None:
    sizes, script = random_sizes(chance), random_script(chance)
    names, lists = room / f"{name}.names", room / f"{name}.lists"
    names.write_text(applications, encoding="utf-8")
    lists.write_text(applications.replace("calls ", "").replace("calls", ""), encoding="utf-8")
    wanted = run(reference, names, *sizes.values(), stdin=script)
    ran = run(built, *words_of(sizes), stdin=script, settings={"LISTS": str(lists)})
    assert (ran.returncode, ran.stdout) == (wanted.returncode, wanted.stdout), f"{name}: {words_of(sizes)} {script!r} {output_of(ran)}"


@pytest.mark.parametrize("name", OF_MOTE)
def test_application_of_mote(contiki: Contiki, reference: Path, tmp_path: Path, name: str) -> None:
    """An application of mote in C has the same transcripts as mote's, with random scripts."""
    built = contiki.build(EXAMPLES / f"contiki/mote/{name}.c", "gcc", "--sanitize")
    for seed in range(RUNS_OF_APPLICATION):
        compare(f"{name}{seed}", built, reference, name, random.Random(f"{name} {seed}"), tmp_path)


@pytest.mark.parametrize("first", range(0, RUNS_OF_LISTS, PART))
def test_lists_of_calls(contiki: Contiki, reference: Path, tmp_path: Path, first: int) -> None:
    built = contiki.build(SOURCES / "lists.c", "gcc", "--sanitize")
    for seed in range(first, first + PART):
        chance = random.Random(seed)
        compare(f"lists{seed}", built, reference, random_lists(chance), chance, tmp_path)


@pytest.mark.parametrize("source", EXAMPLE_SOURCES, ids=lambda source: str(source.stem))
def test_picture_of_example(contiki: Contiki, mote_picture: Path, source: Path) -> None:
    """The examples' pictures, with the names of their processes from the programs."""
    names = run(contiki.build(source, "gcc", "--sanitize"), "--names").stdout.decode().splitlines()
    assert names == re.findall(r'PROCESS\(\w+, "(.*)"\)', source.read_text(encoding="utf-8"))
    assert run(mote_picture, "--", *names, stdin=transcript_of(source)).stdout == source.with_suffix(".svg").read_bytes()


def test_picture_by_the_command(contiki: Contiki, mote_picture: Path) -> None:
    """The command draws the same, where ./prove has built what draws."""
    source = EXAMPLE_SOURCES[0]
    if run(ROOT / "prove", "--is-current", mote_picture.name).returncode != 0:
        pytest.skip("mote_picture isn't built by ./prove of the sources as they are, so --picture is not tried")
    ran = contiki("--picture", source, stdin=script_of(source))
    assert (ran.returncode, ran.stdout) == (0, source.with_suffix(".svg").read_bytes()), output_of(ran)
