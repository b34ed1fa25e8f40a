"""The pages against the sources: what `run` reaches, names and files, listings, trusted libraries; cases for all other calls."""

import functools
import re
from pathlib import Path
from typing import Callable, Iterable, Iterator

import pytest

import catch_alls
import layers
import public_calls
from definitions import Place, definitions, lines_by_file, promised, promised_of_networks, spoken_of
from tools import CRATES, ROOT

# CHANGELOG.md has names of before, and python/README.md programs of its own.
READMES = [ROOT / name for name in ("README.md", "CONTRIBUTING.md", "bench/README.md", "tests/README.md")]
PAGES = [*READMES, ROOT / "interface/public-calls.md", *sorted((ROOT / "docs").glob("*.md"))]
ORDER = (ROOT / "docs/reading-order.md").read_text(encoding="utf-8")
# The files of docs/reading-order.md, in their order, each with its lines.
ROWS = re.findall(r"^- `(crates/[^`]+)` \((\d+)\):", ORDER, re.M)
# The same of parts three and four.
NETWORK_ROWS, OTHER_ROWS = (re.findall(r"^- `(\w+/specs/[^`]+)` \((\d+)\):", part, re.M) for part in ORDER.split("## Part four"))
of_each_page = pytest.mark.parametrize("page", PAGES, ids=lambda page: str(page.relative_to(ROOT)))


# ---- What `run` reaches ----

@functools.lru_cache(maxsize=None)
def reached() -> tuple[set[Place], set[Place]]:
    """What the clauses of `run` speak of, by the text alone, and what the laws add."""
    return promised()


def is_definitions(file: str) -> bool:
    return file.endswith(".antt")


def all_lines() -> dict[str, int]:
    return dict(lines_by_file(reached()[0] | reached()[1]))


def test_reading_order_has_each_file() -> None:
    """The page lists each file that `run` reaches, once, with its lines, and no other."""
    assert len(ROWS) == len(dict(ROWS)), "a file is listed twice"
    wanted = {file: str(lines) for file, lines in all_lines().items()}
    faults = [f"{file}: isn't listed with {lines} lines" for file, lines in wanted.items() if dict(ROWS).get(file) != lines]
    faults += [f"{file}: not reached" for file in dict(ROWS).keys() - wanted.keys()]
    assert not faults, "\n".join(faults)


def not_reached(file: str) -> set[str]:
    """The definitions of a file that `run` doesn't reach."""
    of_text, of_laws = reached()
    return set(definitions(file)) - {name for place, name in of_text | of_laws if place == file}


def test_definitions_are_reached() -> None:
    """A file of definitions that `run` reaches has no others, but where part three or four lists it again, with the lines of these."""
    faults = []
    for file in filter(is_definitions, all_lines().keys() - {f"crates/{file}" for file, _ in NETWORK_ROWS}):
        others = not_reached(file)
        faults += [f"{file}: has what no clause of run reaches: {name}" for name in sorted(others)]
    assert not faults, "\n".join(faults)


def test_reading_order_goes_upward() -> None:
    """What a definition names is above it."""
    order = [file for file, _ in ROWS]
    faults = []
    for file, name in sorted(place for place in reached()[0] | reached()[1] if is_definitions(place[0]) and place[0] in order):
        later = {other for other, _ in spoken_of(file, name)} & set(order[order.index(file) + 1:])
        faults += [f"{file}, {name}: speaks of {other}, which stands below it" for other in sorted(later)]
    assert not faults, "\n".join(faults)


@pytest.mark.parametrize("part", [0, 1], ids=["text", "laws"])
def test_sums_of_definitions(part: int) -> None:
    lines = {file: count for file, count in lines_by_file(reached()[part]).items() if is_definitions(file)}
    assert f"{sum(lines.values()):,} lines in {len(lines)} files" in " ".join(ORDER.split())


def test_sum_of_types() -> None:
    lines = sum(count for file, count in all_lines().items() if not is_definitions(file))
    assert f"{lines} lines of types" in " ".join(ORDER.split())


# The crates of a network; and what else its run rests on, each with the words that tell its lines.
OF_A_NETWORK = ("medium_core", "network_session", "network_steps", "network_run", "network_setup")
BESIDE_IT = {"`mote_session/specs`": ("mote_session/specs",),
             "`call_lists/specs` and `mote_apps/specs`": ("call_lists/specs", "mote_apps/specs"),
             "`specs/Code` of lower crates": ("mote_types/specs/Code", "process_core/specs/Code", "kernel_core/specs/Code")}


@functools.lru_cache(maxsize=None)
def of_a_network() -> set[Place]:
    """The definitions that `run_script` reaches, and `run` doesn't."""
    of_text, of_laws = reached()
    return {place for place in promised_of_networks() - of_text - of_laws if is_definitions(place[0])}


def rows(lines: dict[str, int]) -> dict[str, str]:
    return {file.removeprefix("crates/"): str(count) for file, count in lines.items() if count}


def test_definitions_of_a_network() -> None:
    """Part three lists each file that the run of a network's script reaches, once, with its lines, and their sum; and says how many more
    are in crates that aren't listed."""
    listed = dict(NETWORK_ROWS)
    wanted = rows(lines_by_file(of_a_network()))
    unlisted = {file: int(count) for file, count in wanted.items() if file not in listed}
    assert len(listed) == len(NETWORK_ROWS) and listed == {file: count for file, count in wanted.items() if file in listed}
    assert f"{sum(map(int, listed.values())):,} lines more in {len(listed)} files" in " ".join(ORDER.split())
    for said, folders in BESIDE_IT.items():
        count = sum(unlisted.pop(file) for file in [*unlisted] if file.startswith(folders))
        assert f"{count} lines of {said}" in " ".join(ORDER.split())
    assert not unlisted


def test_other_definitions_of_a_network() -> None:
    """Part four lists the other definitions of these files, and of its crates, and their sum."""
    of_crates = [path for crate in OF_A_NETWORK for path in (CRATES / crate / "specs").glob("*.antt") if path.stem not in ("Lib", "Code")]
    files = {f"crates/{file}" for file in dict(NETWORK_ROWS)} | {str(path.relative_to(ROOT)) for path in of_crates}
    others = lines_by_file((file, name) for file in files for name in not_reached(file) if (file, name) not in of_a_network())
    listed = dict(OTHER_ROWS)
    assert len(listed) == len(OTHER_ROWS) and listed == rows(others)
    assert f"{sum(others.values())} lines in {len(listed)} files" in " ".join(ORDER.split())


OF_A_RUN = ("mote_types", "arena_core", "mmem_core", "memb_core", "heap_core", "node_memory", "process_core", "timer_core", "device_core",
            "kernel_core", "mote_text", "mote_run")


@pytest.mark.parametrize("crate", OF_A_RUN)
def test_specs_are_the_reading_list(crate: str) -> None:
    """What a run, or a network's, doesn't reach is in specs/Code of its crate."""
    files = {str(path.relative_to(CRATES)) for path in (CRATES / crate / "specs").rglob("*.antt")
             if "Code" not in path.parts and path.stem not in ("Lib", "Code", "Laws")}
    assert files <= set(re.findall(r"^- `(?:crates/)?(\w+/specs/[^`]+)` \(\d+\):", ORDER, re.M))


# ---- Names and files ----

NAME = re.compile(r"(?:\w+(?:::|\.))*[A-Za-z][a-z0-9]*(?:_[a-z0-9]+)+|(?:[A-Z][a-z]+){2,}|[A-Z]\w+::\w+")
FILE = re.compile(r"(?:[\w-]+/)*[\w-]+\.(?:antt|rt|md|edit|script|scenario|transcript|svg)")
# A path from the top, of any kind. What stands in a folder out, or in that of a release, is made.
FOLDERS = "|".join(re.escape(path.name) for path in ROOT.iterdir() if path.is_dir() and path.name != "release")
PATH = re.compile(rf"(?:{FOLDERS})(?!.*/out\b)(?:/[\w.-]+)+/?")
LINK = re.compile(r"\]\((?!\w+:)([^)#\s]+)")
# Names of Contiki-NG's that no header here has.
OF_CONTIKI = {"etimer_process", "ctimer_process", "serial_line_process"}
COMMENT = re.compile(r"^\s*(?://[/!]?|--)(.*)$")
QUOTED = re.compile(r"`([^`\n]+)`")
CRATE_NAMES = sorted(path.name for path in CRATES.iterdir())


def words_in(text: str) -> set[str]:
    return set(re.findall(r"\w+", text))


def read_all(*patterns: str) -> str:
    files = (file for pattern in patterns for file in ROOT.glob(pattern) if file.is_file() and "/out/" not in str(file))
    return "\n".join(file.read_text(encoding="utf-8", errors="replace") for file in files)


def files_of(crate: str, *patterns: str) -> Iterator[Path]:
    return (file for pattern in patterns for file in (CRATES / crate).glob(pattern) if "/out/" not in str(file))


@functools.lru_cache(maxsize=None)
def crate_words(crate: str) -> set[str]:
    folders = ("src/**/*", "specs/**/*", "proofs/**/*", "must-fail/*", "include/*")
    return {file.stem for file in files_of(crate, "*/**/*")} | words_in(read_all(*(f"crates/{crate}/{folder}" for folder in folders)))


@functools.lru_cache(maxsize=None)
def other_words() -> set[str]:
    c = read_all("c/*/**/*", "tests/*", "tests/c/*", "bench/*", "examples/contiki/**/*.c")
    python = read_all("python/*.py", "python/src/**/*.py", "python/native/*", "examples/python/*.py")
    words = words_in(c + python + read_all("mote", "prove", "scenario", "contiki", "scripts/*", "crates.txt"))
    return words | {file.stem for file in (ROOT / "tests/c").rglob("*.c")}


@functools.lru_cache(maxsize=None)
def declared_names(crate: str) -> set[str]:
    """The types, traits and functions that a crate's code declares, variants and constants of types among them."""
    text = re.sub(r"//.*", "", read_all(f"crates/{crate}/src/**/*.rt"))
    return set(re.findall(r"\b(?:struct|enum|trait|type|fn|const) (\w+)", text)) | set(re.findall(r"^    (\w+)[,({]", text, re.M))


def crates_listed(text: str) -> list[str]:
    """The crates that a heading or a cell lists, up to its colon."""
    return [word for word in re.split(", | and ", text.lstrip("# ").replace("`", "").partition(":")[0]) if word in CRATE_NAMES]


def missing_words(name: str, crates: list[str]) -> set[str]:
    """The words of a name that none of these crates has, and nothing beside the crates; a method is declared in the crate of its type."""
    missing = words_in(name) - set().union(other_words(), CRATE_NAMES, *(crate_words(crate) for crate in crates))
    method = re.fullmatch(r"([A-Z]\w+)::([a-z]\w+)", name)
    if method and not missing and not any(set(method.groups()) <= declared_names(crate) for crate in crates):
        missing = {name}
    return missing


@functools.lru_cache(maxsize=None)
def file_names() -> set[str]:
    return {file.name for crate in CRATE_NAMES for file in files_of(crate, "*/**/*")}


def is_there(path: str, crates: list[str]) -> bool:
    """Whether a file is there: by its path from the top, from `docs`, `crates`, `examples` or one of these crates, or by its name alone."""
    folders = ["", "docs", "crates", "examples", *(f"crates/{crate}" for crate in crates)]
    return any((ROOT / folder / path).exists() for folder in folders) or ("/" not in path and path in file_names())


def sections(page: Path) -> Iterator[tuple[int, list[str], list[str]]]:
    """Each part of a page: the number of its first line, its lines, those of listings empty, and the crates of its heading."""
    def emptied(listing: re.Match[str]) -> str:
        return "\n" * listing[0].count("\n")

    number = 1
    for section in re.split(r"\n(?=#+ )", re.sub(r"```.*?```", emptied, page.read_text(encoding="utf-8"), flags=re.S)):
        lines = section.split("\n")
        yield number, lines, crates_listed(lines[0])
        number += len(lines)


def missing_in(line: str, page: Path, crates: list[str]) -> set[str]:
    """The names and files of a line of a page that aren't there."""
    missing = {text for text in LINK.findall(line) if not (page.parent / text).exists()}
    for text in QUOTED.findall(line):
        if FILE.fullmatch(text) or PATH.fullmatch(text):
            missing |= set() if is_there(text, crates) or (page.parent / text).exists() else {text}
        elif NAME.fullmatch(text):
            missing |= missing_words(text, crates)
    return missing


@of_each_page
def test_names_and_files(page: Path) -> None:
    """Each name of code with an underscore, capitals within or a type in front that a page has in backticks is there, and each file in
    backticks or a link: below a heading that names crates, and in a row of a table or list that begins with crates, in one of these."""
    missing: list[str] = []
    for first, lines, of_heading in sections(page):
        for number, line in enumerate(lines, first):
            row = re.match(r"[|-] (.*?)(?: \||:)", line)
            crates = (crates_listed(row[1]) if row else []) or of_heading or CRATE_NAMES
            missing += [f"{page.relative_to(ROOT)}:{number}: {text} isn't there" for text in sorted(missing_in(line, page, crates))]
    assert not missing, "\n".join(missing)


@functools.lru_cache(maxsize=None)
def crates_below() -> dict[str, set[str]]:
    """The crates of this repository that each stands on, itself among them."""
    below: dict[str, set[str]] = {}
    for crate, ground in re.findall(r"^(\w+)[^:\n]*:([^#\n]*)", (ROOT / "crates.txt").read_text(encoding="utf-8"), re.M):
        below[crate] = {crate}.union(*(below[lower] for lower in ground.split() if lower in below))
    return below


@functools.lru_cache(maxsize=None)
def code_words(crate: str) -> set[str]:
    words = {file.stem for file in files_of(crate, "*/**/*")}
    for file in files_of(crate, "src/**/*.rt", "specs/**/*.antt"):
        lines = file.read_text(encoding="utf-8").split("\n")
        words |= words_in("\n".join(line.partition("//")[0] for line in lines if not COMMENT.match(line)))
    return words


@functools.lru_cache(maxsize=None)
def names_of_contiki() -> set[str]:
    return OF_CONTIKI | words_in(read_all("c/*/**/*.h"))


def wrong_comments(crate: str) -> Iterator[str]:
    for file in files_of(crate, "src/**/*.rt", "specs/**/*.antt"):
        comments = (COMMENT.match(line) for line in file.read_text(encoding="utf-8").split("\n"))
        for text in (text for comment in comments if comment for text in QUOTED.findall(comment[1])):
            missing = set()
            if FILE.fullmatch(text) and not any((folder / text).exists() for folder in (ROOT, CRATES / crate, file.parent)):
                missing = {text}
            elif NAME.fullmatch(text) and not FILE.fullmatch(text):
                missing = words_in(text) - names_of_contiki().union(CRATE_NAMES, *(code_words(lower) for lower in crates_below()[crate]))
            yield from (f"{file.relative_to(ROOT)}: comment: there is no {name}" for name in sorted(missing))


@pytest.mark.parametrize("crate", CRATE_NAMES)
def test_comments(crate: str) -> None:
    """Each name that a comment of a crate names is code of this crate, of one below it, or a name of Contiki-NG's. A file that it names
    is there, from the top, in the crate or beside its own."""
    faults = list(wrong_comments(crate))
    assert not faults, "\n".join(faults)


# ---- Listings ----

# Programs that a command line begins with, beside those of this repository.
PROGRAMS = {*"cd cp echo gcc make mote mote_picture pip printf pytest python python3 rm rt sed sudo toarmuts-campaign".split()}


def is_command(line: str) -> bool:
    word = line.split()[0]
    return word.split("/")[-1] in PROGRAMS or (ROOT / word).is_file()


def is_quoted(block: str, paragraph: str) -> bool:
    """Whether a listing's lines stand, one below the other, in a file that the paragraph above it names; what follows three spaces is
    a remark."""
    files = [ROOT / name for name in re.findall(r"`([\w./-]+)`", paragraph)]
    texts = {block.strip("\n"), re.sub(r"(\S) {3}.*", r"\1", block).strip("\n")}
    return any(text in file.read_text(encoding="utf-8") for file in files if file.is_file() for text in texts)


@of_each_page
def test_listings(page: Path) -> None:
    """A page's listing, which is fenced, is quoted from a source, an example or an expected text, which the gate checks. Two kinds are
    no quotes: what is told to Python (`>>> `), which tests/test_python.py carries out, and a drawing of memory or states, which is marked
    as such. What is indented is a command line."""
    faults = []
    parts = page.read_text(encoding="utf-8").split("```")
    for before, fenced in zip(parts[::2], parts[1::2]):
        kind, _, block = fenced.partition("\n")
        if kind != "drawing" and not block.startswith(">>> ") and not is_quoted(block, before.rstrip().split("\n\n")[-1]):
            faults.append(f"in no file that the paragraph above it names is: {block[:60]}")
    for lines in re.findall(r"\n\n((?: {4}.*\n)+)", "\n".join(parts[::2])):
        faults += [f"no command line, so it must be fenced: {line}" for line in lines.splitlines() if not is_command(line)]
    assert not faults, f"{page.relative_to(ROOT)}: listing: " + "\n".join(faults)


# ---- Layers, licence, libraries, calls, examples ----

def test_map_has_the_layers() -> None:
    shown = f"```drawing\n{layers.figure()}\n```" in (ROOT / "docs/map.md").read_text(encoding="utf-8")
    assert shown, "docs/map.md: its figure isn't what `python3 tests/layers.py` prints"


def test_one_licence() -> None:
    text = (ROOT / "LICENSE").read_text(encoding="utf-8")
    copyright_file = (ROOT / "packaging/copyright").read_text(encoding="utf-8")
    owner, _, terms = text.partition("\n\n")
    faults = [] if (ROOT / "python/LICENSE").read_text(encoding="utf-8") == text else ["python/LICENSE"]
    faults += [] if " ".join(terms.split()) in " ".join(copyright_file.replace("\n .\n", "\n").split()) else ["packaging/copyright"]
    faults += [] if owner.replace("Copyright", "Copyright:") in copyright_file else ["packaging/copyright: the owner"]
    for file in ("python/pyproject.toml", "packaging/copyright", "c/modules/toarmuts-modules.pc.in", "scripts/release"):
        faults += [] if "BSD-3-Clause" in (ROOT / file).read_text(encoding="utf-8") else [file]
    assert not faults, "another licence than LICENSE: " + ", ".join(faults)


def test_public_calls() -> None:
    """interface/public-calls.md lists the public calls and types of its crates, under their signatures, and no others."""
    faults = public_calls.faults()
    assert not faults, "interface/public-calls.md: " + "\n".join(faults)


def test_trusted_libraries() -> None:
    """The libraries of the kit that crates.txt names are those that docs/tested.md says are trusted, but for the standard library's."""
    lines = re.findall(r"^\w[^:\n]*:([^#\n]*)", (ROOT / "crates.txt").read_text(encoding="utf-8"), re.M)
    used = {library for line in lines for library in line.split()} - {*CRATE_NAMES, "core", "std_alloc", "std_heap"}
    page = (ROOT / "docs/tested.md").read_text(encoding="utf-8")
    assert set(QUOTED.findall(page.partition("kit's crates (")[2].partition(")")[0])) == used


@pytest.mark.parametrize(("pattern", "cases"), [("*/specs/**/*.antt", catch_alls.in_definitions), ("*/src/**/*.rt", catch_alls.in_code)],
                         ids=["definitions", "code"])
def test_no_case_for_all_other_calls(pattern: str, cases: Callable[[str], Iterable[str]]) -> None:
    """An author who adds a call gets a message on each table without it."""
    found = [f"{path.relative_to(CRATES)}: {case}" for path in CRATES.glob(pattern) for case in cases(path.read_text(encoding="utf-8"))]
    assert not found, "cases for all other calls: " + "\n".join(found)
