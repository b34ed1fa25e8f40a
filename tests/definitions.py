"""What the contract of `run` reaches, definition by definition: each is a file below `crates`, and a name there."""

import collections
import functools
import re
from typing import Iterable, Iterator

from tools import CRATES, ROOT

Place = tuple[str, str]

USE = re.compile(r"^\s*(?:ghost )?use Rattle\.(\w+)\.specs\.([\w.]+?)(?:\.\{([^}]*)\}| as (\w+))?;?$", re.M)
CODE_USE = re.compile(r"^use (\w+)::([\w:]+?)::(?:\{([^}]*)\}|(\w+));$", re.M)


def definition_file(crate: str, path: str) -> Place:
    """The file of definitions that a `use` line names, or the file of code and its type."""
    parts = path.split(".")
    if parts[0] != "declared":
        return f"crates/{crate}/specs/{'/'.join(parts)}.antt", ""
    modules = [part for part in parts[1:] if part[0].islower()]
    types = [part for part in parts[1:] if part[0].isupper()]
    return f"crates/{crate}/src/{'/'.join(modules)}.rt", "".join(types[:1])


def names_used(text: str) -> dict[str, Place]:
    """Where each name comes from that the `use` lines of a text name in the crates here: its file, and the name there. A file
    that is named as a whole stands under its short name, with no name there."""
    homes: dict[str, Place] = {}
    for crate, path, names, short in USE.findall(text):
        if (CRATES / crate).is_dir():
            file, name = definition_file(crate, path)
            homes.update({word: (file, name or word) for word in re.findall(r"\w+", names)})
            if short:
                homes[short] = (file, "")
    return homes


@functools.lru_cache(maxsize=None)
def definitions(file: str) -> dict[str, tuple[list[str], str]]:
    """The lines of each definition of a file, with its comment; and the line of the module that it stands in, if any."""
    found: dict[str, tuple[list[str], str]] = {}
    comment: list[str] = []
    module = name = ""
    for line in (ROOT / file).read_text(encoding="utf-8").splitlines():
        text, indent = line.strip(), len(line) - len(line.lstrip())
        head = re.match(r"(?:pub )?(?:unfoldable |abbrev |record |data )(?:pub )?(\w+)", text)
        if text.startswith(("use ", "pub use ")):
            comment = []
        elif text.startswith("module _"):
            module, comment = line, []
        elif text.startswith("--"):
            comment.append(line)
        elif text:
            module = module if indent else ""
            if head and indent == (2 if module else 0):
                name = head[1]
            lines, _ = found.setdefault(name, ([], module))
            lines += [*comment, line]
            comment = []
    return found


def declared_type(file: str, name: str) -> list[str]:
    lines = (ROOT / file).read_text(encoding="utf-8").splitlines()
    at = next(i for i, line in enumerate(lines) if re.match(rf"(?:pub(?:\(\w+\))? )?(?:struct|enum|type) {name}\b", line))
    start = at
    while start > 0 and lines[start - 1].startswith(("///", "#[")):
        start -= 1
    end = at
    while not lines[end].endswith(";") and lines[end] != "}":
        end += 1
    return lines[start : end + 1]


def types_within(file: str, name: str) -> Iterator[Place]:
    text = (ROOT / file).read_text(encoding="utf-8")
    words = set(re.findall(r"\b[A-Z]\w+", "\n".join(line for line in declared_type(file, name) if "///" not in line)))
    for crate, path, several, single in CODE_USE.findall(text):
        home = file.split("/")[1] if crate == "crate" else crate
        if (CRATES / home).is_dir():
            for word in words & set(re.findall(r"\w+", several or single)):
                yield f"crates/{home}/src/{path.replace('::', '/')}.rt", word
    for word in words - {name}:
        if re.search(rf"^(?:pub(?:\(\w+\))? )?(?:struct|enum|type) {word}\b", text, re.M):
            yield file, word


def spoken_of(file: str, name: str) -> Iterator[Place]:
    lines, module = definitions(file)[name]
    text = "\n".join(line.partition("--")[0] for line in [module, *lines])
    homes = names_used((ROOT / file).read_text(encoding="utf-8"))
    for word in set(re.findall(r"\w+", text)):
        if word in definitions(file):
            yield file, word
        elif word in homes and homes[word][1]:
            yield homes[word]
    for short, word in re.findall(r"\b(\w+)\.(\w+)", text):
        if short in homes and not homes[short][1] and word in definitions(homes[short][0]):
            yield homes[short][0], word


def reached(todo: list[Place]) -> set[Place]:
    seen: set[Place] = set()
    while todo:
        place = todo.pop()
        if place not in seen:
            seen.add(place)
            todo += types_within(*place) if place[0].endswith(".rt") else spoken_of(*place)
    return seen


def named_in_contract(file: str, head: str) -> set[Place]:
    """What the clauses of the function name whose text begins so."""
    text = (CRATES / file).read_text(encoding="utf-8")
    clauses = text[text.index(head) :]
    words = set(re.findall(r"\w+", clauses[: clauses.index("\n{\n")]))
    return {home for word, home in names_used(text).items() if word in words and home[1]}


def promised() -> tuple[set[Place], set[Place]]:
    """What the clauses of `run` speak of, without its promise; what the promise of the text adds; and that of the laws."""
    start = named_in_contract("mote_run/src/run.rt", "pub fn run<")
    promise = next(place for place in start if place[1] == "RunPromise")
    of_text = reached([*(start - {promise}), ("crates/mote_run/specs/RunText.antt", "HasRunTo")])
    return of_text, reached([*start]) - of_text


def promised_of_networks() -> set[Place]:
    """What the clauses of `run_script` speak of."""
    return reached([*named_in_contract("network_setup/src/script_run.rt", "pub fn run_script<")])


def lines_by_file(places: Iterable[Place]) -> collections.Counter[str]:
    counts: collections.Counter[str] = collections.Counter()
    for file, name in places:
        counts[file] += len(declared_type(file, name) if file.endswith(".rt") else definitions(file)[name][0])
    return counts
