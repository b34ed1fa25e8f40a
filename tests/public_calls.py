"""Compares interface/public-calls.md with the sources of its crates: each public call and type that a list there names is declared in its
crate, under exactly this signature, and no other is public. A list of a type's or trait's calls follows its name. A crate with no list is
named as such.

Public is what a public module declares, what lib.rt exports from another one, and the public methods of these types, wherever they are.
"""

import functools
import re
from collections import defaultdict
from typing import Iterator, NamedTuple

from tools import ROOT

PAGE = ROOT / "interface/public-calls.md"

HEADING = re.compile(r"^## (\w+)$", re.M)
LIST = re.compile(r"^(?:`(\w+)`|[A-Z][\w ]+):\n\n((?:- `[^`]+`\n)+)", re.M)
ROW = re.compile(r"^- `([^`]+)`$", re.M)
UNLISTED = re.compile(r"^Crates with no list here: ([^.]+)\.$", re.M)
# What has methods: its kind, its name, and all between its braces.
BLOCK = re.compile(r"^(?:pub )?(impl|trait)(?:<[^>\n]*>)? (\w+)(?:<[^>\n]*>)?[^{}\n]*\{\n(.*?)^\}", re.M | re.S)
# A signature ends where a contract or a body begins.
END = r"(?=\s+(?:requires|ensures)\b|\s*\{|;$)"
METHOD = re.compile(rf"^    (pub )?(fn \w+.*?){END}", re.M | re.S)
FUNCTION = re.compile(rf"^pub (fn \w+.*?){END}", re.M | re.S)
ENUM = re.compile(r"^pub (enum \w+(?:<[^>\n]*>)? \{.*?^\})", re.M | re.S)
STRUCT = re.compile(r"^pub (struct \w+)", re.M)
NAMED = re.compile(r"^pub ((?:type|use) [^;]+);", re.M)
# What names a declaration: `fn NAME`, `enum NAME`, `struct NAME`, `type NAME`.
NAME = re.compile(r"(?:fn|enum|struct|type) (\w+)")
TRAIT = re.compile(r"^pub trait (\w+)", re.M)
MODULE = re.compile(r"^(pub )?mod (\w+);", re.M)
COMMENT_OR_ATTRIBUTE = re.compile(r"//.*|^\s*#\[.*\]$|#\[from\] ", re.M)


class Row(NamedTuple):
    """A row of the page: the crate of its heading, the type or trait that a call belongs to (empty for others), and the signature."""

    crate: str
    owner: str
    signature: str


def in_one_line(text: str) -> str:
    """A signature in one line, with no blank or comma that only its layout has."""
    text = " ".join(text.split())
    text = re.sub(r"([(<]) ", r"\1", text)
    text = re.sub(r",? ([)>}])", lambda end: end[1] if end[1] != "}" else " }", text)
    return re.sub(r"::\{ (.*) \}$", r"::{\1}", text)


def declared(source: str) -> Iterator[tuple[str, str]]:
    """The public calls and types that a source declares, each with the type or trait that it belongs to."""
    text = COMMENT_OR_ATTRIBUTE.sub("", source)
    for kind, owner, body in BLOCK.findall(text):
        for is_public, signature in METHOD.findall(body):
            if is_public or kind == "trait":
                yield owner, in_one_line(signature)
    for pattern in (FUNCTION, ENUM, STRUCT, NAMED):
        for signature in pattern.findall(text):
            yield "", in_one_line(signature)


def sources_of(crate: str) -> dict[str, str]:
    """The sources of a crate, by the names of their modules; a module within another one counts as that one."""
    folder = ROOT / "crates" / crate / "src"
    found: dict[str, str] = defaultdict(str)
    for path in folder.glob("**/*.rt"):
        found[path.relative_to(folder).parts[0].removesuffix(".rt")] += path.read_text(encoding="utf-8")
    return found


@functools.lru_cache(maxsize=None)
def declared_in(crate: str) -> set[tuple[str, str]]:
    return {row for source in sources_of(crate).values() for row in declared(source)}


def names_in(source: str) -> set[str]:
    """The public functions, types and traits that a source declares."""
    found = {name[1] for owner, signature in declared(source) if not owner and (name := NAME.match(signature))}
    return found | set(TRAIT.findall(source))


def exported(signature: str) -> tuple[str, list[str]]:
    """The module or crate that `use MODULE::..::NAME` or `use MODULE::{NAME, NAME}` names, and the names."""
    path = signature.removeprefix("use ")
    names = path.partition("{")[2].strip(" }") or path.rpartition("::")[2]
    return path.partition("::")[0], names.split(", ")


def public_in(crate: str) -> set[tuple[str, str]]:
    """The public calls and types of a crate, and what it exports of others."""
    sources = sources_of(crate)
    modules = {name: bool(is_public) for is_public, name in MODULE.findall(sources["lib"])}
    public = {name for module, is_public in modules.items() if is_public for name in names_in(sources[module])}
    found = set()
    for _, signature in declared(sources["lib"]):
        module, names = exported(signature)
        if module in modules:
            public.update(names)
        else:
            found.add(("", signature))
    for owner, signature in declared_in(crate):
        name = NAME.match(signature)
        if owner in public if owner else name and name[1] in public:
            found.add((owner, signature))
    return found


def rows_of(page: str) -> list[Row]:
    parts = HEADING.split(page)
    crates = zip(parts[1::2], parts[2::2])
    return [Row(crate, owner, signature) for crate, text in crates for owner, rows in LIST.findall(text) for signature in ROW.findall(rows)]


def missing(rows: list[Row]) -> list[Row]:
    return [row for row in rows if (row.owner, in_one_line(row.signature)) not in declared_in(row.crate)]


def unlisted(rows: list[Row]) -> list[Row]:
    listed = {(row.crate, row.owner, in_one_line(row.signature)) for row in rows}
    crates = dict.fromkeys(row.crate for row in rows)
    return [Row(crate, *found) for crate in crates for found in sorted(public_in(crate)) if (crate, *found) not in listed]


def unnamed(page: str, rows: list[Row]) -> list[str]:
    """The crates with public calls or types that have neither a list nor their name among those with none, and those that have both."""
    listed, named = {row.crate for row in rows}, set(re.findall(r"`(\w+)`", "".join(UNLISTED.findall(page))))
    public = {path.name for path in (ROOT / "crates").iterdir() if (path / "src/lib.rt").is_file() and public_in(path.name)}
    return sorted((public - listed) ^ named)


def told(row: Row) -> str:
    return f"{row.owner + ': ' if row.owner else ''}{row.signature}"


def faults() -> list[str]:
    """What is wrong with the page, one line each: a row that the sources don't declare, what is public and has no row, a crate that the
    page doesn't name, or that it has no rows at all."""
    text = PAGE.read_text(encoding="utf-8")
    rows = rows_of(text)
    if not rows or len(rows) != len(ROW.findall(text)):
        return ["not every row is in a list of a crate"]
    return [*(f"{row.crate} has no {told(row)}" for row in missing(rows)),
            *(f"no row: {row.crate}, {told(row)}" for row in unlisted(rows)),
            *(f"{crate}: neither a list nor named as one without, or both" for crate in unnamed(text, rows))]
