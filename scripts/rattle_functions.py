"""The functions of a crate's source, by the names that rattle prints, and the lines of each. It reads files as `rt fmt` lays them out."""
from __future__ import annotations

import itertools
import re
from dataclasses import dataclass
from pathlib import Path
from typing import Iterable, Iterator

FUNCTION = re.compile(r'(\s*)(?:pub(?:\([^)]*\))? )?(?:const )?(?:unsafe )?(?:extern "C" )?fn (\w+)')
IMPL = re.compile(r"impl(?:<.*?>)? (?:([\w:]+)(?:<.*?>)? for )?([\w:]+)")
NAMED = re.compile(r"(?:pub(?:\([^)]*\))? )?(?:trait|struct|enum) (\w+)")
CONSTANT = re.compile(r"\s*(?:pub(?:\([^)]*\))? )?(?:const|static) (\w+)")
# A module is named after its file, but for these.
UNNAMED = ("lib", "main", "mod")


@dataclass(frozen=True)
class Function:
    """A function by its path below the crate, and its first and last line, and the one that opens its body, counted from 1."""
    path: str
    file: str
    first: int
    body: int
    last: int

    def has_in_body(self, line: int) -> bool:
        """Whether a line is one of the body, and none of the head or the contract, on which the proofs of others rest."""
        return line > self.body or self.first == self.last

    @property
    def proofs(self) -> str:
        """The folder of its proof files."""
        return f"proofs/{self.path.replace('::', '/')}/"

    @property
    def module(self) -> str:
        """The module of its proof, below that of the crate's proofs."""
        return self.path.replace("::", ".")


def module_of(file: str) -> str:
    """The module that a file, `src/..`, is."""
    return "::".join(it for it in Path(file).with_suffix("").parts[1:] if it not in UNNAMED)


class Source:
    """The texts of a crate's src/, and the functions with a body in each."""

    def __init__(self, folder: Path) -> None:
        found = sorted((folder / "src").rglob("*.rt"))
        self.texts = {path.relative_to(folder).as_posix(): path.read_text(encoding="utf-8") for path in found}
        # A method is named after the module of its type, wherever its `impl` is.
        self.modules = {named[1]: module_of(file) for file, text in self.texts.items()
                        for line in text.splitlines() if (named := NAMED.match(line))}
        self.functions = [it for file, text in self.texts.items() for it in self._functions_of(file, text.splitlines())]

    def _owner(self, file: str, line: str) -> str | None:
        """The path of what the functions of a block belong to that begins on this line: `Type`, `TypeTrait` or `Trait`, in its module."""
        if found := IMPL.match(line):
            of_trait, of_type = ((name or "").split("::")[-1] for name in found.groups())
            name = of_type if of_trait in ("", "Drop") else of_type + of_trait
            return self._within(module_of(file) if name != of_type else self.modules.get(of_type, module_of(file)), name)
        return self._within(module_of(file), found[1]) if (found := NAMED.match(line)) else None

    @staticmethod
    def _within(module: str, name: str) -> str:
        return f"{module}::{name}" if module else name

    def _functions_of(self, file: str, lines: list[str]) -> Iterator[Function]:
        owner = ""
        for number, line in enumerate(lines, 1):
            owner = self._owner(file, line) or ("" if line == "}" else owner)
            if (head := FUNCTION.match(line)) and (last := end_of(lines, number, head[1])):
                body = body_of(lines, number, last, head[1])
                yield Function(self._within(owner if head[1] else module_of(file), head[2]), file, number, body, last)

    def function_at(self, file: str, number: int) -> Function | None:
        """The function that has this line."""
        return next((it for it in self.functions if it.file == file and it.first <= number <= it.last), None)

    def constant_at(self, file: str, number: int) -> str | None:
        """The name of the constant whose value has this line."""
        for line in reversed(self.texts[file].splitlines()[:number]):
            if found := CONSTANT.match(line):
                return found[1]
            if line.strip() in ("}", ""):
                return None
        return None

    def without_bodies(self, functions: Iterable[Function]) -> dict[str, str]:
        """The texts in which these functions have no body, with the same number of lines. A body on the line of its head is short, and
        stays."""
        lines = {file: text.splitlines() for file, text in self.texts.items()}
        for it in functions:
            if it.body + 1 < it.last:
                lines[it.file][it.body:it.last - 1] = ["unreachable!()", *[""] * (it.last - it.body - 2)]
        return {file: "\n".join([*text, ""]) for file, text in lines.items()}

    def users_of(self, name: str) -> list[Function]:
        """The functions in whose text a word is."""
        lines = {file: text.splitlines() for file, text in self.texts.items()}
        return [it for it in self.functions if re.search(rf"\b{name}\b", "\n".join(lines[it.file][it.first - 1:it.last]))]


def body_of(lines: list[str], first: int, last: int, indent: str) -> int:
    """The line that opens the body of a function: after a contract `{` alone, otherwise the end of the head."""
    numbers = range(first, last + 1)
    alone = (it for it in numbers if lines[it - 1] == f"{indent}{{")
    ending = (it for it in numbers if lines[it - 1].endswith("{"))
    return next(itertools.chain(alone, ending), first)


def end_of(lines: list[str], number: int, indent: str) -> int | None:
    """The last line of the function that begins on this one; none where it has no body."""
    for last, line in enumerate(lines[number - 1:], number):
        if line == f"{indent}}}" or last == number and line.endswith("}"):
            return last
        # One that is only declared ends where its block ends, or another one begins.
        if last > number and (line == "}" or (other := FUNCTION.match(line)) and other[1] == indent):
            return None
    return None
