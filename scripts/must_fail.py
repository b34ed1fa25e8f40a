"""Tries wrong bodies, the edits crates/NAME/must-fail/*.edit, each of which the check must refuse: several in one check.

An edit changes the body of a function, and the proof of a function rests on the contracts of others, never on their bodies. So edits of
different functions are made in one copy of the crate, and one `rattle check --only` of these functions tries them all. Edits of one
function come in several rounds. `rt must-fail` tries each edit alone, over a second proof of the whole crate.

For the same reason a round leaves out the bodies and the proofs of all other functions: these rest on one hole, and the check allows it.
Such a check also tells the faults of a function's own proof from those of the functions that it calls.

What a round doesn't show is tried alone: an edit whose function has no proof since it calls another edited one, and each edit of a round
that can't be compiled. What is not refused alone, and what changes no function, is tried by a check of the whole crate, with all proofs.
So no edit is told as not refused for the sake of a hole.
"""
from __future__ import annotations

import contextlib
import enum
import hashlib
import json
import os
import re
import shutil
import subprocess
import tempfile
from concurrent.futures import Executor
from dataclasses import dataclass
from pathlib import Path
from typing import Any, Iterable, Sequence

from rattle_functions import Function, Source

NAMED = re.compile(r"[\w-][\w.-]*\.edit")
# The files of a function's proof, and the text of one that leaves it out.
PROOF_FILES = ("Proof.antt", "Invariants.antt", "Answers.antt")
LEFT_OUT = """use Rattle.{crate}.proofs.LeftOut.{{left_out}}
use Rattle.{crate}.proofs.{module}.Statement.{{statement}}

pub {name}_spec : {{M : Type 1}} → statement M
{name}_spec = left_out
"""
# The one hole in their place.
HOLE = """pub left_out {ℓ} : {A : Type ℓ} → A
left_out = ?
"""
# What rattle prints of such a proof, which is no fault.
OF_HOLE = re.compile(r"(?:\./)?proofs/LeftOut\.antt:")
# A line that places a fault, and one of a proof file that only lacks a name: that says nothing of a contract.
PLACED = re.compile(r"(?:note: )?(?:\./)?(\S+?):(\d+):\d+: ")
LACKS_NAME = re.compile(r"(?:note: )?(?:\./)?proofs/.*(?:has no field|is not in scope|has no `|was not admitted)")
ONLY_NAMES = "only since a proof file names what it took away, which says little of the contract"
# A text that antt can't read, where one that is only false reads well.
UNREAD = re.compile(r"is not in scope|has no field|is no name|operand is missing|expected the end|cannot continue")


class Kind(enum.Enum):
    """What the try of an edit came to."""
    REFUSED = "refused"
    MISSED = "NOT REFUSED"
    BAD = "BAD EDIT"
    UNSURE = "NOT TRIED"


@dataclass(frozen=True)
class Result:
    """What the try of an edit came to, and why."""
    crate: str
    edit: str
    kind: Kind
    why: str

    def __str__(self) -> str:
        return f"{self.crate}/{self.edit}: {self.kind.value}: {self.why}"


class BadEdit(Exception):
    """Why an edit can't be applied."""


@dataclass(frozen=True)
class Change:
    """A new text for an old one, which is at this position of a file."""
    file: str
    at: int
    old: str
    new: str


@dataclass(frozen=True)
class Edit:
    """An edit, and the functions that are checked for it: those that it changes, or those that name the constant that it changes. Where
    there are none, or not only bodies are changed, the whole crate is checked."""
    name: str
    changes: tuple[Change, ...]
    functions: tuple[Function, ...]
    is_of_bodies: bool


def _pairs_of(text: str) -> Iterable[tuple[str, str, str]]:
    """File, old and new text of each change, as rt reads an edit."""
    file = old = ""
    for line in text.split("\n"):
        if line.startswith("file: "):
            file, old = line[6:].strip(), ""
        elif line.startswith("old: "):
            old = line[5:]
        elif line.startswith("new:"):
            if not file or not old:
                raise BadEdit("a 'new:' line is before any 'file:' or 'old:' line")
            yield file, old, line[4:].removeprefix(" ")
            old = ""


def read_edit(path: Path, folder: Path, source: Source) -> Edit:
    """Reads an edit of a crate. It can be applied only where its old text is in the file once."""
    changes, functions, is_of_bodies = [], [], True
    for file, old, new in _pairs_of(path.read_text(encoding="utf-8", errors="replace")):
        if os.path.normpath(file) != file or not file.startswith(("src/", "specs/", "proofs/")) or not (folder / file).is_file():
            raise BadEdit(f"there is no file {file} in src/, specs/ or proofs/")
        text = (folder / file).read_text(encoding="utf-8")
        if text.count(old) != 1:
            raise BadEdit(f"its old text is in {file} {text.count(old)} times, and not once")
        changes.append(Change(file, text.index(old), old, new))
        line = text.count("\n", 0, text.index(old)) + 1
        if function := source.function_at(file, line):
            functions.append(function)
            is_of_bodies = is_of_bodies and function.has_in_body(line)
            continue
        is_of_bodies = False
        if file in source.texts and (name := source.constant_at(file, line)):
            functions += source.users_of(name)
    if all(it.old == it.new for it in changes):
        raise BadEdit("it changes nothing")
    return Edit(path.name, tuple(changes), tuple(dict.fromkeys(functions)), is_of_bodies)


def rounds_of(edits: Sequence[Edit]) -> list[list[Edit]]:
    """The edits in rounds, in each of which no two are of one function. One that changes more than bodies is alone."""
    rounds: list[list[Edit]] = []
    for edit in edits:
        fitting = (it for it in rounds if edit.is_of_bodies and all(
            other.is_of_bodies and not set(edit.functions) & set(other.functions) for other in it))
        if (found := next(fitting, None)) is not None:
            found.append(edit)
        else:
            rounds.append([edit])
    return rounds


def edited_texts(folder: Path, changes: Iterable[Change]) -> dict[str, str]:
    """The texts of the files with these changes, by their paths."""
    texts: dict[str, str] = {}
    for change in sorted(changes, key=lambda it: it.at, reverse=True):
        text = texts.get(change.file) or (folder / change.file).read_text(encoding="utf-8")
        texts[change.file] = text[:change.at] + change.new + text[change.at + len(change.old):]
    return texts


class Crate:
    """A crate whose wrong bodies are tried, over the built libraries below it."""

    def __init__(self, rt: Any, crate: Any, edits: Path | None = None, niceness: int = 0) -> None:
        """rt is the module of the kit's rt, and crate what that has of the crate. The folder of edits is by default the crate's."""
        self.niceness = niceness
        self.rt, self.crate, self.name = rt, crate, str(crate.name)
        self.folder = Path(crate.folder)
        self.paths = sorted(it for it in (edits or self.folder / "must-fail").glob("*") if it.suffix != ".md")
        self.running: set[subprocess.Popen[str]] = set()
        self.is_ended = False

    def sum(self) -> str:
        """A hash of all that the results rest on."""
        own = [Path(__file__).with_name(name).read_bytes() for name in ("must_fail.py", "rattle_functions.py")]
        texts = [(path.name, path.read_bytes()) for path in self.paths]
        kit = (Path(self.rt.KIT) / "KIT-ID").read_bytes()
        return hashlib.sha256(repr((kit, self.crate.stamp(), texts, own)).encode()).hexdigest()

    def touched(self) -> list[tuple[str, int]]:
        """The times of all files that a check reads: they tell whether one was changed meanwhile."""
        libraries = (Path(it.rlib) / "format" for it in self.crate.below())
        parts = (path for part in self.rt.PARTS for path in sorted((self.folder / part).rglob("*")))
        return [(str(path), path.stat().st_ctime_ns) for path in (*self.paths, *parts, *libraries) if path.is_file()]

    def try_all(self, pool: Executor) -> list[Result]:
        """Tries all edits, the rounds side by side as far as the pool allows."""
        results, edits, source = [], [], Source(self.folder)
        for path in self.paths:
            try:
                if not NAMED.fullmatch(path.name) or not path.is_file():
                    raise BadEdit("an edit is a file of must-fail/ whose name ends in .edit")
                edits.append(read_edit(path, self.folder, source))
            except (BadEdit, OSError) as fault:
                results.append(Result(self.name, path.name, Kind.BAD, str(fault)))
        for found in pool.map(self._try_round, rounds_of(edits)):
            results += found
        return sorted(results, key=lambda it: it.edit)

    def stop(self) -> None:
        """Ends the checks that are running, and starts no more."""
        self.is_ended = True
        for it in list(self.running):
            it.kill()

    def _try_round(self, edits: list[Edit]) -> list[Result]:
        """Tries edits in one check, and alone those of which that says nothing."""
        functions = [it for edit in edits for it in edit.functions]
        status, lines = self._check([it for edit in edits for it in edit.changes], functions) if functions else (0, [""])
        texts = {it.file for edit in edits for it in edit.changes}
        is_read = bool(re.match(r"only=\d+ holes=\d+", lines[-1])) and not any(is_unread(line, texts) for line in lines)
        results = []
        for edit in edits:
            found = self._judge(edit, lines, len(edits) == 1) if is_read and status == 1 else None
            if found is None:
                results += self._try_round([edit]) if len(edits) > 1 else [self._try_whole(edit)]
            else:
                results.append(found)
        return results

    def _judge(self, edit: Edit, lines: list[str], is_alone: bool) -> Result | None:
        """What a round's check says of an edit; nothing where it must be tried in another way."""
        for function in edit.functions:
            start = f"fn {self.name}::{function.path}: "
            said = next((line.removeprefix(start) for line in lines if line.startswith(start)), "")
            if not has_own_fault(self.name, function, said, is_alone):
                continue
            told = [line for line in lines if is_about(function, line)]
            told = told or [line for line in lines if is_alone and PLACED.match(line)]
            if told and not is_alone and all("was not admitted" in line for line in told):
                continue
            if told and all(LACKS_NAME.match(line) for line in told):
                return self._result(edit, Kind.REFUSED, f"{ONLY_NAMES}: {told[0]}")
            faults = [line for line in told if not LACKS_NAME.match(line)]
            return self._result(edit, Kind.REFUSED, f"{function.path}: {faults[0] if faults else said}")
        return None

    def _try_whole(self, edit: Edit) -> Result:
        """Tries an edit by a check of the whole crate."""
        status, lines = self._check(edit.changes)
        if status == 0:
            return self._result(edit, Kind.MISSED, "the crate is still proved with it")
        texts = {it.file for it in edit.changes}
        if bad := next((line for line in lines if is_unread(line, texts) or re.search(r"\berror\[[\w-]+\]", line)), None):
            return self._result(edit, Kind.BAD, f"its text can't be compiled or read: {bad}")
        if status != 1 or not lines[-1].startswith("logic=not-proved"):
            return self._result(edit, Kind.UNSURE, f"its check ended with status {status}: {lines[-1]}")
        told = [line for line in lines if PLACED.match(line) and (": error" in line or line.startswith("note: "))]
        if told and all(LACKS_NAME.match(line) for line in told):
            return self._result(edit, Kind.REFUSED, f"{ONLY_NAMES}: {told[0]}")
        return self._result(edit, Kind.REFUSED, next((line for line in told if not LACKS_NAME.match(line)), "it isn't proved"))

    def _result(self, edit: Edit, kind: Kind, why: str) -> Result:
        return Result(self.name, edit.name, kind, why[:240])

    def _check(self, changes: Iterable[Change], only: Sequence[Function] | None = None) -> tuple[int, list[str]]:
        """Checks a copy of the crate with these changes: these functions, without the proofs of the others, or all. Returns the status and
        what rattle wrote."""
        with tempfile.TemporaryDirectory(prefix="wrong-bodies-") as room:
            for part in self.rt.PARTS:
                if (self.folder / part).is_dir():
                    shutil.copytree(self.folder / part, Path(room, part))
            for file, text in edited_texts(self.folder, changes).items():
                Path(room, file).write_text(text, encoding="utf-8")
            chosen = []
            if only is not None:
                leave_out(Path(room), self.name, only)
                chosen = ["--allow-holes", *(word for it in only for word in ("--only", it.path))]
            if self.is_ended:
                return -1, [""]
            words = [*self.rt.guarded(), "nice", "-n", str(self.niceness), self.rt.RATTLE, "check",
                     *self.crate.words(["--jobs", "1"], keeps=False), *chosen]
            with subprocess.Popen(words, cwd=room, stdin=subprocess.DEVNULL, stdout=subprocess.PIPE, stderr=subprocess.STDOUT, text=True,
                                  errors="replace") as running:
                self.running.add(running)
                written = running.communicate()[0]
                self.running.remove(running)
            return running.returncode, [line for line in written.rstrip("\n").split("\n") if not OF_HOLE.match(line)]


def leave_out(folder: Path, crate: str, kept: Iterable[Function]) -> None:
    """Leaves out the bodies and the proofs of the functions of a crate but these. One keeps them where another file names more of its
    proof than its theorem: that file would have a fault without it."""
    names, edited, source = names_of_proofs(folder, crate), {it.path for it in kept}, Source(folder)
    others = [it for it in source.functions if it.path not in edited and not is_named(it, names)]
    for file, text in source.without_bodies(others).items():
        (folder / file).write_text(text, encoding="utf-8")
    (folder / "proofs").mkdir(exist_ok=True)
    for function in others:
        place = folder / function.proofs
        place.mkdir(parents=True, exist_ok=True)
        for name in PROOF_FILES:
            (place / name).unlink(missing_ok=True)
        text = LEFT_OUT.format(crate=crate, module=function.module, name=function.module.rpartition(".")[2])
        (place / PROOF_FILES[0]).write_text(text, encoding="utf-8")
    (folder / "proofs/LeftOut.antt").write_text(HOLE, encoding="utf-8")
    with (folder / "proofs/Lib.antt").open("a", encoding="utf-8") as modules:
        modules.write("mod LeftOut\n")


def names_of_proofs(folder: Path, crate: str) -> set[tuple[str, str]]:
    """The modules of a crate's proofs that its files of proofs name, each with the folder of the file, if it is one of a function."""
    found = set()
    for path in (folder / "proofs").rglob("*.antt"):
        place = f"{path.parent.relative_to(folder).as_posix()}/" if path.name in PROOF_FILES else ""
        names = re.findall(rf"\bRattle\.{crate}\.proofs\.([^\s(){{}},;]+)", path.read_text(encoding="utf-8"))
        found |= {(name.rstrip("."), place) for name in names}
    return found


def is_named(function: Function, names: Iterable[tuple[str, str]]) -> bool:
    """Whether a file but its own names a module of a function's proof, other than that of its theorem, or one that has them all."""
    def is_within(name: str, other: str) -> bool:
        return f"{name}.".startswith(f"{other}.")

    return any(is_within(function.module, name) or is_within(name, function.module) and not is_within(name, f"{function.module}.Met")
               for name, place in names if place != function.proofs)


def has_own_fault(crate: str, function: Function, said: str, is_alone: bool) -> bool:
    """Whether a fault is in the own proof of an edit's function, by what a check says of it. Beside other edits that may only stand on a
    proof of theirs."""
    if not said.startswith("not proved"):
        return said.startswith("no proof: expected answers")
    faults, is_told, _ = said.partition(", which antt refuses")
    if not is_told:
        return not said.startswith("not proved; it calls")
    return is_alone or f"`Rattle.{crate}.proofs.{function.module}." in faults


def is_about(function: Function, line: str) -> bool:
    """Whether a line places a fault in a function or in its proof files."""
    found = PLACED.match(line)
    return found is not None and (found[1].startswith(function.proofs)
                                  or found[1] == function.file and function.first <= int(found[2]) <= function.last)


def is_unread(line: str, changed: Iterable[str]) -> bool:
    """Whether antt couldn't read a text of src/, specs/ or a changed file."""
    found = re.match(r"(?:\./)?(\S+?):\d+:\d+: error: (?:(`[^`]*`): )?(.*)", line)
    if not found or not (found[1] in changed or found[1].startswith(("src/", "specs/"))):
        return False
    return not found[2] or bool(UNREAD.search(re.sub(r"`[^`]*`", "", found[3])))


class Kept:
    """What was refused before, in a folder: it isn't tried again while all that it rests on is the same."""

    def __init__(self, folder: Path | None, is_anew: bool = False) -> None:
        """The folder is made where there is none. Anew means that nothing in it counts."""
        self.folder, self.is_anew = folder, is_anew

    def results_of(self, crate: Crate) -> list[Result] | None:
        """The results of a crate's edits, where all were refused."""
        if self.folder is None or self.is_anew:
            return None
        try:
            found = json.loads((self.folder / crate.name).read_text(encoding="utf-8"))
            if found["sum"] == crate.sum() and [it[0] for it in found["refused"]] == [path.name for path in crate.paths]:
                return [Result(crate.name, name, Kind.REFUSED, why) for name, why in found["refused"]]
        except (OSError, ValueError, KeyError, TypeError):
            pass
        return None

    def keep(self, crate: Crate, name: str, results: list[Result]) -> None:
        """Stores the results under the hash that the crate had before, if all were refused."""
        if self.folder is None or any(it.kind != Kind.REFUSED for it in results):
            return
        text = json.dumps({"sum": name, "refused": [(it.edit, it.why) for it in results]})
        with contextlib.suppress(OSError):
            self.folder.mkdir(exist_ok=True)
            new = self.folder / f"{crate.name}.{os.getpid()}.new"
            new.write_text(text, encoding="utf-8")
            new.replace(self.folder / crate.name)


def try_crate(crate: Crate, kept: Kept, pool: Executor) -> tuple[list[Result], bool]:
    """Tries a crate's edits, or takes what was refused before. Returns the results, and whether they are from before."""
    known = kept.results_of(crate)
    if known is not None:
        return known, True
    name, before = crate.sum(), crate.touched()
    results = crate.try_all(pool)
    if crate.touched() == before:
        kept.keep(crate, name, results)
    return results, False
