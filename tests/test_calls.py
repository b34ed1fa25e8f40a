"""Each table of calls, refusals, events and names of applications beside interface/rules.json. What scripts/make-calls writes is current,
and what is written by hand has the same rows: sources, definitions, headers, pages and helps."""

import re
from typing import Callable

import pytest

from call_rules import ARGUMENTS, CALLS, LETTERS, OF_MOTE, RULES
from tools import ROOT, run

EVENTS: dict[str, int] = {rule["name"]: rule["code"] for rule in RULES["events"]}
REFUSALS: dict[str, int] = {rule["name"]: rule["number"] for rule in RULES["refusals"]}
# A table of calls: each call with the letters of what follows its word.
Table = dict[str, str]
# Where numbers of both sizes look alike.
NUMBERS: Table = {name: letters.replace("s", "n") for name, letters in LETTERS.items()}


def source(name: str) -> str:
    return (ROOT / name).read_text(encoding="utf-8")


def spoken(name: str) -> str:
    """``NotRunning`` as ``not-running``."""
    return re.sub(r"(?<!^)([A-Z])", r"-\1", name).lower()


def variants(file: str, name: str) -> list[tuple[str, str]]:
    text = source(f"crates/mote_types/src/{file}")
    body = text[text.index(f"pub enum {name} {{"):]
    return re.findall(r"^    ([A-Z]\w*)(?:\(([^)]*)\))?,$", body[:body.index("\n}\n")], re.M)


def c_enum(header: str, name: str) -> list[tuple[str, int]]:
    """The members of an enum in C that has no other members' names in it, with their numbers."""
    body = re.sub(r"/\*.*?\*/", "", header[header.index(f"enum {name} {{"):].partition("{")[2].partition("}")[0], flags=re.S)
    members: list[tuple[str, int]] = []
    for member in filter(None, (part.strip() for part in body.split(","))):
        word, _, number = member.partition(" = ")
        members.append((word, int(number) if number else members[-1][1] + 1 if members else 0))
    return members


def test_made_tables() -> None:
    """The enums of toarmuts.h and the tables of the Python package and of crates/library_core are as scripts/make-calls writes them."""
    ran = run(ROOT / "scripts/make-calls", "--check")
    assert ran.returncode == 0, ran.stderr.decode()


def differences(found: Table, wanted: Table) -> list[str]:
    return [f"{name}: {found.get(name, 'missing')!r} in place of {wanted.get(name, 'no such call')!r}"
            for name in sorted(found.keys() | wanted.keys()) if found.get(name) != wanted.get(name)]


# ---- Calls ----

def of_types() -> Table:
    types = {"u8": "s", "u32": "n", "Payload": "p", "Chunk": "b"}
    found = {spoken(name): "".join(types[it] for it in told.split(", ") if it) for name, told in variants("call.rt", "Call")}
    assert list(found) == list(CALLS)
    return found


def of_public_calls() -> Table:
    row, = re.findall(r"^- `enum Call \{ (.*) \}`$", source("interface/public-calls.md"), re.M)
    types = {"u8": "s", "u32": "n", "Payload": "p", "Chunk": "b"}
    return {spoken(name): "".join(types[it] for it in told.split(", ") if it) for name, told in re.findall(r"(\w+)(?:\(([^)]*)\))?", row)}


def of_entries() -> Table:
    kinds = {"decimal": "n", "hex": "b", "payload_word": "p"}
    rows = re.findall(r'^call_words \(?Call\.\w+.*? = codes "([a-z-]+)" ∷ (.*)\[\]$', source("crates/mote_text/specs/EntryText.antt"), re.M)
    return {name: "".join(kinds[it] for it in re.findall(r"(\w+) [\w.]+ ∷", told)) for name, told in rows}


def of_entry_words() -> Table:
    """The first words of calls in the code that writes lines: no arguments."""
    rows = re.findall(r'^        Call::(\w+)(?:\(.*?\))? => \(b"([a-z-]+) +", (\d+)\),$', source("crates/mote_text/src/calls.rt"), re.M)
    assert all(spoken(name) == word and len(word) == int(length) for name, word, length in rows)
    return {word: LETTERS[word] for _, word, _ in rows}


def of_list_readings() -> Table:
    kinds = {"is_small": "s", "is_wide": "n", "is_payload": "p", "is_chunk": "b"}
    text = source("crates/call_lists/specs/Code/Readings.antt")
    rows = re.findall(r'bytes_eq name \(codes "([a-z-]+)"\) then Some (?:\[\]|\((.*) ∷ \[\]\))$', text, re.M)
    return {name: "".join(kinds[it] for it in told.split(" ∷ ") if it) for name, told in rows}


def of_lists() -> Table:
    kinds = {"small": "s", "number": "n", "payload": "p", "chunk": "b"}
    rows = re.findall(r'^        "([a-z-]+)" => Call::(\w+)(?:\(((?:[^()]|\(\))*)\))?,$', source("crates/call_lists/src/calls.rt"), re.M)
    assert all(spoken(name) == word for word, name, _ in rows)
    return {word: "".join(kinds[it] for it in re.findall(r"words\.(\w+)\(\)", told)) for word, _, told in rows}


def of_line_forms() -> Table:
    """The words of calls in a transcript that is read, by the definition."""
    text = source("crates/pictures/specs/Transcript/Turns.antt").partition("after the name of a call")[2].partition("---- a turn")[0]
    found: Table = {}
    for names, told in re.findall(r'if ((?:is_one_of|bytes_eq)[^=]*?)\s+then Some (.*)', text):
        forms = {"[]": "", "number": "n", "numbers": "nn"}.get(told)
        if forms is None:
            forms = told.replace("Form.Number", "n").replace("Form.Payload", "p").replace("Form.Bytes", "b").replace("numbers)", "nn)")
            forms = re.sub(r"[^npb]", "", forms)
        found |= dict.fromkeys(re.findall(r'codes "([a-z-]+)"', names), forms)
    return found


def of_lines() -> Table:
    text = source("crates/pictures/src/transcript/turn.rt").partition("fn is_plain_call")[2].partition("fn is_call")[0]
    found: Table = {}
    for names, told in re.findall(r'^        ("[^=]*?) =>\s*\{?\s*have_forms\(\s*rest,\s*&\[(.*?)\],?\s*\)', text, re.M | re.S):
        several = re.fullmatch(r"Form::Number; (\d)", told)
        forms = "n" * int(several[1]) if several else "".join({"Number": "n", "Payload": "p", "Bytes": "b"}[it]
                                                              for it in re.findall(r"Form::(\w+)", told))
        found |= dict.fromkeys(re.findall(r'"([a-z-]+)"', names), forms)
    return found


def of_plain_calls() -> Table:
    """What the numbers and bytes of a struct of C say, by the definition; its order is that of the kinds."""
    readings = {"bare": "", "printing": "b", "named": "s", "paired": "ss", "tripled": "sss", "sized": "sn", "spanned": "ns",
                "reading": "sns", "writing": "snb", "pool_reading": "ssns", "pool_writing": "ssnb", "announcing": "sp", "posting": "ssp"}
    text = source("crates/library_core/specs/Calls.antt").partition("\nreadings =\n    no_call\n")[2].partition("[]\n")[0]
    found = {spoken(name): readings[reading] for reading, name in re.findall(r"∷ (\w+) (?:\(λ .*?\. )?Call\.(\w+)", text)}
    assert list(found) == list(CALLS)
    return found


def of_steps() -> Table:
    rows = re.findall(r'\[TOARMUTS_CALL_(\w+)\] = \{"([a-z-]+)", "(\w*)"\}', source("tests/c/steps.h"))
    assert all(constant.lower().replace("_", "-") == word for constant, word, _ in rows)
    return {word: parts.translate(str.maketrans("bx", "sb")) for _, word, parts in rows}


TABLES: dict[str, tuple[Callable[[], Table], Table]] = {
    "mote_types/src/call.rt": (of_types, LETTERS),
    "interface/public-calls.md": (of_public_calls, LETTERS),
    "mote_text/specs/EntryText.antt": (of_entries, NUMBERS),
    "mote_text/src/calls.rt": (of_entry_words, LETTERS),
    "call_lists/specs/Code/Readings.antt": (of_list_readings, LETTERS),
    "call_lists/src/calls.rt": (of_lists, LETTERS),
    "pictures/specs/Transcript/Turns.antt": (of_line_forms, NUMBERS),
    "pictures/src/transcript/turn.rt": (of_lines, NUMBERS),
    "library_core/specs/Calls.antt": (of_plain_calls, LETTERS),
    "tests/c/steps.h": (of_steps, LETTERS),
}


@pytest.mark.parametrize("name", TABLES)
def test_calls(name: str) -> None:
    found, wanted = TABLES[name]
    told = differences(found(), wanted)
    assert not told, f"{name} differs from interface/rules.json:\n" + "\n".join(told)


def rows_of_profile() -> dict[str, tuple[list[str], list[int], str | None]]:
    """The table of the page: the arguments of each call, its refusals, and the kind of its reply. A row may have several calls; where each
    has a reply of its own these are parted by semicolons. A refusal in brackets is after the others."""
    table = source("docs/profile.md").partition("| Call | Refused | Reply |\n")[2].partition("\n\n")[0].split("\n")[1:]
    rows: dict[str, tuple[list[str], list[int], str | None]] = {}
    for line in table:
        calls, refused, reply = (cell.strip() for cell in line.strip("|").split("|"))
        numbers = re.findall(r"(?:^|, )(\d+)", re.sub(r"\([^)]*\)", "", refused)) + re.findall(r"\(with quotas (\d+)", refused)
        replies = [re.findall(r"[a-z]+", part)[0] for part in reply.split(";")]
        for place, (name, arguments) in enumerate(re.findall(r"`([a-z-]+)((?: [a-z]+)*)`", calls)):
            kind = replies[min(place, len(replies) - 1)]
            rows[name] = (arguments.split(), [int(number) for number in numbers], None if kind == "none" else kind)
    return rows


def test_profile() -> None:
    """docs/profile.md has the arguments, refusals and reply of each call."""
    wanted = {name: ([ARGUMENTS[it]["profile"] for it in rule["arguments"]], rule["refusals"], rule["reply"])
              for name, rule in CALLS.items()}
    found = rows_of_profile()
    told = [f"{name}: {found.get(name)} in place of {wanted.get(name)}" for name in sorted(found.keys() | wanted.keys())
            if found.get(name) != wanted.get(name)]
    assert not told, "docs/profile.md differs from interface/rules.json:\n" + "\n".join(told)


# ---- Refusals, events, replies, origins ----

def test_refusals() -> None:
    """Their numbers and names, in code, definition and page; for toarmuts.h: test_made_tables."""
    code = source("crates/mote_types/src/refusal.rt")
    assert {spoken(name): int(number) for name, number in re.findall(r"Refusal::(\w+) => (\d+),", code)} == REFUSALS
    codes = source("crates/mote_types/specs/Codes.antt")
    assert {spoken(name): int(number) for name, number in re.findall(r"^refusal_number Refusal\.(\w+) = (\d+)$", codes, re.M)} == REFUSALS
    replies, _ = source("docs/transcript.md").split("## The status of a run")
    page = re.findall(r"^\| (\d+) \| (.*) \|$", replies, re.M)
    assert [(int(number), about) for number, about in page] == [(rule["number"], rule["about"]) for rule in RULES["refusals"]]


def test_events() -> None:
    """Their codes and names, in code, definition, Contiki-NG's header and page."""
    found = re.findall(r"^pub const (\w+): u8 = (1[23]\d);", source("crates/mote_types/src/event.rt"), re.M)
    assert {name.lower().replace("_", "-"): int(code) for name, code in found} == {**EVENTS, "max": 138}
    defined = re.findall(r"^([A-Z_]+) = (\d+)$", source("crates/mote_types/specs/EventNumbers.antt"), re.M)
    assert {name.lower().replace("_", "-"): int(code) for name, code in defined}.items() <= {**EVENTS, "first-free": 140}.items()
    header = re.findall(r"^#define PROCESS_EVENT_(\w+) (\d+)$", source("c/contiki/include/sys/process.h"), re.M)
    of_contiki = {**EVENTS, "max": 138}
    assert {name.lower().replace("_", "-"): int(code) for name, code in header} \
        == {name: code for name, code in of_contiki.items() if name not in ("serial-line", "packet")}
    page = source("docs/profile.md").partition("- Event numbers are one byte:")[2].partition(". *Own:*")[0]
    assert {name.lower().replace("_", "-"): int(code) for name, code in re.findall(r"(\w+)\s+(\d+)", page)} \
        == {name: code for name, code in of_contiki.items() if name not in ("serial-line", "packet")}


def test_reserved_events() -> None:
    """Those that no application may post, in definition and page."""
    wanted = [rule["code"] for rule in RULES["events"] if rule["reserved"]]
    names = re.findall(r"^    \((NONE .*) ∷ \[\]\)$", source("crates/mote_types/specs/Codes.antt"), re.M)[0].split(" ∷ ")
    assert [EVENTS[name.lower().replace("_", "-")] for name in names] == wanted
    told = source("docs/profile.md").partition("Reserved codes: ")[2].partition(".\n")[0]
    codes: list[int] = []
    for part in told.split(", "):
        first, _, last = part.partition(" to ")
        codes += range(int(first), int(last or first) + 1)
    assert codes == wanted


def test_replies_and_origins() -> None:
    """Their order is that of their numbers, in code and header."""
    header = source("crates/toarmuts/include/toarmuts.h")
    assert [name.lower() for name, _ in variants("reply.rt", "Reply")] == RULES["replies"]
    assert [name.lower() for name, _ in variants("event.rt", "Origin")] == RULES["origins"]
    assert c_enum(header, "toarmuts_reply") == [(f"TOARMUTS_REPLY_{name.upper()}", number) for number, name in enumerate(RULES["replies"])]
    assert c_enum(header, "toarmuts_origin") == [(f"TOARMUTS_FROM_{name.upper()}", number) for number, name in enumerate(RULES["origins"])]


# ---- Names of applications ----

QUOTED = r"`([a-z-]+)`"
# Where the names are: what is before and after them, how each is written, and which they are.
NAMES: dict[str, tuple[str, str, str, list[str]]] = {
    "README.md": ("APP is an application:", ";", QUOTED, OF_MOTE),
    "crates/mote/src/main.rt": ("after_help: after_help!(", '",', r'^ *"?  ([a-z]+)  +\w', OF_MOTE),
    "crates/mote_apps/src/bundled.rt": ("match word {", "_ =>", r'"([a-z-]+)" =>', OF_MOTE),
    "crates/mote_apps/specs/Bundled.antt": ("\nnamed word =", "\n\n", r'codes "([a-z-]+)"', OF_MOTE),
    "crates/network/src/options.rt": ("Applications:\n", " which calls", r"(?:^  |, )([a-z-]+)(?=,)", RULES["applications"]),
    "crates/scenario/src/options.rt": ("one more application:", ", which asks", r"([a-z-]+)(?:,|$)", RULES["applications"]),
    "crates/toarmuts/include/toarmuts.h": ("a name\n * (", ")", r"([a-z-]+)", RULES["applications"]),
    "docs/scenarios.md": ("| `app NAME` | an application:", ", which calls", QUOTED, RULES["applications"]),
}


@pytest.mark.parametrize("file", NAMES)
def test_applications(file: str) -> None:
    before, after, name, wanted = NAMES[file]
    told = source(file).partition(before)[2].partition(after)[0]
    assert re.findall(name, told, re.M) == wanted, f"{file} differs from interface/rules.json"


def test_kinds_of_applications() -> None:
    """The applications of the program mote have the numbers 1, 2, .. in a struct of C, in code and in what is proved of the definition."""
    code = re.findall(r"^            (\d) => Some\(Bundled::(\w+)", source("crates/library_core/src/application.rt"), re.M)
    assert [(int(kind), name.lower()) for kind, name in code] == list(enumerate(OF_MOTE, 1))
    examples = source("crates/library_core/proofs/BundledExamples.antt")
    proved = re.findall(r'said (\d) 0 0 0 0 ≡ named \(codes "([a-z-]+)"\)', examples)
    assert [(int(kind), name) for kind, name in proved] == list(enumerate(OF_MOTE, 1))
