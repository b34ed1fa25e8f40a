"""Rewrites single lines so that memory looks as it does on x86-64: a pointer keeps a slot of 8 bytes, its address in the first 4, zeros in
the others. So layouts, the sizes that a module states, and the bytes of a pointer read as a number stay the same; ``usize`` keeps 64
bits. What results runs as on a machine of 64 bits whose addresses are all below 2^32.
"""
from __future__ import annotations

import re
from collections.abc import Callable

from .forms import LANES
from .layout import alignment_at, members, offsets
from .refusal import Refused
from .targets import Target

# Half of a slot: the zeros after an address.
ABOVE = 4
ADDRESS_LIMIT = 2**31
FLOAT_FENCE = re.compile(r"@llvm\.arithmetic\.fence\.f(?:32|64)")
MEMORY_INTRINSIC = re.compile(r"@llvm\.mem\w+\.[p0.]+\.i64")

Rewriting = Callable[[re.Match[str], str, Target], list[str]]


def stored(kind: str, value: str, place: str, align: int, fresh: str) -> list[str]:
    """Stores a scalar. Zeros follow an address."""
    lines = [f"store {kind} {value}, ptr {place}, align {align}"]
    if kind == "ptr":
        lines.append(f"{fresh} = getelementptr i8, ptr {place}, i64 {ABOVE}")
        lines.append(f"store i32 0, ptr {fresh}, align {min(align, ABOVE)}")
    return lines


def rewrite_alloca(parts: re.Match[str], fresh: str, target: Target) -> list[str]:
    """A local pointer has a slot: what copies it copies 8 bytes."""
    kind = "[8 x i8]" if parts["kind"] == "ptr" else parts["kind"]
    return [f"{parts['name']} = alloca {kind}, align {target.align(parts['align'])}"]


def rewrite_load(parts: re.Match[str], fresh: str, target: Target) -> list[str]:
    """An aggregate is loaded member by member at the offsets of x86-64: for the whole, LLVM takes those of the target."""
    kind, place, align = parts["kind"], parts["place"], target.align(parts["align"])
    if not kind.startswith("{"):
        return [f"{parts[0][:parts.start('align')]}{align}{parts[0][parts.end('align'):]}"]
    lines, whole, scalars = [], "poison", members(kind)
    for number, (scalar, offset) in enumerate(zip(scalars, offsets(scalars))):
        name = parts["name"] if number == len(scalars) - 1 else f"{fresh}.whole{number}"
        lines.append(f"{fresh}.place{number} = getelementptr i8, ptr {place}, i64 {offset}")
        lines.append(f"{fresh}.member{number} = load {scalar}, ptr {fresh}.place{number}, align {alignment_at(offset, align)}")
        lines.append(f"{name} = insertvalue {kind} {whole}, {scalar} {fresh}.member{number}, {number}")
        whole = name
    return lines


def rewrite_store(parts: re.Match[str], fresh: str, target: Target) -> list[str]:
    """An aggregate is stored member by member, and zeros follow each address."""
    kind, value, place, align = parts["kind"], parts["value"], parts["place"], target.align(parts["align"])
    if not kind.startswith("{"):
        return stored(kind, value, place, align, f"{fresh}.above")
    lines, scalars = [], members(kind)
    for number, (scalar, offset) in enumerate(zip(scalars, offsets(scalars))):
        member, at = f"{fresh}.member{number}", f"{fresh}.place{number}"
        lines.append(f"{at} = getelementptr i8, ptr {place}, i64 {offset}")
        lines.append(f"{member} = extractvalue {kind} {value}, {number}")
        lines += stored(scalar, member, at, alignment_at(offset, align), f"{fresh}.above{number}")
    return lines


def rewrite_address(parts: re.Match[str], fresh: str, target: Target) -> list[str]:
    """An address is a number of 32 bits, with zeros above."""
    return [f"{fresh}.address = ptrtoaddr ptr {parts['value']} to i32", f"{parts['name']} = zext i32 {fresh}.address to i64"]


def fence_as_value(parts: re.Match[str]) -> str:
    """A fence keeps the optimizer from reordering floats across it. No form that is on the list lets it do so, so the fence is its value;
    the kit's clang can't compile one for WebAssembly."""
    name = parts["before"].partition(" = ")[0]
    return f"{name} = bitcast {parts['arguments']} to {parts['arguments'].split(' ')[0]}"


def rewrite_call(parts: re.Match[str], fresh: str, target: Target) -> list[str]:
    """LLVM's calls on memory take a size of 32 bits: no object is larger."""
    called = parts["called"]
    if FLOAT_FENCE.fullmatch(called):
        return [fence_as_value(parts)]
    if called.startswith("@llvm.") and called[1:] in target.stand_ins:
        # An intrinsic of LLVM can't be defined: its replacement has another name.
        return [parts[0].replace("@llvm.", "@toarmuts.", 1)]
    if not MEMORY_INTRINSIC.fullmatch(called):
        return [parts[0]]
    found = re.fullmatch(r"(?P<before>.*, )i64 (?P<size>\S+), i1 false", parts["arguments"])
    if found is None:
        raise Refused(f"a call on memory that may not be left out: {parts[0]}")
    size, lines = found["size"], []
    if not size.isdigit():
        lines = [f"{fresh}.size = trunc i64 {size} to i32"]
        size = f"{fresh}.size"
    elif int(size) >= ADDRESS_LIMIT:
        raise Refused(f"a call on {size} bytes: {parts[0]}")
    called = called.removesuffix("i64") + "i32"
    return [*lines, f"{parts['before']}{called}({found['before']}i32 {size}, i1 false){parts['after']}"]


REWRITINGS: dict[str, Rewriting] = {
    "alloca": rewrite_alloca,
    "load": rewrite_load,
    "store": rewrite_store,
    "ptrtoaddr": rewrite_address,
    "call": rewrite_call,
}


def rewrite_operation(text: str, number: int, target: Target) -> list[str]:
    """What a line within a function, without its indent, becomes. New names have the line's number."""
    word, parts = target.forms.operation(text)
    rewriting = REWRITINGS.get(word)
    return rewriting(parts, f"%line{number}", target) if rewriting else [text]


def rewrite_definition(line: str, target: Target) -> str:
    """A function's first line. What C calls takes and returns plain values; a returned bool, u8 or u16 is extended by the callee, as
    the calling conventions of 32 bits want it."""
    parts = target.forms.definition.fullmatch(line)
    if parts is None:
        raise Refused(f"a function's first line of a form that isn't on the list: {line}")
    if parts["internal"]:
        return line
    if re.search(rf"\{{|{LANES}|\bi128\b", f"{parts['result']} {parts['arguments']}"):
        raise Refused(f"an exported function with a value that C passes otherwise: {line}")
    if parts["result"] in ("i1", "i8", "i16") and "zeroext" not in parts["attributes"]:
        return line.replace(f" {parts['result']} @", f" zeroext {parts['result']} @", 1)
    return line


def rewrite_declaration(line: str, target: Target) -> str:
    """What declares an intrinsic, or a C function that is known."""
    parts = target.forms.declaration.fullmatch(line)
    if parts is None:
        raise Refused(f"a declaration of a form that isn't on the list: {line}")
    name = parts["name"]
    if target.forms.intrinsic.fullmatch(name):
        return re.sub(r"(@llvm\.mem[\w.]+)\.i64\((.*), i64, i1", r"\1.i32(\2, i32, i1", line)
    arguments = ", ".join(it if it.startswith("<") else it.partition(" ")[0] for it in parts["arguments"].split(", "))
    if target.forms.foreign.get(name) != f"{parts['result']} ({arguments})":
        raise Refused(f"a function of this type that isn't on the list: {line}")
    return target.stand_ins.get(name, line)


def rewrite_constant(line: str, target: Target) -> str:
    """A constant: bytes as they are; 4 zeros follow each packed pointer."""
    parts = target.forms.constant.fullmatch(line)
    if parts is None:
        raise Refused(f"a global of a form that isn't on the list: {line}")
    align = f", align {target.align(parts['align'])}" if parts["align"] else ""
    if parts["members"] is None:
        return re.sub(r", align \d+$", align, line)
    kinds, values = [], []
    for kind, value in constant_members(parts["members"], target):
        kinds.append(kind)
        values.append(value)
        if kind == "ptr":
            kinds.append(f"[{ABOVE} x i8]")
            values.append(f"[{ABOVE} x i8] zeroinitializer")
    return f"{parts['head']}<{{ {', '.join(kinds)} }}> <{{ {', '.join(values)} }}>{align}"


def constant_members(text: str, target: Target) -> list[tuple[str, str]]:
    """The members of a packed constant: each one's type, and its value with the type before it."""
    found, at = [], 0
    while at <= len(text):
        member = target.forms.element.match(text, at)
        if member is None or not text.startswith((", ", ""), member.end()):
            raise Refused(f"a constant with a member of a form that isn't on the list: {text[at:at + 200]}")
        found.append((member["kind"], member[0]))
        at = member.end()
        if at == len(text):
            return found
        if not text.startswith(", ", at):
            raise Refused(f"a constant with a member of a form that isn't on the list: {text[at:at + 200]}")
        at += 2
    raise Refused(f"a constant whose members end with a comma: {text[-200:]}")
