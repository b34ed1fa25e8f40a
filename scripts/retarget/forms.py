"""The closed list of forms that a module may have. A line of any other form is refused, so nothing is rewritten that nobody looked at.

An address shows only in two places: in a comparison with null, and in ``ptrtoaddr``, by which a copy tells whether its two ranges
overlap. There is no conversion from a number to a pointer, no comparison of two pointers, no atomic or volatile access, no inline
assembly and no global variable that changes. A target may allow floats.
"""
from __future__ import annotations

import re
from dataclasses import dataclass, field
from functools import cached_property

from .refusal import Refused

# Names and values, as LLVM prints them.
NAME = r'(?:[\w.$-]+|"[^"]*")'
LOCAL = rf"%{NAME}"
GLOBAL = rf"@{NAME}"
INTEGER = r"i(?:1|8|16|32|64|128)"
BYTES = r"\[\d+ x i8\]"
LANES = r"<\d+ x i8>"
LANE_BITS = r"<\d+ x i1>"
LANE_VALUES = r"<(?:i(?:8|32) -?\d+(?:, )?)+>|<(?:i1 (?:true|false)(?:, )?)+>"
# Lanes of programs: numbers in their digits, UTF-8 looked at in blocks.
WIDE_LANES = r"<\d+ x i(?:8|16|64)>"
WIDE_INTRINSICS = r"llvm\.vector\.reduce\.or\.v\d+i1"
NUMBER = r"-?\d+|-?\d+\.\d+e[+-]\d+|0x[0-9A-F]+"
VALUE = rf"(?:{LOCAL}|{GLOBAL}|{NUMBER}|true|false|null|poison|undef|zeroinitializer|splat \(i(?:8|16) -?\d+\)|{LANE_VALUES})"
ALIGN = r", align (?P<align>\d+)"
METADATA = r"(?:, !(?:noundef|range) !\d+)*"
ATTRIBUTES = r"(?:(?:noundef|zeroext|signext|writeonly|readonly|captures\(none\)) )*"
FLAGS = r"(?:(?:nuw|nsw|exact|disjoint|nneg|samesign) )*"
COMMENT = re.compile(r" +; (?:preds = .*|No predecessors!)$")

# An operation's word, and the lines of a `switch`, which have none.
OPERATION = re.compile(rf"(?:{LOCAL} = )?(?P<word>[a-z]+)(?![\w.])")
CASE = re.compile(rf"{INTEGER} -?\d+, label {LOCAL}|\]")

INTRINSICS = (
    r"llvm\.(?:mem(?:set\.p0|move\.p0\.p0|cpy\.p0\.p0)\.i64|trap|(?:ctlz|cttz|ctpop|bswap|abs|fshl|fshr)\.i\d+"
    r"|[us](?:add|sub|mul)\.with\.overflow\.i\d+|[us](?:add|sub)\.sat\.i\d+|[us](?:min|max)\.i\d+"
    # Whether a lane of a divisor is 0, of sixteen bytes whose digits are written.
    r"|vector\.reduce\.or\.v16i1)"
)
FLOAT_INTRINSICS = r"llvm\.(?:arithmetic\.fence|fabs|floor|ceil|trunc|rint|sqrt|copysign|fptoui\.sat\.i\d+|fptosi\.sat\.i\d+)\.f(?:32|64)"

# The data layout and triple of the proved build. Another one means another kit, whose modules nobody has looked at.
DATA_LAYOUT = "e-m:e-p270:32:32-p271:32:32-p272:64:64-i64:64-i128:128-f80:128-n8:16:32:64-S128"


@dataclass(frozen=True)
class Forms:
    """What the modules for one family of processors may be made of.

    ``foreign`` has the C functions that a module may declare, and each one's type, as ``{ i64, i64 } (i64, i64)``.
    """

    foreign: dict[str, str] = field(default_factory=dict)
    has_floats: bool = False
    has_wide_lanes: bool = False

    @cached_property
    def scalar(self) -> str:
        """A type of one register."""
        return rf"(?:{INTEGER}|ptr|double|float)" if self.has_floats else rf"(?:{INTEGER}|ptr)"

    @cached_property
    def aggregate(self) -> str:
        """Several scalars."""
        return rf"\{{ {self.scalar}(?:, {self.scalar})* \}}"

    @cached_property
    def lanes(self) -> str:
        """Several small numbers in one register."""
        return WIDE_LANES if self.has_wide_lanes else LANES

    @cached_property
    def integer(self) -> str:
        """A number; 4 bits are those of four lanes."""
        return rf"(?:{INTEGER}|i4)" if self.has_wide_lanes else INTEGER

    @cached_property
    def type(self) -> str:
        """The type of any value."""
        return rf"(?:{self.scalar}|{self.aggregate}|{self.lanes})"

    @cached_property
    def variadic(self) -> str:
        """What a call of a variadic C function names before it, where there is one."""
        return r"(?:\([\w, ]+, \.\.\.\) )?" if any("..." in it for it in self.foreign.values()) else ""

    @cached_property
    def operations(self) -> dict[str, re.Pattern[str]]:
        """The form of each operation that a function may have, by the operation's word."""
        found = self._memory_operations() | self._register_operations() | self._flow_operations()
        if self.has_floats:
            found |= self._float_operations()
        return {word: re.compile(form) for words, form in found.items() for word in words.split()}

    def _memory_operations(self) -> dict[str, str]:
        scalar, kind, aggregate = self.scalar, self.type, self.aggregate
        stored = rf"(?P<kind>{kind}) (?P<value>{VALUE})"
        return {
            "alloca": rf"(?P<name>{LOCAL}) = alloca (?P<kind>{scalar}|{BYTES}|{self.lanes}){ALIGN}",
            "load": rf"(?P<name>{LOCAL}) = load (?P<kind>{kind}), ptr (?P<place>{VALUE}){ALIGN}{METADATA}",
            # An aggregate that is stored has a name: a constant one may have pointers within.
            "store": rf"store (?!{aggregate} (?!%)){stored}, ptr (?P<place>{VALUE}){ALIGN}",
            "getelementptr": rf"{LOCAL} = getelementptr (?:inbounds )?(?:nuw )?i8, ptr {VALUE}, i64 {VALUE}",
            "ptrtoaddr": rf"(?P<name>{LOCAL}) = ptrtoaddr ptr (?P<value>{VALUE}) to i64",
        }

    def _register_operations(self) -> dict[str, str]:
        number, lanes = rf"(?:{self.integer}|{self.lanes}|{LANE_BITS})", self.lanes
        scalar, kind, aggregate = self.scalar, self.type, self.aggregate
        compared = rf"(?:eq|ne|[us][lg][te]) {number} {VALUE}, {VALUE}|(?:eq|ne) ptr {VALUE}, null"
        return {
            "add sub mul shl udiv sdiv urem srem lshr ashr and or xor":
                rf"{LOCAL} = [a-z]+ {FLAGS}{number} {VALUE}, {VALUE}",
            "icmp": rf"{LOCAL} = icmp {FLAGS}(?:{compared})",
            "trunc zext sext": rf"{LOCAL} = [a-z]+ {FLAGS}{number} {VALUE} to {number}",
            "select": rf"{LOCAL} = select (?:i1|{LANE_BITS}) {VALUE}, {kind} {VALUE}, {kind} {VALUE}",
            "bitcast": rf"{LOCAL} = bitcast {LANE_BITS} {VALUE} to {INTEGER}",
            "shufflevector": rf"{LOCAL} = shufflevector {lanes} {VALUE}, {lanes} {VALUE}, <\d+ x i32> {VALUE}",
            "insertelement": rf"{LOCAL} = insertelement {lanes} {VALUE}, {INTEGER} {VALUE}, i32 \d+",
            "extractelement": rf"{LOCAL} = extractelement {lanes} {VALUE}, i32 \d+",
            "extractvalue": rf"{LOCAL} = extractvalue {aggregate} {VALUE}, \d+",
            "insertvalue": rf"{LOCAL} = insertvalue {aggregate} {VALUE}, {scalar} {VALUE}, \d+",
        }

    def _flow_operations(self) -> dict[str, str]:
        kind = self.type
        bits = LANE_BITS if self.has_wide_lanes else "<16 x i1>"
        argument = rf"(?:{kind}|{bits}) {ATTRIBUTES}{VALUE}"
        arguments = rf"(?P<arguments>(?:{argument}(?:, {argument})*)?)"
        result = rf"(?P<before>(?:{LOCAL} = )?call {ATTRIBUTES}(?:void|{kind}) {self.variadic})"
        return {
            "call": rf"{result}(?P<called>{GLOBAL}|{LOCAL})\({arguments}\)(?P<after>(?: #\d+)?)",
            "br": rf"br (?:label {LOCAL}|i1 {VALUE}, label {LOCAL}, label {LOCAL})",
            "switch": rf"switch {INTEGER} {VALUE}, label {LOCAL} \[",
            "ret": rf"ret (?:void|{kind} {VALUE})",
            "unreachable": r"unreachable",
        }

    def _float_operations(self) -> dict[str, str]:
        real = r"(?:double|float)"
        return {
            "fadd fsub fmul fdiv frem": rf"{LOCAL} = [a-z]+ {real} {VALUE}, {VALUE}",
            "fneg": rf"{LOCAL} = fneg {real} {VALUE}",
            "fcmp": rf"{LOCAL} = fcmp [a-z]+ {real} {VALUE}, {VALUE}",
            "fptoui fptosi": rf"{LOCAL} = [a-z]+ {real} {VALUE} to {INTEGER}",
            "uitofp sitofp": rf"{LOCAL} = [a-z]+ (?:nneg )?{INTEGER} {VALUE} to {real}",
            "fpext fptrunc": rf"{LOCAL} = [a-z]+ {real} {VALUE} to {real}",
            "bitcast": rf"{LOCAL} = bitcast (?:{LANE_BITS}|{self.lanes}|{real}|i32|i64) {VALUE} to (?:{self.integer}|{self.lanes}|{real})",
        }

    @cached_property
    def definition(self) -> re.Pattern[str]:
        """A function's first line."""
        argument = rf"{self.type} {ATTRIBUTES}{LOCAL}"
        return re.compile(
            rf"define (?P<internal>internal )?(?P<attributes>{ATTRIBUTES})(?P<result>void|{self.type}) (?P<name>{GLOBAL})"
            rf"\((?P<arguments>(?:{argument}(?:, {argument})*)?)\)(?: unnamed_addr)?(?: #\d+)? \{{")

    @cached_property
    def declaration(self) -> re.Pattern[str]:
        """What declares a function that is defined elsewhere."""
        return re.compile(rf"declare {ATTRIBUTES}(?P<result>void|{self.type}) @(?P<name>{NAME})\((?P<arguments>.*)\)(?: #\d+)?")

    @cached_property
    def element(self) -> re.Pattern[str]:
        """A member of a packed constant."""
        address = rf"(?:{GLOBAL}|null|getelementptr (?:inbounds )?(?:nuw )?\(i8, ptr {GLOBAL}, i64 \d+\))"
        return re.compile(rf"(?P<kind>ptr|{INTEGER}|{BYTES}) (?:(?<=ptr ){address}|(?<!ptr )(?:-?\d+|c\"[^\"]*\"|zeroinitializer))")

    @cached_property
    def constant(self) -> re.Pattern[str]:
        """A constant: bytes, a number, or packed members."""
        member = rf"(?:{INTEGER}|ptr|{BYTES})"
        packed = rf"<\{{ {member}(?:, {member})* \}}> <\{{ (?P<members>.*) \}}>"
        plain = rf"{BYTES} (?:c\"[^\"]*\"|zeroinitializer)|{INTEGER} -?\d+"
        return re.compile(
            rf"(?P<head>{GLOBAL} = (?:private |internal )(?:unnamed_addr )?constant )(?:{plain}|{packed})(?:{ALIGN})?")

    @cached_property
    def intrinsic(self) -> re.Pattern[str]:
        """A function of LLVM's own."""
        more = [*([FLOAT_INTRINSICS] if self.has_floats else []), *([WIDE_INTRINSICS] if self.has_wide_lanes else [])]
        return re.compile("|".join([INTRINSICS, *more]))

    def operation(self, text: str) -> tuple[str, re.Match[str]]:
        """The word and the parts of a line within a function, without its indent."""
        found = CASE.fullmatch(text)
        if found:
            return "case", found
        operation = OPERATION.match(text)
        form = self.operations.get(operation["word"]) if operation else None
        parts = form.fullmatch(text) if form else None
        if operation is None or parts is None:
            raise Refused(f"an operation of a form that isn't on the list: {text}")
        return operation["word"], parts
