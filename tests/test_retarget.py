"""What scripts/retarget refuses, and what it rewrites: read in the module's text, since no run notices some of it.

The closed list is what these tests are about, so each refused module is one that LLVM takes: the kit's clang reads it first.
"""

import ctypes
import random
import re
import subprocess
from pathlib import Path
from typing import Any, Iterator

import pytest

from retarget.clears import with_clears_sunk
from retarget.compiler import clang, text_of
from retarget.forms import DATA_LAYOUT
from retarget.hints import with_inlining
from retarget.layout import alignment_at, offsets
from retarget.module import retargeted
from retarget.refusal import Refused
from retarget.targets.known import TARGETS
from tools import ROOT, cases

CORTEX_M3 = TARGETS["cortex-m3"]
HEAD = f'target datalayout = "{DATA_LAYOUT}"\ntarget triple = "x86_64-unknown-linux-gnu"\n'
FIRST_LINE = "define noundef i64 @f(ptr noundef %a0, i64 noundef %a1) {"


def module_of(body: str, rest: str = "", first: str = FIRST_LINE) -> str:
    """A module with one function, whose body ends with ``ret i64 %a1`` where it doesn't return."""
    lines = [f"  {line}" for line in body.splitlines()]
    if not any(line.strip().startswith("ret ") for line in lines):
        lines.append("  ret i64 %a1")
    return f"{HEAD}{first}\nstart:\n" + "\n".join(lines) + f"\n}}\n{rest}\n"


def rewritten(body: str, rest: str = "", target: str = "cortex-m3") -> list[str]:
    """The lines of a module's function after rewriting, without their indent and without the last ``ret``."""
    lines = retargeted(module_of(body, rest), TARGETS[target]).splitlines()
    start, end = lines.index("start:") + 1, lines.index("}")
    return [line.strip() for line in lines[start:end] if not line.strip().startswith("ret ")]


def globals_of(text: str, target: str = "cortex-m3") -> list[str]:
    lines = retargeted(module_of("", text), TARGETS[target]).splitlines()
    return [line for line in lines[lines.index("}") + 1:] if line]


# A function's body, what stands outside it, and what the refusal says.
@pytest.mark.parametrize(("body", "rest", "told"), cases("retarget_refused"))
def test_other_forms_are_refused(body: str, rest: str, told: str, tmp_path: Path) -> None:
    """Each is LLVM's language, and is refused for what it is."""
    source = tmp_path / "module.ll"
    source.write_text(module_of(body, rest), encoding="utf-8")
    with pytest.raises(Refused) as why:
        retargeted(text_of(source), CORTEX_M3)
    assert told in str(why.value)


def test_refusal_has_the_line() -> None:
    with pytest.raises(Refused, match="^line 5: an operation of a form that isn't on the list: fence seq_cst$"):
        retargeted(module_of("fence seq_cst"), CORTEX_M3)


def test_other_data_layout_is_refused() -> None:
    """A kit with another data layout lays memory out in a way that nobody has looked at."""
    text = module_of("").replace("i128:128", "i128:64")
    with pytest.raises(Refused, match="another data layout"):
        retargeted(text, CORTEX_M3)
    with pytest.raises(Refused, match="a module without a data layout"):
        retargeted(text.partition("\n")[2], CORTEX_M3)


def rewritings() -> Iterator[Any]:
    """The cases of tests/tables/retarget_rewritten.txt, as it says."""
    for part in re.split(r"^== ", (ROOT / "tests/tables/retarget_rewritten.txt").read_text(encoding="utf-8"), flags=re.M)[1:]:
        head, _, text = part.partition("\n")
        name, _, target = head.partition(" for ")
        before, _, after = re.sub(r"^# .*\n", "", text, flags=re.M).partition("->\n")
        yield pytest.param(target or "cortex-m3", before, after, id=name)


def halves(text: str) -> tuple[str, str]:
    """The lines of a function, and what stands outside it."""
    inside, _, outside = f"\n{text}".partition("\n\n")
    return inside.strip("\n"), outside.strip("\n")


@pytest.mark.parametrize(("target", "before", "after"), rewritings())
def test_rewritten(target: str, before: str, after: str) -> None:
    (body, rest), (wanted, wanted_rest) = halves(before), halves(after)
    lines, told = wanted.splitlines(), rewritten(body, rest, target)
    if lines[:1] == [".."]:
        lines, told = lines[1:], told[1 - len(lines):]
    assert told == lines and globals_of(rest, target) == wanted_rest.splitlines()


def test_head_names_the_target() -> None:
    attributes = 'attributes #0 = { nounwind "probe-stack"="inline-asm" "target-cpu"="x86-64-v2" }'
    lines = retargeted(module_of("", attributes), CORTEX_M3).splitlines()
    assert lines[:2] == ['target datalayout = "e-m:e-p:32:32-Fi8-i64:64-v128:64:128-a:0:32-n32-S64"',
                         'target triple = "thumbv7m-unknown-none-eabi"']
    assert "attributes #0 = { nounwind }" in lines


def test_offsets_are_those_of_x86_64() -> None:
    """Members are at multiples of their sizes; a pointer has 8 bytes."""
    assert offsets(["i8", "ptr", "i8"]) == [0, 8, 16]
    assert offsets(["i8", "i16", "i32", "i64"]) == [0, 2, 4, 8]
    assert offsets(["i64", "i1", "i1", "i128", "i8"]) == [0, 8, 9, 16, 32]
    assert offsets(["ptr", "double", "float"]) == [0, 8, 16]
    assert [alignment_at(offset, 8) for offset in (0, 2, 4, 8, 12, 17)] == [8, 2, 4, 8, 4, 1]


def test_exports_extend_what_they_return() -> None:
    """AAPCS wants the callee to extend a u8. No run notices where it doesn't."""
    for first, wanted in (("noundef i8", "noundef zeroext i8"), ("i16", "zeroext i16"), ("i1", "zeroext i1"), ("i32", "i32"),
                          ("internal noundef i8", "internal noundef i8"), ("zeroext i8", "zeroext i8")):
        kind = first.split(" ")[-1]
        assert globals_of(f"define {first} @g() {{\nstart:\n  ret {kind} 1\n}}")[0] == f"define {wanted} @g() {{"


def function_of(name: str, lines: list[str]) -> list[str]:
    start = next(number for number, line in enumerate(lines) if line.startswith("define ") and f"@{name}(" in line)
    return [line.strip() for line in lines[start:lines.index("}", start)]]


def test_memory_calls_have_a_stand_in() -> None:
    """A pointer crosses as a number there, by the convention of x86-64; in C for 32 bits it is a pointer, and NULL for none."""
    lines = globals_of("declare { i64, i64 } @rattle_alloc(i64 noundef, i64 noundef) #0\n"
                       "declare { i64, i64 } @rattle_realloc(ptr noundef, i64 noundef, i64 noundef, i64 noundef)\n"
                       "declare void @rattle_dealloc(ptr noundef)\nattributes #0 = { nounwind }")
    for line in ("declare ptr @toarmuts_c_alloc(i32 noundef, i32 noundef)",
                 "declare ptr @toarmuts_c_realloc(ptr noundef, i32 noundef, i32 noundef)", "declare void @rattle_dealloc(ptr noundef)"):
        assert line in lines
    for name, ask in (("rattle_alloc", "@toarmuts_c_alloc("), ("rattle_realloc", "@toarmuts_c_realloc(ptr %old, ")):
        function = function_of(name, lines)
        assert function[0] == f"define internal {{ i64, i64 }} @{name}(" + ("" if name == "rattle_alloc" else "ptr %old, i64 %kept, ") + (
            "i64 %size, i64 %align) {")
        assert function[2:4] == ["%fits = icmp ult i64 %size, 2147483648", "br i1 %fits, label %ask, label %refuse"]
        assert function[5:8] == ["%narrow_size = trunc i64 %size to i32", "%narrow_align = trunc i64 %align to i32",
                                 f"%block = call ptr {ask}i32 %narrow_size, i32 %narrow_align)"]
        assert function[-2:] == ["%refusal = call { i64, i64 } @toarmuts.answer(ptr null)", "ret { i64, i64 } %refusal"]
    assert function_of("toarmuts.answer", lines)[2:] == [
        "%is_none = icmp eq ptr %block, null", "%flag = select i1 %is_none, i64 0, i64 1",
        "%place = select i1 %is_none, ptr @toarmuts.nowhere, ptr %block", "%address = ptrtoaddr ptr %place to i32",
        "%wide = zext i32 %address to i64", "%half = insertvalue { i64, i64 } poison, i64 %flag, 0",
        "%answer = insertvalue { i64, i64 } %half, i64 %wide, 1", "ret { i64, i64 } %answer"]


def test_system_calls_are_for_wasm32_alone() -> None:
    """What programs ask of the system is on the list where the page has it, each with its type."""
    declared = "declare i64 @read(i32, ptr, i64)"
    assert globals_of(declared, target="wasm32") == [declared]
    for text, target in ((declared, "cortex-m3"), ("declare i32 @read(i32, ptr, i64)", "wasm32"), ("declare i32 @system(ptr)", "wasm32")):
        with pytest.raises(Refused, match="a function of this type that isn't on the list"):
            globals_of(text, target=target)


def test_wide_lanes_are_for_wasm32_alone() -> None:
    """Lanes of 16 and 64 bits, which programs have, stay as they are."""
    body = """%a = load <8 x i16>, ptr %a0, align 2
%b = udiv <8 x i16> %a, splat (i16 10)
%c = call i1 @llvm.vector.reduce.or.v8i1(<8 x i1> %b)
%d = bitcast <8 x i16> %b to <16 x i8>
%e = bitcast <4 x i1> %d to i4
%f = zext i4 %e to i64
%g = insertelement <2 x i64> zeroinitializer, i64 %f, i32 0"""
    assert rewritten(body, target="wasm32") == body.splitlines()
    for line in body.splitlines():
        with pytest.raises(Refused, match="an operation of a form that isn't on the list"):
            rewritten(line)


@pytest.mark.parametrize("target", ["cortex-m0", "wasm32"])
def test_digits_of_sixteen_bytes(target: str) -> None:
    """Lanes of bytes stay as they are, and so does the question whether one of them is 0."""
    body = """%a = load <16 x i8>, ptr %a0, align 1
%b = icmp eq <16 x i8> splat (i8 16), zeroinitializer
%c = call i1 @llvm.vector.reduce.or.v16i1(<16 x i1> %b)
%d = udiv <16 x i8> %a, splat (i8 16)
%e = select <16 x i1> %b, <16 x i8> %d, <16 x i8> zeroinitializer
%f = shufflevector <16 x i8> %d, <16 x i8> %e, <32 x i32> <i32 0, i32 16>
store <32 x i8> %f, ptr %a0, align 1"""
    assert rewritten(body, target=target) == body.splitlines()


def test_shuffle_has_a_stand_in() -> None:
    """The function that does the same as the instruction pshufb stands where that was declared."""
    declared = "declare <16 x i8> @llvm.x86.ssse3.pshuf.b.128(<16 x i8>, <16 x i8>)"
    text = "\n".join(globals_of(declared, target="wasm32"))
    assert "define internal <16 x i8> @toarmuts.x86.ssse3.pshuf.b.128(" in text and "declare" not in text


APPLY = """
define void @apply(ptr %bytes, ptr %places, ptr %to) {
  %a = load <16 x i8>, ptr %bytes, align 1
  %b = load <16 x i8>, ptr %places, align 1
  %c = call <16 x i8> @toarmuts.x86.ssse3.pshuf.b.128(<16 x i8> %a, <16 x i8> %b)
  store <16 x i8> %c, ptr %to, align 1
  ret void
}
"""


def test_shuffle(tmp_path: Path) -> None:
    """Compiled for this machine, the stand-in does what Intel's manual says of pshufb: a place whose highest bit is set gives 0, another
    one the byte that its low four bits name."""
    source, built, library = (tmp_path / f"shuffle.{it}" for it in ("ll", "o", "so"))
    source.write_text(TARGETS["wasm32"].stand_ins["llvm.x86.ssse3.pshuf.b.128"] + APPLY, encoding="utf-8")
    subprocess.run([clang(), "--target=x86_64-unknown-linux-gnu", "-fPIC", "-c", "-x", "ir", source, "-o", built], check=True)
    subprocess.run([clang().with_name("ld.lld"), "-shared", built, "-o", library], check=True)
    apply, number = ctypes.CDLL(str(library)).apply, random.Random(1)
    for _ in range(1000):
        given, places, to = number.randbytes(16), number.randbytes(16), ctypes.create_string_buffer(16)
        apply(given, places, to)
        assert to.raw == bytes(0 if place & 0x80 else given[place & 0x0f] for place in places)


@pytest.mark.parametrize("name", sorted(TARGETS))
def test_data_layout_is_clangs(name: str, tmp_path: Path) -> None:
    source = tmp_path / "empty.c"
    source.touch()
    target = TARGETS[name]
    words: list[str | Path] = [clang(), *target.options, "-x", "c", "-S", "-emit-llvm", source, "-o", "-"]
    told = subprocess.run(words, check=True, capture_output=True, text=True).stdout
    assert f'target datalayout = "{target.data_layout}"' in told
    assert f'target triple = "{target.triple}"' in told


CLEAR = "  call void @llvm.memset.p0.i32(ptr %a, i8 0, i32 8, i1 false)"
USE = "  store i8 1, ptr %a, align 1"
BRANCH = "  br i1 %flag, label %{}, label %{}"


def place_of_clear(first: str, **blocks: str) -> str:
    """The block in which a local is cleared, which the first block makes and clears, and goes on so. Each block's lines are parted by
    semicolons: `use`, and the names of the blocks after it."""
    lines = ["define void @f(i1 %flag) {", "start:", "  %a = alloca [8 x i8], align 8", CLEAR]
    for label, text in [("", first), *blocks.items()]:
        lines += [f"{label}:"] if label else []
        for part in text.split("; "):
            words = part.split()
            lines.append(USE if words == ["use"] else BRANCH.format(*words) if len(words) == 2 else
                         "  ret void" if words == ["ret"] else f"  br label %{part}")
    found = with_clears_sunk("\n".join([*lines, "}"])).splitlines()
    assert sorted(found) == sorted([*lines, "}"])
    return next(it[:-1] for it in reversed(found[:found.index(CLEAR)]) if it.endswith(":"))


def test_clear_sinks() -> None:
    """To the last block that is before all uses, but into no loop."""
    assert place_of_clear("one two", one="use; ret", two="ret") == "one"
    assert place_of_clear("one two", one="use; ret", two="use; ret") == "start"
    assert place_of_clear("one two", one="three four", two="ret", three="use; ret", four="use; ret") == "one"
    assert place_of_clear("one two", one="use; three", two="three", three="use; ret") == "start"
    assert place_of_clear("one", one="two three", two="use; two three", three="ret") == "one"
    assert place_of_clear("one", one="two", two="use; one three", three="ret") == "start"
    assert place_of_clear("one", one="two", two="two three", three="use; ret") == "three"
    assert place_of_clear("use; one", one="use; ret") == "start"
    assert place_of_clear("one", one="ret", dead="use; ret") == "start"
    assert place_of_clear("one", one="use; ret", dead="use; one") == "one"


def test_clear_stays_where_more_is_done() -> None:
    """A local that is cleared twice, or in part of which something else is stored first."""
    for more in (CLEAR, USE, "  %b = getelementptr i8, ptr %a, i64 4"):
        text = "\n".join(["define void @f() {", "start:", "  %a = alloca [8 x i8], align 8", CLEAR, more, "  br label %one", "one:", USE,
                          "  ret void", "}", ""])
        assert with_clears_sunk(text) == text


def random_function(chance: random.Random) -> str:
    count = chance.randrange(2, 9)
    lines = ["define void @f(i1 %flag) {", "b0:"]
    for name in "abc":
        lines += [f"  %{name} = alloca [8 x i8], align 8", CLEAR.replace("%a", f"%{name}")]
    for number in range(count):
        lines += [f"b{number}:"] if number else []
        lines += [USE.replace("1,", f"{chance.randrange(99)},").replace("%a", f"%{chance.choice('abc')}")
                  for _ in range(chance.randrange(3) if number else 0)]
        after = [f"b{chance.randrange(1, count)}" for _ in range(chance.randrange(3))]
        lines.append("  ret void" if not after else f"  br label %{after[0]}" if len(after) == 1 else BRANCH.format(*after))
    return "\n".join([*lines, "}"])


def walk(text: str, chance: random.Random) -> dict[str, list[str]]:
    """What a way through a function does with each local."""
    blocks = {part.split(":")[0]: part.splitlines()[1:] for part in re.findall(r"^\w+:(?:\n .*)*", text, re.M)}
    done: dict[str, list[str]] = {name: [] for name in "abc"}
    label = "b0"
    for _ in range(30):
        for line in blocks[label]:
            for name in re.findall(r"ptr %([abc])", line):
                done[name].append(line)
        after = re.findall(r"label %(\w+)", blocks[label][-1])
        if not after:
            break
        label = chance.choice(after)
    return done


@pytest.mark.parametrize("seed", range(300))
def test_each_way_does_the_same(seed: int) -> None:
    """Each way through a function does the same with each local, in the same order; where it doesn't use one it may not clear it."""
    before = random_function(random.Random(seed))
    after = with_clears_sunk(before)
    for way in range(50):
        one, other = (walk(text, random.Random(way)) for text in (before, after))
        assert all(one[name] == other[name] or (len(one[name]) == 1 and not other[name]) for name in "abc"), (before, after)


HINTED = """define internal void @"a::bc"(ptr noundef %a0) #1 {
define internal void @"a::b"(ptr noundef %a0) unnamed_addr #1 {
define internal void @"a::d"() #2 {
attributes #1 = { noinline nounwind }
attributes #2 = { nounwind noinline }
"""


def test_hints_are_turned_around() -> None:
    """Of the functions that are named, and of no other one."""
    assert with_inlining(HINTED, ["a::b", "a::d", "a::e"]) == HINTED.replace('a::b"(ptr noundef %a0) unnamed_addr #1', 'a::b"(ptr noundef '
                                                                             '%a0) unnamed_addr #3').replace("() #2", "() #4") \
        + "attributes #3 = { alwaysinline nounwind }\nattributes #4 = { nounwind alwaysinline }\n"
    assert with_inlining(HINTED.replace("noinline", "cold"), ["a::b"]) == HINTED.replace("noinline", "cold")
