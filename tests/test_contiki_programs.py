"""Programs in C that people who know Contiki-NG have at hand, and the slips that they make, by the command `contiki`.

What the programs in tests/c/contiki/programs print is worked out by hand from Contiki-NG's documented interface and docs/contiki.md.
"""

import os
import pty
import re
import subprocess
from pathlib import Path

import pytest

from contiki_programs import SOURCES, STATEMENT_LINE, Contiki, messages, outcome, place, program_of, write_source
from test_contiki_refused import NO_PROGRAM
from test_modules import MODULES, PLAIN_MODULES, WARNINGS, build_modules
from tools import ROOT, SANITIZERS, needs, output_of, run, sanitizes, succeed

FOLDER = SOURCES / "programs"
# Programs that take modules in C alone.
WITH_MODULES = ("checked/checked", "cipher", "energest/energest", "energest/radio", "sensors", "serial_shell", "simple_energest", "threads",
                "trickle", "unit_double_lists", "unit_lists", "unit_memory", "unit_rings")
PROGRAMS = [str(path.relative_to(FOLDER).with_suffix("")) for path in sorted(FOLDER.glob("**/*.c"))]
UNIT_TESTS = FOLDER / "unit_rings.c"
# What is told at the build of a program that takes a real-time timer.
RTIMER_NOTE = (b"contiki: note: rtimer_set calls back between activations, at a tick of the clock: nothing is interrupted "
               b"(docs/contiki.md)\n")


def has_crypto(compiler: str) -> bool:
    return run(compiler, "-E", "-x", "c", "-", stdin=b"#include <openssl/evp.h>\n").returncode == 0


@pytest.mark.parametrize(("compiler", "name"), [*(("gcc", name) for name in PROGRAMS), *(("clang", name) for name in WITH_MODULES)])
def test_program(contiki: Contiki, compiler: str, name: str) -> None:
    """A program runs unchanged and prints what it should, without a warning: by gcc with the sanitizers, and with modules by clang."""
    if not sanitizes(compiler) or name == "cipher" and not has_crypto(compiler):
        pytest.skip(f"no {compiler} with sanitizers or no libssl-dev here")
    source = FOLDER / f"{name}.c"
    words = ["--sanitize"] if compiler == "gcc" else []
    ran = contiki("--cc", compiler, "--text", *words, source.name, stdin=source.with_suffix(".script"), cwd=source.parent)
    lines = ran.stderr.splitlines(keepends=True)
    other = [line for line in lines if line != RTIMER_NOTE and b": the unit test " not in line]
    assert (ran.returncode, ran.stdout, other) == (0, source.with_suffix(".text").read_bytes(), []), output_of(ran)
    assert (RTIMER_NOTE in lines) == ("rtimer_set(" in source.read_text(encoding="utf-8"))


# ---- Unit tests ----

@pytest.mark.parametrize(("script", "text", "why"), [
    (b"tick 128\n", True, "checked.c:42: the unit test 'Failure' failed\ncontiki: 1 of 2 unit tests failed\n"),
    (b"", False, "contiki: no unit test was run\n"),
], ids=["failed", "none"])
def test_failed_unit_test(contiki: Contiki, script: bytes, text: bool, why: str) -> None:
    """A unit test that fails is reported with file and line, and --test ends with status 1; so it does where none is run."""
    source = FOLDER / "checked/checked.c"
    wanted = source.with_suffix(".text").read_text(encoding="utf-8") if text else ""
    assert outcome(contiki("--test", source.name, stdin=script, cwd=source.parent)) == (1, wanted, why)


@pytest.mark.parametrize("is_terminal", [False, True], ids=["script", "terminal"])
def test_unit_tests_that_succeed(contiki: Contiki, is_terminal: bool) -> None:
    """With --test a program whose unit tests succeed ends with status 0. From a terminal no script is read."""
    ends = pty.openpty() if is_terminal else (os.open("/dev/null", os.O_RDONLY),)
    words = [str(ROOT / "contiki"), "--library", str(contiki.library), "--test", UNIT_TESTS.name]
    ran = subprocess.run(words, stdin=ends[-1], capture_output=True, cwd=UNIT_TESTS.parent, timeout=600, check=False)
    for end in ends:
        os.close(end)
    assert outcome(ran) == (0, UNIT_TESTS.with_suffix(".text").read_text(encoding="utf-8"), "")


# ---- Misuse, assertions, timers ----

def test_posted_local(contiki: Contiki, tmp_path: Path, sanitizing_compiler: str) -> None:
    """With --sanitize a posted pointer to a local variable that is gone is found, by default, and not where ASAN_OPTIONS says so."""
    source = write_source(tmp_path, program_of('send(); PROCESS_WAIT_EVENT(); printf("%d\\n", *(int *)data);', (
        "__attribute__((noinline)) static void fill(int *number) { *number = 5; }"
        "__attribute__((noinline)) static void send(void) { int local; fill(&local); process_post(&only, 20, &local); }")))
    built = tmp_path / "built"
    assert outcome(contiki("--cc", sanitizing_compiler, "--sanitize", "--build", built, source)) == (0, "", "")
    ran = run(built, "--text")
    assert (ran.returncode, b"stack-use-after-return" in ran.stderr) == (1, True), output_of(ran)
    assert run(built, "--text", settings={"ASAN_OPTIONS": "detect_stack_use_after_return=0"}).returncode == 0


def test_failed_assertion(contiki: Contiki, tmp_path: Path) -> None:
    """lib/assert.h prints as Contiki-NG does, and the program is stopped there; NDEBUG removes assertions."""
    source = write_source(tmp_path, program_of('assert(1 + 1 == 2); assert(1 + 1 == 3); printf("never\\n");', '#include "lib/assert.h"'))
    assert outcome(contiki("--text", source.name, cwd=tmp_path)) == (
        1, f"Assertion failed: file program.c, line {STATEMENT_LINE}.\n",
        place("4 (Only)", "INIT (129)", 1, 1) + f"an assertion failed: program.c:{STATEMENT_LINE}\n")
    assert outcome(contiki("--text", "-DNDEBUG", source)) == (0, "never\n", "")


# ---- Slips ----

NO_BEGIN = ("a wait is outside PROCESS_BEGIN() and PROCESS_END(), or one of these is missing; a function that waits needs PT_BEGIN and "
            "PT_END")
WAITS = program_of("PROCESS_WAIT_EVENT();")
# A slip of which the compiler alone says too little, and what the command says of it.
SLIPS: dict[str, tuple[str, list[str]]] = {
    "no begin": (WAITS.replace("  PROCESS_BEGIN();\n", ""), [NO_BEGIN]),
    "a function": (program_of("wait();", "static void wait(void) { PROCESS_WAIT_EVENT(); }"), [NO_BEGIN]),
    "no end": (WAITS.replace("  PROCESS_END();\n", ""), ["a block isn't closed: look for a missing PROCESS_END()"]),
    "one line": (program_of("PROCESS_WAIT_EVENT(); PROCESS_PAUSE();"), ["two waits are on one line: write each on a separate line"]),
    "radio": (program_of("int power; NETSTACK_RADIO.get_value(0, &power);"),
              ["the mote's radio can only be turned on and off: NETSTACK_RADIO.on() and off()"]),
    # Two equal cases in a switch of the program's own are no slip with waits.
    "own switch": (program_of("switch(ev) { case 1: break; case 1: break; }"), []),
}


@pytest.mark.parametrize("slip", SLIPS)
def test_slip(contiki: Contiki, tmp_path: Path, slip: str, sanitizing_compiler: str) -> None:
    """What is missing is reported in Contiki-NG's terms."""
    text, why = SLIPS[slip]
    ran = contiki("--cc", sanitizing_compiler, write_source(tmp_path, text))
    assert (ran.returncode, messages(ran.stderr)) == (65, [*why, NO_PROGRAM]), output_of(ran)


def test_slip_in_another_language(contiki: Contiki, tmp_path: Path) -> None:
    """It is also reported so where the compiler may speak another language."""
    ran = contiki(write_source(tmp_path, SLIPS["no begin"][0]), settings={"LANGUAGE": "de"})
    assert messages(ran.stderr) == [NO_BEGIN, NO_PROGRAM], output_of(ran)


def test_own_module(contiki: Contiki, tmp_path: Path) -> None:
    """A program that has a module's source beside its own uses that one, whether or not there is one here."""
    own = tmp_path / "dbl-list.c"
    own.with_suffix(".h").write_text("int dbl_list_init(void);\n", encoding="utf-8")
    own.write_text('#include "dbl-list.h"\nint dbl_list_init(void) { return 7; }\n', encoding="utf-8")
    source = write_source(tmp_path, program_of('printf("%d\\n", dbl_list_init());', '#include "dbl-list.h"'))
    assert outcome(contiki("--text", source, own)) == (0, "7\n", "")


# Copies of modules in a program, each with the value that its function returns.
OWN_MODULES = {
    "lib/random.h": "void random_init(unsigned short seed) { (void)seed; } unsigned short random_rand(void) { return 7; }",
    "lib/crc16.h": ("unsigned short crc16_add(unsigned char b, unsigned short crc) { (void)b; (void)crc; return 7; } "
                    "unsigned short crc16_data(const unsigned char *data, int length, unsigned short crc) "
                    "{ (void)data; (void)length; (void)crc; return 7; }"),
    "sys/stimer.h": ("void stimer_set(struct stimer *t, unsigned long i) { t->start = i; } "
                     "void stimer_reset(struct stimer *t) { (void)t; } "
                     "void stimer_restart(struct stimer *t) { (void)t; } bool stimer_expired(struct stimer *t) { (void)t; return true; } "
                     "unsigned long stimer_remaining(struct stimer *t) { (void)t; return 7; } "
                     "unsigned long stimer_elapsed(struct stimer *t) { (void)t; return 7; }"),
    "dev/leds.h": ("void leds_init(void) {} void leds_on(leds_mask_t leds) { (void)leds; } void leds_off(leds_mask_t leds) { (void)leds; } "
                   "void leds_toggle(leds_mask_t leds) { (void)leds; } void leds_set(leds_mask_t leds) { (void)leds; } "
                   "leds_mask_t leds_get(void) { return 7; }"),
    "lib/assert.h": "void _xassert(const char *file, int line) { (void)file; (void)line; exit(7); }",
    "sys/node-id.h": "uint16_t node_id = 7;",
    "lib/ringbuf.h": ("void ringbuf_init(struct ringbuf *r, uint8_t *d, uint8_t s) { (void)r; (void)d; (void)s; } "
                      "int ringbuf_put(struct ringbuf *r, uint8_t c) { (void)r; (void)c; return 7; } "
                      "int ringbuf_get(struct ringbuf *r) { (void)r; return 7; } "
                      "int ringbuf_size(struct ringbuf *r) { (void)r; return 7; } "
                      "int ringbuf_elements(struct ringbuf *r) { (void)r; return 7; }"),
}
OWN_VALUES = ("random_rand(), crc16_add(1, 2), crc16_data(NULL, 0, 0), (int)stimer_elapsed(&seconds), leds_get(), node_id, "
              "ringbuf_get(&ring)")


@pytest.mark.parametrize("is_network", [False, True], ids=["mote", "network"])
def test_own_copies(contiki: Contiki, tmp_path: Path, sanitizing_compiler: str, is_network: bool) -> None:
    """A program may have its own copies of all modules that are in C alone, in a network too, whose driver sets number and seed."""
    includes = "".join(f'#include "{header}"\n' for header in OWN_MODULES)
    own = []
    for header, text in OWN_MODULES.items():
        own.append(tmp_path / (Path(header).stem + ".c"))
        own[-1].write_text(f'#include "contiki.h"\n#include <stdlib.h>\n#include "{header}"\n{text}\n', encoding="utf-8")
    body = f'leds_init(); leds_single_on(LEDS_LED1); stimer_set(&seconds, 1); printf("%d %d %d %d %d %d %d\\n", {OWN_VALUES});'
    source = write_source(tmp_path, program_of(body, includes + "static struct stimer seconds; static struct ringbuf ring;"))
    words: list[Path | str] = []
    if is_network:
        (tmp_path / "own.net").write_text(f"mote 1 {' '.join(file.name for file in [source, *own])}\n", encoding="utf-8")
        words = ["--network", tmp_path / "own.net"]
    ran = contiki("--cc", sanitizing_compiler, "--text", *words, source, *own)
    assert outcome(ran) == (0, ("1 7 7 7 7 7 1 7\n" if is_network else "7 7 7 7 7 7 7\n"), "")


def test_table_of_missing_headers() -> None:
    """Each reason in the table has patterns, no two are the same, and no header that is here is in it."""
    include = ROOT / "c/contiki/include"
    text = (ROOT / "c/contiki/missing-headers.txt").read_text(encoding="utf-8")
    reasons = re.split(r"^(?=\S)", re.sub(r"^#.*\n", "", text, flags=re.M).strip("\n"), flags=re.M)[1:]
    patterns = [line.strip() for reason in reasons for line in reason.splitlines()[1:]]
    assert all("\n " in reason for reason in reasons)
    assert len(set(patterns)) == len(patterns) and len({reason.splitlines()[0] for reason in reasons}) == len(reasons)
    here = ["/" + str(header.relative_to(include)) for header in include.glob("**/*.h")]
    script = 'while read -r pattern; do for name in $1; do [[ $name != $pattern ]] || echo "$name"; done; done'
    assert run("bash", "-c", script, "bash", " ".join(here), stdin="\n".join(patterns).encode() + b"\n").stdout == b""


# ---- Modules without a mote ----

def test_modules_on_the_host(tmp_path: Path, sanitizing_compiler: str) -> None:
    """The modules in C alone beside plain models, and the unit tests, with no mote: with all warnings and under the sanitizers."""
    succeed(sanitizing_compiler, "-std=c11", "-g", *WARNINGS, "-Wshadow", *SANITIZERS, f"-I{MODULES}/include",
            ROOT / "tests/c/modules/plain_test.c", *PLAIN_MODULES, "-o", tmp_path / "plain")
    ran = run(tmp_path / "plain")
    assert (ran.returncode, ran.stderr) == (0, b""), output_of(ran)
    assert ran.stdout.count(b"Result: success\n") == ran.stdout.count(b"Result: ") == 5
    times = [tuple(map(int, it)) for it in re.findall(rb"^Start: (\d+)\nEnd: (\d+)\nDuration: (\d+)$", ran.stdout, re.M)]
    assert len(times) == 5 and all(begin <= end and took == end - begin for begin, end, took in times) and times[-1][0] > 0


# Uses of memory that nobody has, in a program over the memory modules.
MISUSES = [
    "memb_free(&pool, item); item->number = 1;",
    "memb_init(&pool); pool_item(1)->number = 1;",
    "char *block = heapmem_alloc(20); block[20] = 1;",
    "char *block = heapmem_alloc(20); heapmem_free(block); block[0] = 1;",
    "char *block = heapmem_alloc(32); block = heapmem_realloc(block, 9); block[9] = 1;",
    "static struct mmem m; mmem_alloc(&m, 9); char *block = MMEM_PTR(&m); block[9] = 1;",
    "static struct mmem m; mmem_alloc(&m, 9); char *block = MMEM_PTR(&m); mmem_free(&m); block[0] = 1;",
]
USE = ("char *block = heapmem_alloc(20), *more = heapmem_alloc(7); block = heapmem_realloc(block, 400); memset(block, 1, 400); "
       "memset(more, 1, 7); heapmem_realloc(more, 100000); memset(more, 1, 7); item->number = 1;")


@needs("make")
@pytest.mark.parametrize("statement", [*MISUSES, USE])
def test_misuse_of_modules(modules_library: Path, shared: Path, tmp_path: Path, statement: str) -> None:
    """With the address sanitizer the memory modules, as they are installed, show the use of freed blocks, and of what is between blocks."""
    modules = build_modules(shared / "modules-plain", modules_library, "gcc", "-O2")
    made = run("gcc", "-std=c11", "-Wall", "-g", "-fsanitize=address", f"-I{MODULES}/include", f"-DSTATEMENT={statement}",
               ROOT / "tests/c/modules/misuse.c", modules, "-o", tmp_path / "misuse")
    assert outcome(made) == (0, "", "")
    ran = run(tmp_path / "misuse")
    assert (ran.returncode == 0, b"use-after-poison" in ran.stderr) == (statement == USE, statement != USE), output_of(ran)
