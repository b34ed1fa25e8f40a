"""The libraries for Cortex-M on emulated boards, beside the proved ones on x86-64: the same programs print the same text.

Boards are qemu's. Three are models of real parts, with 16, 64 and 128 KB of RAM; programs that need more run on two with 16 MB.
"""

import shutil
from dataclasses import dataclass
from pathlib import Path

import pytest

import tools
from call_rules import OF_MOTE
from tools import CRATES, EXAMPLES, ROOT, once

MODULES = ROOT / "c/modules"
KERNEL = CRATES / "toarmuts"
BOARD = EXAMPLES / "cortex_m"
HERE = ROOT / "tests"
WARNINGS = ("-std=gnu11", "-Wall", "-Wextra", "-Werror")
MEMORIES = ("heapmem-memory.c", "mmem-memory.c")


@dataclass(frozen=True)
class Board:
    """A machine of qemu's, and what a linker must know of it."""

    machine: str
    flash: str
    ram: str
    stack: str
    ram_start: str = "0x20000000"

    @property
    def linking(self) -> list[str | Path]:
        sizes = {"flash_size": self.flash, "ram_size": self.ram, "stack_size": self.stack, "ram_start": self.ram_start}
        return ["-nostartfiles", "-T", BOARD / "board.ld", "-Wl,--gc-sections,--no-warn-rwx-segments",
                *(f"-Wl,--defsym={name}={size}" for name, size in sizes.items())]


MICROBIT = Board("microbit", "256K", "16K", "2K")
STELLARIS = Board("lm3s6965evb", "256K", "64K", "4K")
NETDUINO = Board("netduinoplus2", "1024K", "128K", "4K")
# toarmuts_open takes most of the stack.
STELLARIS_WITH_KERNEL = Board("lm3s6965evb", "256K", "64K", "23K")
LARGE_M3 = Board("mps2-an385", "4096K", "16M", "1M", "0x21000000")
LARGE_M4 = Board("mps2-an386", "4096K", "16M", "1M", "0x21000000")
# A model of a part for each core, and a board with RAM enough for any test. qemu has no large board with a Cortex-M0, whose
# instructions a Cortex-M3 has, too.
PARTS = {"cortex-m0": MICROBIT, "cortex-m3": STELLARIS, "cortex-m4": NETDUINO, "cortex-m4f": NETDUINO}
LARGE = {"cortex-m0": LARGE_M3, "cortex-m3": LARGE_M3, "cortex-m4": LARGE_M4, "cortex-m4f": LARGE_M4}
PROCESSOR = {
    "cortex-m0": ("-mcpu=cortex-m0", "-mthumb"),
    "cortex-m3": ("-mcpu=cortex-m3", "-mthumb"),
    "cortex-m4": ("-mcpu=cortex-m4", "-mthumb", "-mfloat-abi=soft"),
    "cortex-m4f": ("-mcpu=cortex-m4", "-mthumb", "-mfloat-abi=hard", "-mfpu=fpv4-sp-d16"),
}


HAS_NEWLIB = shutil.which("arm-none-eabi-gcc") and b"/" in tools.run("arm-none-eabi-gcc", "--print-file-name=rdimon.specs").stdout
pytestmark = [tools.needs("arm-none-eabi-gcc", "qemu-system-arm", "pkg-config"),
              pytest.mark.skipif(not HAS_NEWLIB, reason="not here: libnewlib-arm-none-eabi")]


def succeed(*words: tools.Word, cwd: Path | None = None, timeout: float = 600) -> str:
    """Runs a command whose status must be 0, and returns what it prints."""
    return tools.succeed(*words, cwd=cwd, timeout=timeout).stdout.decode()


@pytest.fixture(scope="session")
def room(shared: Path, modules_library: Path) -> Path:
    """A folder of the session, the same for all workers. The libraries are proved and built by then."""
    folder = shared / "boards"
    folder.mkdir(exist_ok=True)
    once(folder / "here", lambda to: shutil.copytree(modules_library, to))
    return folder


def archive(room: Path, name: str, core: str) -> Path:
    """The library for a core, whose module is stored once."""
    return once(room / f"{name}-{core}.a",
                lambda place: shutil.copy2(succeed(ROOT / "scripts/for-cortex-m", name, core, timeout=1800).strip(), place))


def installed(room: Path, core: str) -> Path:
    def install(prefix: Path) -> None:
        chosen = [f"LIBS={room / 'here'}"] if core == "here" else [f"CORE={core}"]
        succeed("make", "-s", "-C", MODULES, "install", *chosen, f"OUT={prefix}.built", f"PREFIX={prefix}")
    if core != "here":
        archive(room, "modules_c", core)
    return once(room / f"installed-{core}", install)


def modules_of(room: Path, core: str) -> tuple[list[str], list[str]]:
    name = "toarmuts-modules" if core == "here" else f"toarmuts-modules-{core}"
    prefix = installed(room, core)
    words: list[tools.Word] = ["env", f"PKG_CONFIG_PATH={prefix}/lib/pkgconfig", "pkg-config", name]
    return succeed(*words, "--cflags").split(), succeed(*words, "--libs").split()


def compile_for(board: Board, core: str, program: Path, sources: list[str | Path], libraries: list[str | Path]) -> None:
    """Compiles a program for a board. There are no threads, so thread-local variables are static ones."""
    words = ["arm-none-eabi-gcc", *PROCESSOR[core], *WARNINGS, "-Os", "-ffunction-sections", "-fdata-sections", "--specs=nano.specs",
             "--specs=rdimon.specs", "-D_Thread_local=", "-DNO_THREADS", f"-I{BOARD}", f"-I{HERE / 'boards'}", f"-I{HERE / 'c'}"]
    succeed(*words, *sources, BOARD / "startup.c", *board.linking, *libraries, "-o", program)


def run_on(board: Board, program: Path, *words: str | Path, timeout: float = 1800) -> str:
    """Runs a program on a board, and returns what it prints. The emulator's clock counts instructions, of 4 ns each, so each run is the
    same, and an interrupt comes between any two of them."""
    told = "".join(f",arg={word}" for word in ("program", *words))
    return succeed("qemu-system-arm", "-M", board.machine, "-icount", "shift=2", "-nographic", "-monitor", "none", "-serial", "none",
                   "-semihosting-config", f"enable=on,target=native{told}", "-kernel", program, timeout=timeout)


@dataclass(frozen=True)
class ModuleTest:
    """A test of the memory modules, the options that it needs, and its arguments."""

    source: Path
    options: tuple[str, ...] = ()
    words: tuple[str, ...] = ()


IN_C = HERE / "c/modules"
CALLS = "-DRANDOM_CALLS=20000"
MODULE_TESTS = [
    ModuleTest(IN_C / "memb_test.c", (CALLS,)),
    ModuleTest(IN_C / "heapmem_test.c", (CALLS, "-DHEAPMEM_CONF_ARENA_SIZE=1024", "-DHEAPMEM_CONF_MAX_ZONES=3")),
    ModuleTest(IN_C / "managed_test.c", (CALLS,)),
    ModuleTest(IN_C / "mmem_test.c", (CALLS, "-DMMEM_CONF_SIZE=256")),
    ModuleTest(IN_C / "ringbuf_test.c", (CALLS,)),
    ModuleTest(IN_C / "list_test.c", (CALLS,)),
    ModuleTest(IN_C / "source.c", ("-DHEAPMEM_CONF_ARENA_SIZE=65536", "-DMMEM_CONF_SIZE=4096")),
    ModuleTest(IN_C / "installed.c", ("-DHEAPMEM_CONF_ARENA_SIZE=65536",)),
    ModuleTest(EXAMPLES / "c/readings.c", ("-DMMEM_CONF_SIZE=4096",)),
]
DIFFERENTIAL = ModuleTest(HERE / "boards/differential.c", (), ("200000",))


def compile_module_test(room: Path, test: ModuleTest, core: str, board: Board | None = None) -> Path:
    flags, libraries = modules_of(room, core)
    memories = [installed(room, core) / "share/toarmuts-modules" / it for it in MEMORIES]
    sources: list[str | Path] = [*flags, *test.options, test.source, *memories]
    program = room / f"{test.source.stem}-{core}-{board.machine if board else 'here'}"
    if board is not None:
        compile_for(board, core, program, sources, [*libraries])
    else:
        succeed("gcc", *WARNINGS, "-O1", "-DNO_THREADS", f"-I{HERE / 'c'}", *sources, *libraries, "-o", program)
    return program


def text_here(room: Path, test: ModuleTest) -> str:
    def make(place: Path) -> None:
        place.write_text(succeed(compile_module_test(room, test, "here"), *test.words), encoding="utf-8")
    return once(room / f"{test.source.stem}.text", make).read_text(encoding="utf-8")


@pytest.mark.parametrize("core", PROCESSOR)
@pytest.mark.parametrize("test", MODULE_TESTS, ids=lambda it: it.source.stem if isinstance(it, ModuleTest) else it)
def test_modules(room: Path, test: ModuleTest, core: str) -> None:
    """Each test of a module holds on each core, and prints what it prints here."""
    program = compile_module_test(room, test, core, LARGE[core])
    assert run_on(LARGE[core], program) == text_here(room, test)


@pytest.mark.parametrize("core", PROCESSOR)
def test_differential(room: Path, core: str) -> None:
    """200,000 rounds of calls on random tables, with numbers around 2^31, 2^32 and 2^64, have one hash, on parts with 16, 64 and
    128 KB of RAM."""
    program = compile_module_test(room, DIFFERENTIAL, core, PARTS[core])
    told = run_on(PARTS[core], program, *DIFFERENTIAL.words)
    assert told == text_here(room, DIFFERENTIAL)
    assert told.splitlines()[-1].startswith("200000 rounds: ") and len(set(told.split())) == 21


FEW_BLOCKS = ModuleTest(HERE / "boards/few_blocks.c", ("-DHEAPMEM_CONF_ARENA_SIZE=1024", "-DHEAPMEM_CONF_MAX_BLOCKS=3",
                                                       "-DMMEM_CONF_SIZE=256", "-DMMEM_CONF_MAX_BLOCKS=2"))


@pytest.mark.parametrize("core", ["here", "cortex-m0"])
def test_few_blocks(room: Path, core: str) -> None:
    """Three blocks of the heap, then a refusal; a full table allows all except another block. Two managed blocks likewise."""
    program = compile_module_test(room, FEW_BLOCKS, core, None if core == "here" else MICROBIT)
    told = succeed(program) if core == "here" else run_on(MICROBIT, program)
    assert told == "11101111\n3 chunks\n1101\n"


@pytest.mark.parametrize("options, size, blocks, zones", [
    ((), 4096, 64, 4), (("-DHEAPMEM_CONF_ARENA_SIZE=8192",), 8192, 512, 8),
    (("-DHEAPMEM_CONF_ARENA_SIZE=8192", "-DHEAPMEM_CONF_MAX_BLOCKS=64"), 8192, 64, 8)])
def test_memory_of_a_heap(tmp_path: Path, options: tuple[str, ...], size: int, blocks: int, zones: int) -> None:
    """A heap takes its bytes, a row of 8 bytes for each block, the zone of each 16 bytes, and 12 bytes for each zone."""
    built = tmp_path / "memory.o"
    succeed("arm-none-eabi-gcc", *PROCESSOR["cortex-m3"], *options, f"-I{MODULES}/include", "-c", MODULES / "src/heapmem-memory.c",
            "-o", built)
    _, data, bss = succeed("arm-none-eabi-size", built).splitlines()[1].split()[:3]
    assert int(data) + int(bss) == size + 8 * blocks + size // 16 + 12 * zones


@pytest.mark.parametrize("core", PROCESSOR)
def test_ring_and_interrupt(room: Path, core: str) -> None:
    """An interrupt puts while main gets, at changing periods."""
    program = compile_module_test(room, ModuleTest(HERE / "boards/ring_interrupt.c"), core, PARTS[core])
    assert run_on(PARTS[core], program) == "20000 received, 0 wrong, 0 left\n"


NODE_TEXT = "neighbour 5\nneighbour 7\nneighbour 9\n21 degrees, 480 bytes lower\n"


@pytest.mark.parametrize("core", PROCESSOR)
def test_example(room: Path, core: str) -> None:
    """examples/cortex_m by its Makefile: the oldest of four neighbours went, and a block slid down."""
    archive(room, "modules_c", core)
    copied = once(room / f"example-{core}", lambda to: shutil.copytree(BOARD, to, ignore=shutil.ignore_patterns("out")))
    words = ["make", "-s", f"CORE={core}", f"modules={MODULES}", f"OUT={copied}/out"]
    assert succeed(*words, "run", cwd=copied) == NODE_TEXT


# What a build as Contiki-NG's has: an archive whose members define the modules' calls, one a module.
OWN_MODULES = {
    "memb": "memb_init memb_alloc memb_free memb_inmemb memb_numfree",
    "ringbuf": "ringbuf_init ringbuf_put ringbuf_get ringbuf_size ringbuf_elements",
    "heapmem": "heapmem_zone_register heapmem_alloc heapmem_zone_alloc heapmem_calloc heapmem_zone_calloc heapmem_realloc heapmem_free "
               "heapmem_stats heapmem_print_debug_info heapmem_alignment",
    "list": "list_init list_head list_tail list_pop list_push list_chop list_add list_remove list_length list_copy list_insert "
            "list_item_next list_contains",
}


def test_linking_before_another_archive(room: Path, tmp_path: Path) -> None:
    """The library is before the build's archive: no member of that with the same calls is linked."""
    flags, libraries = modules_of(room, "cortex-m3")
    objects = []
    for name, calls in OWN_MODULES.items():
        source, built = tmp_path / f"{name}.c", tmp_path / f"{name}.o"
        source.write_text("".join(f"void {call}(void);\nvoid {call}(void) {{ __builtin_trap(); }}\n" for call in calls.split()))
        succeed("arm-none-eabi-gcc", *PROCESSOR["cortex-m3"], "-fno-builtin", "-c", source, "-o", built)
        objects.append(built)
    succeed("arm-none-eabi-ar", "rc", tmp_path / "contiki.a", *objects)
    program = tmp_path / "node"
    compile_for(STELLARIS, "cortex-m3", program, [*flags, BOARD / "node.c"], [*libraries, tmp_path / "contiki.a"])
    assert run_on(STELLARIS, program) == NODE_TEXT


@pytest.mark.parametrize("language", ["c -std=c99", "c -std=c11", "c -std=c17", "c++ -std=c++17 -Wold-style-cast"])
def test_headers(language: str, tmp_path: Path) -> None:
    """The headers give no warning by arm-none-eabi-gcc, neither the modules' nor the kernel's."""
    warnings = "-Wall -Wextra -Wconversion -Wsign-conversion -Wpedantic -Wundef -Wshadow -Werror".split()
    words = ["arm-none-eabi-gcc", "-mcpu=cortex-m0", "-mthumb", "-x", *language.split(), *warnings]
    succeed(*words, f"-I{MODULES / 'include'}", "-c", IN_C / "headers.c", "-o", tmp_path / "none.o")
    succeed(*words, "-fsyntax-only", KERNEL / "include/toarmuts.h")


@pytest.mark.parametrize("options", ["-mbig-endian -mcpu=cortex-m3", "-march=armv7-a -marm"])
def test_other_processors_are_refused(options: str, tmp_path: Path) -> None:
    """A compiler for another ARM says that there is no library for it."""
    ran = tools.run("arm-none-eabi-gcc", *options.split(), f"-I{MODULES / 'include'}", "-c", IN_C / "headers.c", "-o", tmp_path / "none.o")
    assert ran.returncode != 0 and b"toarmuts_modules: built for" in ran.stderr


KERNEL_SOURCES: list[str | Path] = [f"-I{KERNEL / 'include'}"]
MEMORY_CALLS = (KERNEL / "include/toarmuts_memory.c",)
KERNEL_BOARD = LARGE_M4


@pytest.fixture(scope="session")
def kernel(room: Path, toarmuts_library: Path) -> Path:
    """The kernel's library for a Cortex-M4, which is an experiment."""
    assert toarmuts_library.exists()
    return archive(room, "toarmuts", "cortex-m4")


@pytest.fixture(scope="session")
def kernel_m3(room: Path, toarmuts_library: Path) -> Path:
    """The same for a Cortex-M3."""
    assert toarmuts_library.exists()
    return archive(room, "toarmuts", "cortex-m3")


def compile_kernel_test(room: Path, kernel: Path, source: Path, memory: tuple[Path, ...] = MEMORY_CALLS, board: Board = KERNEL_BOARD,
                        core: str = "cortex-m4") -> Path:
    sources = [*KERNEL_SOURCES, source, *memory]
    return once(room / f"kernel-{source.stem}-{core}", lambda program: compile_for(board, core, program, sources, [kernel]))


@pytest.mark.parametrize("sample", OF_MOTE)
def test_kernel_runs(room: Path, kernel: Path, sample: str) -> None:
    program = compile_kernel_test(room, kernel, HERE / "boards/run_script.c")
    told = run_on(KERNEL_BOARD, program, sample, EXAMPLES / f"{sample}.script")
    assert told == (EXAMPLES / f"{sample}.transcript").read_text(encoding="utf-8")


@pytest.mark.parametrize("sample", OF_MOTE)
def test_kernel_step_by_step(room: Path, kernel: Path, sample: str) -> None:
    """Asked step by step with the calls and inputs of a sample, the mote makes its transcript."""
    program = compile_kernel_test(room, kernel, HERE / "boards/replay.c")
    transcript = EXAMPLES / f"{sample}.transcript"
    assert run_on(KERNEL_BOARD, program, transcript) == transcript.read_text(encoding="utf-8")


@pytest.mark.parametrize("sample", OF_MOTE)
def test_kernel_on_a_part_of_64_kb(room: Path, kernel_m3: Path, sample: str) -> None:
    """With the default sizes, tables, heap and the stack of an opening fit in 64 KB of RAM."""
    program = compile_kernel_test(room, kernel_m3, HERE / "boards/replay.c", board=STELLARIS_WITH_KERNEL, core="cortex-m3")
    transcript = EXAMPLES / f"{sample}.transcript"
    assert run_on(STELLARIS_WITH_KERNEL, program, transcript) == transcript.read_text(encoding="utf-8")


def test_kernel_asks_an_application(room: Path, kernel: Path) -> None:
    program = compile_kernel_test(room, kernel, EXAMPLES / "c/beat.c")
    assert run_on(KERNEL_BOARD, program) == (EXAMPLES / "c/beat.transcript").read_text(encoding="utf-8")


@pytest.mark.parametrize(("name", "words", "memory"), [
    ("library_test", ("5000",), MEMORY_CALLS), ("steps_test", ("5000", "100"), MEMORY_CALLS), ("steps_memory_test", (), ()),
    ("block_test", (), (KERNEL / "include/toarmuts_block.c",))])
def test_kernel_tests(room: Path, kernel: Path, toarmuts_library: Path, name: str, words: tuple[str, ...],
                      memory: tuple[Path, ...]) -> None:
    """The library's tests: worked replies, random calls, random runs step by step beside whole ones, refused memory, motes in blocks."""
    source, here = HERE / f"c/{name}.c", room / f"{name}-here"
    told = run_on(KERNEL_BOARD, compile_kernel_test(room, kernel, source, memory), *words)
    succeed("gcc", *WARNINGS, "-O1", "-DNO_THREADS", f"-I{HERE / 'boards'}", f"-I{HERE / 'c'}", *KERNEL_SOURCES, source, *memory,
            toarmuts_library / "libtoarmuts.a", "-o", here)
    assert told == succeed(here, *words)
