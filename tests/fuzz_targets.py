"""The targets of clang's libFuzzer in tests/fuzz: how each is built, and its corpus, the inputs that reach most.

    /usr/bin/python3 tests/fuzz_targets.py [SECONDS [NAME..]]

runs the targets of these names, or all, for this time each (default: 600), one after the other. What reaches more is added to
tests/fuzz/corpus/NAME.tar.gz. The status is 1 where an input failed; the input and its report are in the folder that is named then.
"""

import gzip
import io
import shutil
import subprocess
import sys
import tarfile
import tempfile
from pathlib import Path

ROOT = Path(__file__).resolve().parent.parent
FOLDER = ROOT / "tests/fuzz"
CRATES = ROOT / "crates"
SANITIZERS = ("-fsanitize=fuzzer,address,undefined", "-fno-sanitize-recover=all")
MODULE_SIZES = ("-DMMEM_CONF_SIZE=256", "-DHEAPMEM_CONF_ARENA_SIZE=1024", "-DHEAPMEM_CONF_MAX_ZONES=3")
DRIVER = (f"-I{ROOT}/c/contiki/include", f"-I{CRATES}/toarmuts/include", f"-I{ROOT}/c/contiki/src")
MODULES = {"heapmem": ("heapmem", "heapmem-memory"), "mmem": ("mmem", "mmem-memory", "managed"), "memb": ("memb",)}
NAMES = ("network_files", "library", "ipv6", *MODULES)
# The longest input of a target, and those that its corpus may have.
LONGEST = {"network_files": 1400, "library": 600, "ipv6": 600}
SHORT = 600


def arguments(name: str) -> list[str | Path]:
    """The arguments of the compiler for a target."""
    if name == "network_files":
        return [*DRIVER]
    if name == "library":
        crate = CRATES / "toarmuts"
        return ["-DREPORT", f"-I{crate}/include", crate / "include/toarmuts_memory.c", crate / "out/libtoarmuts.a"]
    if name == "ipv6":
        driver = ROOT / "c/contiki/src"
        parts = [*sorted(driver.glob("ipv6/*.c")), driver / "framer.c", driver / "modules/trickle-timer.c", driver / "modules/uiplib.c"]
        return ["-DCONTIKI_MODULE", *DRIVER, *parts, ROOT / "c/modules/src/list.c"]
    sources = [ROOT / f"c/modules/src/{source}.c" for source in MODULES[name]]
    return [*MODULE_SIZES, f"-I{ROOT}/c/modules/include", f"-I{ROOT}/tests/c", *sources, CRATES / "modules_c/out/libmodules_c.a"]


def has_fuzzer() -> bool:
    """Whether clang is here with libFuzzer."""
    if shutil.which("clang") is None:
        return False
    with tempfile.TemporaryDirectory() as room:
        source = Path(room) / "none.c"
        source.write_text("int LLVMFuzzerTestOneInput(const char *data, unsigned long size) { return data == 0 && size > 0; }\n",
                          encoding="utf-8")
        return subprocess.run(["clang", *SANITIZERS, source, "-o", f"{room}/none"], capture_output=True, check=False).returncode == 0


def build(name: str, built: Path) -> Path:
    words: list[str | Path] = ["clang", "-std=gnu11", "-g", "-O1", "-Wall", "-Wextra", *SANITIZERS, FOLDER / f"{name}.c"]
    subprocess.run([*words, *arguments(name), "-o", built], check=True)
    return built


def corpus(name: str) -> Path:
    return FOLDER / f"corpus/{name}.tar.gz"


def unpack(name: str, folder: Path) -> Path:
    """The corpus of a target, as files of a folder."""
    folder.mkdir()
    if corpus(name).exists():
        with tarfile.open(corpus(name)) as packed:
            packed.extractall(folder)
    return folder


def pack(name: str, folder: Path) -> None:
    """Makes the corpus of the files of a folder: the same bytes for the same files."""
    written = io.BytesIO()
    with tarfile.open(fileobj=written, mode="w") as packed:
        for file in sorted(folder.iterdir()):
            about = tarfile.TarInfo(file.name)
            about.size = file.stat().st_size
            packed.addfile(about, io.BytesIO(file.read_bytes()))
    corpus(name).parent.mkdir(exist_ok=True)
    corpus(name).write_bytes(gzip.compress(written.getvalue(), mtime=0))


def fuzz(name: str, seconds: int, room: Path) -> bool:
    """Runs a target, and adds to its corpus what reaches more; False where an input failed."""
    built, found, least = build(name, room / name), unpack(name, room / f"{name}.found"), room / f"{name}.least"
    longest = f"-max_len={LONGEST.get(name, SHORT)}"
    words = [longest, f"-max_total_time={seconds}", f"-artifact_prefix={room}/", "-print_final_stats=1", "-verbosity=0"]
    dictionary = FOLDER / f"{name}.dict"
    words += [f"-dict={dictionary}"] if dictionary.exists() else []
    if subprocess.run([built, *words, found], check=False).returncode != 0:
        return False
    least.mkdir()
    subprocess.run([built, "-merge=1", longest, "-verbosity=0", least, found], check=True)
    pack(name, least)
    return True


def main(seconds: int = 600, *names: str) -> int:
    room, failed = Path(tempfile.mkdtemp()), []
    for name in names or NAMES:
        print(f"{name}:", flush=True)
        if not fuzz(name, seconds, room):
            failed.append(name)
    if failed:
        print(f"inputs failed, of {', '.join(failed)}: they are in {room}", file=sys.stderr)
        return 1
    shutil.rmtree(room)
    return 0


if __name__ == "__main__":
    sys.exit(main(int(sys.argv[1]) if len(sys.argv) > 1 else 600, *sys.argv[2:]))
