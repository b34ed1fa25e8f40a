"""What tests share: commands, what is built, and what this machine has."""

import fcntl
import functools
import json
import os
import re
import shutil
import subprocess
import tempfile
from pathlib import Path
from typing import Any, Callable, Mapping

import pytest

ROOT = Path(__file__).resolve().parent.parent
CRATES = ROOT / "crates"
EXAMPLES = ROOT / "examples"
SANITIZERS = ("-fsanitize=address,undefined", "-fno-sanitize-recover=all")

Completed = subprocess.CompletedProcess[bytes]
Word = str | bytes | Path | int


def run(*words: Word, stdin: bytes | Path = b"", cwd: Path | None = None, settings: Mapping[str, str] | None = None,
        timeout: float = 1800) -> Completed:
    """Runs a command on these bytes, or on a file, with these settings in its environment beside those that are there."""
    command: list[str | bytes] = [word if isinstance(word, bytes) else str(word) for word in words]
    environment = {**os.environ, **(settings or {})}
    if isinstance(stdin, bytes):
        return subprocess.run(command, input=stdin, capture_output=True, cwd=cwd, env=environment, timeout=timeout, check=False)
    with stdin.open("rb") as opened:
        return subprocess.run(command, stdin=opened, capture_output=True, cwd=cwd, env=environment, timeout=timeout, check=False)


def succeed(*words: Word, stdin: bytes | Path = b"", cwd: Path | None = None, settings: Mapping[str, str] | None = None,
            timeout: float = 1800) -> Completed:
    ran = run(*words, stdin=stdin, cwd=cwd, settings=settings, timeout=timeout)
    assert ran.returncode == 0, f"{' '.join(map(str, words))}: status {ran.returncode}\n{output_of(ran)}"
    return ran


def with_stream(redirection: str, *words: str | Path) -> Completed:
    """Runs a command with a stream that the shell redirects."""
    return run("bash", "-c", f'exec "$@" {redirection}', "bash", *words)


def output_of(ran: Completed) -> str:
    """The end of what a command wrote, for messages."""
    return (ran.stdout[-4000:] + ran.stderr[-4000:]).decode(errors="replace")


def once(place: Path, make: Callable[[Path], object]) -> Path:
    """Has the first process that needs a folder make it, while others wait. Returns the folder."""
    place.parent.mkdir(parents=True, exist_ok=True)
    done = place.with_name(f"{place.name}.done")
    with open(place.with_name(f"{place.name}.lock"), "a", encoding="utf-8") as lock:
        fcntl.flock(lock, fcntl.LOCK_EX)
        if not done.exists():
            make(place)
            done.touch()
    return place


def table(name: str) -> Any:
    """What tests/tables/NAME.json holds."""
    return json.loads((ROOT / f"tests/tables/{name}.json").read_text(encoding="utf-8"))


def cases(name: str, takes_name: bool = False) -> list[Any]:
    """The rows of that file, for pytest.mark.parametrize. A row begins with the name of its case, which a test may take, too."""
    return [pytest.param(*row[not takes_name:], id=row[0]) for row in table(name)]


def texts(name: str) -> list[Any]:
    """The cases of tests/tables/NAME.txt, for the same: below a line `=== CASE` a text, or several with a line `---` between two."""
    parts = re.split(r"^=== (.*)\n", (ROOT / f"tests/tables/{name}.txt").read_text(encoding="utf-8"), flags=re.M)
    return [pytest.param(*re.split(r"^---\n", text, flags=re.M), id=case) for case, text in zip(parts[1::2], parts[2::2])]


def is_quick() -> bool:
    """Whether these are the quick tests: then programs that aren't proved are built without a proof, or their tests are skipped."""
    return "TOARMUTS_TESTS_QUICK" in os.environ


# What `scripts/unproved.py` can build where it isn't proved.
UNPROVED = ("mote", "scenario", "network", "mote_picture", "network_picture", "toarmuts", "modules_c")


def built_in(name: str) -> Path:
    """The folder of what is built of a crate. `network_picture` is another name of a program."""
    return CRATES / ("mote_picture" if name == "network_picture" else name) / "out"


@functools.lru_cache(maxsize=None)
def proved_or_not(name: str, file: str) -> Path:
    """A program, or the library for C, as it is proved, or else built without a proof. Where neither is there, the test is skipped."""
    if run(ROOT / "prove", "--is-current", name).returncode == 0:
        return built_in(name) / file
    ran = run(ROOT / "scripts/unproved.py", name) if name in UNPROVED else None
    if ran is None or ran.returncode != 0:
        pytest.skip(f"crates/{name}: not built: ./prove {name}")
    return Path(ran.stdout.decode().rstrip("\n"))


def program(name: str) -> Path:
    """A built program. tests/all has all proved and built; without that, it must be there."""
    if is_quick():
        return proved_or_not(name, name)
    built = built_in(name) / name
    if not built.exists():
        pytest.fail(f"crates/{name}: the program isn't built: ./prove {name}", pytrace=False)
    return built


def library(name: str) -> Path:
    """A library for C. tests/all has it proved and built, for both kinds of processor; without that, it must be there."""
    if is_quick():
        return proved_or_not(name, f"lib{name}.a")
    if os.environ.get("TOARMUTS_TESTS_PROVE"):
        for command in (ROOT / "prove", ROOT / "scripts/for-aarch64"):
            ran = run(command, name, timeout=10_800)
            if ran.returncode != 0:
                pytest.fail(f"{command.name} {name}: status {ran.returncode}\n{output_of(ran)}", pytrace=False)
    built = CRATES / name / f"out/lib{name}.a"
    if not built.exists():
        pytest.fail(f"crates/{name}: the library isn't built: ./prove {name}", pytrace=False)
    return built


def current_library(name: str) -> Path:
    built = library(name)
    if run(ROOT / "prove", "--is-current", name).returncode != 0:
        pytest.fail(f"crates/{name}: the library isn't of the sources as they are: ./prove {name}", pytrace=False)
    return built


def library_for_aarch64(name: str) -> Path:
    built = CRATES / name / f"out/aarch64/lib{name}.a"
    if not built.exists():
        pytest.fail(f"crates/{name}: the library isn't built for aarch64: scripts/for-aarch64 {name}", pytrace=False)
    return built


def all_hold(ran: Completed) -> None:
    """A test in C ran to its end, and each of its checks holds."""
    assert ran.returncode == 0 and re.search(rb"(?:^|\n)([1-9]\d*) of \1 checks hold\n$", ran.stdout), output_of(ran)


@functools.lru_cache(maxsize=None)
def sanitizes(compiler: str) -> bool:
    """Whether a compiler is here with the sanitizers of addresses and of undefined behaviour."""
    if shutil.which(compiler) is None:
        return False
    # As root no linker is given a device to write to.
    with tempfile.TemporaryDirectory() as room:
        return run(compiler, *SANITIZERS, "-x", "c", "-", "-o", f"{room}/none", stdin=b"int main(void) { return 0; }\n").returncode == 0


with_sanitizers = pytest.mark.skipif(not sanitizes("gcc"), reason="no gcc with sanitizers here")
# How a command is begun as a user who owns nothing.
AS_NOBODY = ("setpriv", "--reuid", "65534", "--clear-groups")


@functools.lru_cache(maxsize=None)
def can_be_nobody() -> bool:
    return os.geteuid() == 0 and shutil.which("setpriv") is not None and run(*AS_NOBODY, "bash", "-c", ": >/dev/null").returncode == 0


def needs(*commands: str) -> pytest.MarkDecorator:
    lacking = [command for command in commands if shutil.which(command) is None]
    return pytest.mark.skipif(bool(lacking), reason=f"not here: {', '.join(lacking)}")


def write_program(place: Path, text: str) -> Path:
    place.parent.mkdir(parents=True, exist_ok=True)
    place.write_text(text, encoding="utf-8")
    place.chmod(0o755)
    return place


def without(name: str) -> Mapping[str, str]:
    return {key: value for key, value in os.environ.items() if key != name}
