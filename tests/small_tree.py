"""A small tree of crates in a path with a blank, with stand-ins for rt and for a C compiler: for the scripts at the top."""

import os
import shutil
import subprocess
import time
from pathlib import Path
from typing import Callable

from tools import ROOT, Completed, Word, run

CRATES = """low: # below high
beside:
high: low
mote: high beside
scenario: low
toarmuts staticlib: low
modules_c staticlib:
"""
SECONDS = "# seconds\nlow 20\nbeside 30\nhigh 40\nmote 10\n"
WITHOUT_RT = ":".join(folder for folder in os.environ["PATH"].split(":") if not (Path(folder) / "rt").exists())
leave_out = shutil.ignore_patterns("__pycache__", "beat", "blink", "readings")


class Tree:
    """Such a tree, and what the last script that was run there came to."""

    def __init__(self, room: Path) -> None:
        self.room, self.root, self.bin, self.began = room, room / "a tree", room / "bin", room / "begun"
        self.program = self.crate("mote") / "out/mote"
        self.ran = Completed([], 0, b"", b"")
        self.cannot_be_written = f"prove: proofs are kept in this repository, and it can't be written: {self.root}/.git/rt-ci.lock\n"
        if not self.root.exists():
            self.fill()

    def fill(self) -> None:
        shutil.copytree(ROOT / "tests/stand_ins", self.bin)
        for folder in ("scripts", "interface", "examples/c", "crates/toarmuts/include"):
            shutil.copytree(ROOT / folder, self.root / folder, ignore=leave_out)
        for folder in (".git", "tests", "crates/low/specs", "crates/low/proofs"):
            (self.root / folder).mkdir(parents=True)
        for name in ("mote", "mote-picture", "scenario", "prove", "tests/proofs"):
            shutil.copy2(ROOT / name, self.root / name)
        files = {"crates.txt": CRATES, "scripts/prove-times": SECONDS, "crates/low/specs/Lib.antt": "", "crates/low/proofs/Lib.antt": ""}
        for name in (line.split()[0].rstrip(":") for line in CRATES.splitlines()):
            files[f"crates/{name}/src/{'main' if name in ('mote', 'scenario') else 'lib'}.rt"] = f"fn  {name}() {{}}\n"
        for name, text in files.items():
            (self.root / name).parent.mkdir(parents=True, exist_ok=True)
            (self.root / name).write_text(text, encoding="utf-8")

    def crate(self, name: str) -> Path:
        return self.root / "crates" / name

    def source(self, name: str) -> Path:
        return self.crate(name) / "src/lib.rt"

    def edit(self, name: str, text: str = "// more\n") -> None:
        with self.source(name).open("a", encoding="utf-8") as opened:
            opened.write(text)

    def take_back(self, name: str) -> None:
        """Removes the last line of a crate's source."""
        lines = self.source(name).read_text(encoding="utf-8").splitlines(keepends=True)
        self.source(name).write_text("".join(lines[:-1]), encoding="utf-8")

    def settings(self, **settings: str) -> dict[str, str]:
        return {"PATH": f"{self.bin}:{os.environ['PATH']}", "WITH_RT": os.environ["PATH"], "BEGUN": str(self.began), "RT_JOBS": "1",
                "XDG_CACHE_HOME": str(self.room / "cache"), **settings}

    def run(self, script: str, *words: Word, stdin: bytes | Path = b"", cwd: Path | None = None, **settings: str) -> Completed:
        self.ran = run(self.root / script, *words, stdin=stdin, cwd=cwd, settings=self.settings(**settings), timeout=300)
        return self.ran

    def shell(self, command: str, **settings: str) -> Completed:
        self.ran = run("bash", "-c", command, cwd=self.root, settings=self.settings(**settings), timeout=300)
        return self.ran

    def start(self, script: str, settings: dict[str, str], *words: str) -> subprocess.Popen[bytes]:
        """Starts a script of the tree, in a new process group, with no signal ignored."""
        command = ["env", "--default-signal=INT,TERM,HUP", str(self.root / script), *words]
        return subprocess.Popen(command, stdin=subprocess.DEVNULL, stdout=subprocess.PIPE, stderr=subprocess.PIPE, start_new_session=True,
                                env={**os.environ, **self.settings(**settings)})

    def begin_to_prove(self, **settings: str) -> subprocess.Popen[bytes]:
        """Begins ./prove, and waits until a crate is under way."""
        self.began.unlink(missing_ok=True)
        started = self.start("prove", settings)
        wait_until(lambda: self.begun() != [])
        time.sleep(0.1)
        return started

    def end(self, started: subprocess.Popen[bytes]) -> Completed:
        stdout, stderr = started.communicate(timeout=300)
        self.ran = Completed([], started.returncode, stdout, stderr)
        return self.ran

    def begun(self) -> list[str]:
        """Which crates were begun, in order."""
        return self.began.read_text(encoding="utf-8").split() if self.began.exists() else []

    def kept(self, name: str) -> list[str]:
        """The content of a crate's stored work."""
        return (self.crate(name) / "out/incremental/kept").read_text(encoding="utf-8").split()

    @property
    def stdout(self) -> str:
        return self.ran.stdout.decode()

    @property
    def stderr(self) -> str:
        return self.ran.stderr.decode()

    def is_unproved(self) -> bool:
        """Whether the last run was an unproved one, and said so."""
        return self.ran.returncode == 0 and "this run is unproved" in self.stderr and "proves and builds" in self.stderr

    def is_proved(self, *words: str) -> bool:
        """Whether the last run was one of the built program, which always ends with 3."""
        return (self.ran.returncode, self.stdout.partition("\n")[0], self.stderr) == (3, f"proved {' '.join(words)}", "")

    def runs_unproved(self, script: str = "mote") -> bool:
        self.run(script)
        return self.is_unproved()

    def runs_proved(self, script: str = "mote") -> bool:
        self.run(script)
        return self.is_proved("")

    def goes_on(self) -> bool:
        """Whether a process that was started here still runs."""
        return any(f"BEGUN={self.began}".encode() in environment_of(folder) for folder in Path("/proc").glob("[0-9]*"))

    def is_clean(self) -> bool:
        """Whether no started process runs any more, and the stored work is where rt has it."""
        left = [path for pattern in ("*.rt", "crates.txt") for path in self.root.rglob(pattern)
                if "out" in path.relative_to(self.root).parts and "rlib" not in path.parts]
        mark = f"PWD={self.root}/.git".encode()
        goes_on = any(mark in environment_of(folder) for folder in Path("/proc").glob("[0-9]*"))
        return not goes_on and not left and not (self.root / ".git/prove").exists()


def environment_of(folder: Path) -> bytes:
    """The environment of a process; nothing where it has ended."""
    try:
        return (folder / "environ").read_bytes()
    except OSError:
        return b""


def wait_until(holds: Callable[[], bool], seconds: float = 120) -> None:
    deadline = time.monotonic() + seconds
    while not holds():
        assert time.monotonic() < deadline, "it takes too long"
        time.sleep(0.05)
