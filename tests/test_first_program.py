"""The commands of docs/first-program.md, README.md and CONTRIBUTING.md. What they print is in files, written out from the rules."""

import json
import os
import re
import shutil
from pathlib import Path

import pytest

from tools import EXAMPLES, ROOT, Completed, library, needs, output_of, program, run, succeed

PAGES = {name: (ROOT / name).read_text(encoding="utf-8") for name in ("README.md", "CONTRIBUTING.md", "docs/first-program.md")}
FIRST = EXAMPLES / "first"
NETWORK = "./contiki --network examples/first/house.net"
SOURCES = "examples/first/beacon.c examples/first/listener.c < examples/first/house.script"
# Each command that is run here, and the file with what it prints.
COMMANDS: dict[str, Path | bytes] = {
    "./mote hello < examples/hello.script": EXAMPLES / "hello.transcript",
    "./mote relay < examples/relay.script | ./mote-picture relay > relay.svg": EXAMPLES / "relay.svg",
    "./network examples/networks/three.net": EXAMPLES / "networks/three.transcript",
    "./network examples/networks/three.net | ./network-picture examples/networks/three.net > three.svg": EXAMPLES / "networks/three.svg",
    "./contiki examples/contiki/blinker.c < examples/contiki/blinker.script": EXAMPLES / "contiki/blinker.transcript",
    "./contiki --text examples/contiki/blinker.c < examples/contiki/blinker.script": b"LED on\nLED off\nLED on\n",
    r"printf 'tick 128\ntick 128\n' | ./contiki --text examples/first/pulse.c": b"pulse 1\npulse 2\n",
    "./contiki examples/first/pulse.c < examples/first/pulse.script": FIRST / "pulse.transcript",
    "./contiki --picture examples/first/pulse.c < examples/first/pulse.script > pulse.svg": FIRST / "pulse.svg",
    "./contiki examples/first/steady.c < examples/first/pulse.script": FIRST / "steady.transcript",
    f"{NETWORK} --text {SOURCES}": FIRST / "house.text",
    f"{NETWORK} {SOURCES} > house.transcript": FIRST / "house.transcript",
    "./network-picture examples/first/house.net < house.transcript > house.svg": FIRST / "house.svg",
}
# Those that other tests run, each with the file of tests that does.
ELSEWHERE = {
    "./prove": "test_prove.py", "tests/all": "test_gate.py", "tests/all --quick": "test_gate.py", "tests/all page": "test_gate.py",
    "sudo apt install ./toarmuts_0.2.0_amd64.deb": "test_release.py",
    "mote hello < /usr/share/doc/toarmuts/examples/hello.script": "test_release.py",
    "./contiki --gdb examples/first/pulse.c < examples/first/pulse.script": "test_first_program.py",
    "environment/bin/python -m pytest -q examples/first/test_steady.py": "test_python.py", "rt check": "proofs", "rt tidy": "test_style.py",
    "tests/wrong_bodies timer_core": "test_wrong_bodies.py",
    "/usr/bin/python3 -m pytest -q tests/test_pages.py": "test_pages.py",
}


def commands(page: str) -> list[str]:
    """The commands of a page, without remarks after two spaces."""
    blocks = re.findall(r"\n\n((?: {4}.*\n)+)", re.sub(r"```.*?```", "", PAGES[page], flags=re.S))
    return [line.strip().partition("  ")[0] for block in blocks for line in block.splitlines()]


@pytest.fixture(scope="module")
def built() -> None:
    """What the commands run is built, so that none of them builds it."""
    for name in ("mote", "mote_picture", "network", "network_picture"):
        program(name)
    if "TOARMUTS_TESTS_QUICK" not in os.environ:
        library("toarmuts")


def shell(command: str, room: Path) -> Completed:
    """Runs a command of a page at the top of the repository. Files that it makes are in a room of their own."""
    there = re.sub(r"(> |< )(\w+\.\w+)$", rf"\1'{room}/\2'", re.sub(r"< (house\.transcript)", rf"< '{room}/\1'", command))
    return run("bash", "-c", f"set -o pipefail; {there}", cwd=ROOT)


@pytest.mark.parametrize("page", PAGES)
def test_commands_are_run(page: str) -> None:
    """Each command of these pages is run here, or by the tests that are named."""
    missing = [line for line in commands(page) if line not in COMMANDS and line not in ELSEWHERE and not line.startswith("mote [")]
    assert not missing and all((ROOT / "tests" / file).exists() for file in ELSEWHERE.values())


@needs("gcc")
@pytest.mark.usefixtures("built")
def test_commands(tmp_path: Path) -> None:
    """Each prints, or writes, what its file has."""
    shown = [line for page in PAGES for line in commands(page)]
    for command, wanted in COMMANDS.items():
        ran = shell(command, tmp_path)
        made = re.search(r"> (\w+\.\w+)$", command)
        printed = (tmp_path / made[1]).read_bytes() if made else ran.stdout
        assert command in shown and ran.returncode == 0, f"{command}\n{output_of(ran)}"
        assert printed == (wanted if isinstance(wanted, bytes) else wanted.read_bytes()), command


@needs("gcc", "rt")
def test_unproved(tmp_path: Path) -> None:
    """What is built without a proof makes the same transcripts: a program, and the library for C."""
    mote, archive = (Path(succeed(ROOT / "scripts/unproved.py", name).stdout.decode().rstrip("\n")) for name in ("mote", "toarmuts"))
    assert run(mote, "hello", stdin=EXAMPLES / "hello.script").stdout == (EXAMPLES / "hello.transcript").read_bytes()
    include = ROOT / "crates/toarmuts/include"
    for file in (archive, include / "toarmuts.h", include / "toarmuts_memory.c"):
        shutil.copy2(file, tmp_path)
    ran = succeed(ROOT / "contiki", "--library", tmp_path, FIRST / "steady.c", stdin=FIRST / "pulse.script")
    assert ran.stdout == (FIRST / "steady.transcript").read_bytes()


def task_of_editor(file: Path) -> tuple[str, Path]:
    """The command that VS Code runs for an open file, and where."""
    task, = json.loads((ROOT / ".vscode/tasks.json").read_text(encoding="utf-8"))["tasks"]
    values = {"file": file, "fileDirname": file.parent, "fileBasenameNoExtension": file.stem, "workspaceFolder": ROOT}
    command, folder = str(task["command"]), str(task["options"]["cwd"])
    for name, value in values.items():
        command, folder = (text.replace(f"${{{name}}}", str(value)) for text in (command, folder))
    return command, Path(folder)


DEBUGGER = next(line for line in ELSEWHERE if "--gdb" in line)


@needs("gcc", "gdb")
@pytest.mark.usefixtures("built")
@pytest.mark.parametrize(("command", "folder"), [(DEBUGGER, ROOT), task_of_editor(FIRST / "pulse.c")], ids=["page", "editor"])
def test_debugger(command: str, folder: Path) -> None:
    """The commands of the page stop at the serial line's event, with its bytes; so they do as a task of VS Code."""
    ran = run("bash", "-c", command, cwd=folder, settings={"GDB": f"gdb -q -batch -x {FIRST / 'pulse.gdb'}"})
    assert re.search(rb'\$1 = 138 .*\$2 = 0x[0-9a-f]+ [^\n]*"hi"\n', ran.stdout, re.S), output_of(ran)
    assert ran.stdout.count(b"\nBreakpoint 1, ") == 1
