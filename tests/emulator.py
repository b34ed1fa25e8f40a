"""Emulated boards: their ports are sockets of this machine."""

import contextlib
import os
import selectors
import shutil
import signal
import socket
import subprocess
import time
from dataclasses import dataclass, field
from pathlib import Path

import tools
from contiki_programs import Contiki
from tools import CRATES, ROOT, Completed, Word, once, output_of, run, succeed

HAS_NEWLIB = shutil.which("arm-none-eabi-gcc") and b"/" in tools.run("arm-none-eabi-gcc", "--print-file-name=rdimon.specs").stdout
# The emulator's clock counts instructions: one has 2^SHIFT nanoseconds.
MACHINES = {"lm3s6965": ("lm3s6965evb", 6), "mps2-an385": ("mps2-an385", 5), "netduinoplus2": ("netduinoplus2", 3)}
CORES = {"lm3s6965": "cortex-m3", "mps2-an385": "cortex-m3", "netduinoplus2": "cortex-m4"}
PORTS = ("console", "radio", "record")
# How long a board may take for what it does in less than a second, on a busy machine.
PATIENCE = 60.0


def kernel_for(core: str) -> Path:
    """The kernel for a core, of the proved build."""
    return Path(succeed(ROOT / "scripts/for-cortex-m", "toarmuts", core, timeout=1800).stdout.decode().strip())


def kernels(folder: Path) -> Path:
    """A folder with the kernel for each core, and its headers."""
    def make(place: Path) -> None:
        for core in sorted(set(CORES.values())):
            (place / core).mkdir(parents=True)
            shutil.copy2(kernel_for(core), place / core)
        for name in "toarmuts.h", "toarmuts_memory.c":
            shutil.copy2(CRATES / "toarmuts/include" / name, place)
    return once(folder, make)


@dataclass
class Builder:
    """Builds images, each once, with all warnings as errors."""

    library: Path
    room: Path

    def __call__(self, board: str, source: Path, *words: Word) -> Path:
        name = "-".join([board, source.stem, *(Path(str(word)).name.strip("-") for word in words)])

        def make(image: Path) -> None:
            made = run(ROOT / "contiki", "--library", self.library, "--board", board, *words, "-Wall", "-Wextra", source, "-o", image)
            assert (made.returncode, made.stderr) == (0, b""), output_of(made)
        return once(self.room / f"{name}.elf", make)


def run_script(image: Path, board: str, timeout: float = 120) -> tuple[bytes, bytes, int]:
    """Runs an image with a script to its end: what it printed, its transcript, its status."""
    machine, shift = MACHINES[board]
    console, record = image.with_suffix(".console"), image.with_suffix(".record")
    ran = run("qemu-system-arm", "-M", machine, "-icount", f"shift={shift},sleep=off", "-display", "none", "-monitor", "none", "-no-reboot",
              "-serial", f"file:{console}", "-serial", "null", "-serial", f"file:{record}", "-semihosting-config",
              "enable=on,target=native", "-kernel", image, timeout=timeout)
    return console.read_bytes(), record.read_bytes(), ran.returncode


@dataclass
class Emulated:
    """A board that runs until `close`. With `fast` its time runs ahead while it sleeps."""

    image: Path
    board: str
    room: Path
    fast: bool = False
    radio: str = ""
    process: "subprocess.Popen[bytes]" = field(init=False)
    sockets: dict[str, socket.socket] = field(init=False, default_factory=dict)
    heard: dict[str, bytes] = field(init=False, default_factory=dict)

    def __post_init__(self) -> None:
        machine, shift = MACHINES[self.board]
        self.room.mkdir(parents=True, exist_ok=True)
        words = ["qemu-system-arm", "-M", machine, "-icount", f"shift={shift},sleep={'off' if self.fast else 'on'}", "-display", "none",
                 "-monitor", "none", "-no-reboot", "-S", "-qmp", f"unix:{self.room}/control,server=on,wait=off"]
        own = [name for name in PORTS if name != "radio" or not self.radio]
        for name in PORTS:
            chardev = f"socket,path={self.room}/{name},server=on,wait=off" if name in own else self.radio
            words += ["-chardev", f"{chardev},id={name}", "-serial", f"chardev:{name}"]
        self.process = subprocess.Popen([*words, "-kernel", str(self.image)], stdin=subprocess.DEVNULL, stdout=subprocess.DEVNULL)
        for name in own:
            self.sockets[name] = self._connect(name)
            self.heard[name] = b""
        # The ports are there before the board runs, so that nothing it writes is lost.
        with self._connect("control") as control, control.makefile("rw") as lines:
            for command in "qmp_capabilities", "cont":
                lines.write(f'{{"execute": "{command}"}}\n')
                lines.flush()
                while "return" not in lines.readline():
                    pass

    def _connect(self, name: str) -> socket.socket:
        end = time.monotonic() + PATIENCE
        while True:
            it = socket.socket(socket.AF_UNIX)
            try:
                it.connect(f"{self.room}/{name}")
                return it
            except OSError:
                it.close()
                assert time.monotonic() < end and self.process.poll() is None, f"no socket {self.room}/{name}"
                time.sleep(0.02)

    def pump(self, seconds: float = 0.05, ports: tuple[str, ...] = PORTS) -> None:
        """Reads what the board writes, for a time."""
        end = time.monotonic() + seconds
        with selectors.DefaultSelector() as selector:
            for name, it in self.sockets.items():
                if name in ports:
                    selector.register(it, selectors.EVENT_READ, name)
            while selector.get_map() and (left := end - time.monotonic()) > 0:
                for key, _ in selector.select(left):
                    try:
                        got = self.sockets[key.data].recv(65536)
                    except ConnectionResetError:
                        got = b""
                    self.heard[key.data] += got
                    if not got:
                        selector.unregister(key.fileobj)

    def until(self, port: str, text: bytes, count: int = 1, ports: tuple[str, ...] = PORTS) -> None:
        """Waits until a port has written a text, or several of it. Others than these ports aren't read meanwhile."""
        end = time.monotonic() + PATIENCE
        while self.heard[port].count(text) < count:
            assert time.monotonic() < end, f"{port} has no {text!r}: {self.heard[port][-2000:]!r}"
            self.pump(0.02, ports)

    def send(self, port: str, data: bytes) -> None:
        self.sockets[port].sendall(data)

    def ended(self, ports: tuple[str, ...] = PORTS) -> int:
        """Waits until the emulator ends, as at a reset. It closes its ports before."""
        end = time.monotonic() + PATIENCE
        while time.monotonic() < end:
            self.pump(0.02, ports)
            with contextlib.suppress(subprocess.TimeoutExpired):
                status = self.process.wait(0.02)
                self.pump(0.05, ports)
                return status
        raise TimeoutError(f"the emulator didn't end: {self.heard}")

    def finish(self) -> None:
        """Ends the emulator, and reads what is left of the ports."""
        self.process.kill()
        self.process.wait()
        self.pump(1)

    def stall(self, seconds: float) -> None:
        """Stops the emulator itself for a time, as a busy machine does."""
        os.kill(self.process.pid, signal.SIGSTOP)
        time.sleep(seconds)
        os.kill(self.process.pid, signal.SIGCONT)

    def close(self) -> None:
        self.process.kill()
        self.process.wait()
        for it in self.sockets.values():
            it.close()


def whole_lines(text: bytes) -> bytes:
    return text[:text.rfind(b"\n") + 1]


def replay(contiki: Contiki, place: Path, record: bytes, source: Path, *words: Word) -> Completed:
    """What the same program makes on Linux of a board's record."""
    place.write_bytes(record)
    return contiki("--replay", place, *words, source)
