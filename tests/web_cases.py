"""Random experiments for the page, and the native builds that they are compared with."""

import base64
import ctypes
import random
import subprocess
from dataclasses import dataclass
from pathlib import Path
from typing import Any

from call_rules import RULES
from random_calls import random_call
from tools import program, succeed

LAST_OF_A_RUN = 4
NO_ROOM = 20


@dataclass
class Case:
    """A run: sizes as the page has them, the applications, the script, and whether it is one of names and lists that are well formed."""

    configuration: dict[str, Any]
    applications: list[str]
    script: bytes

    @property
    def names(self) -> list[str]:
        return [it.split(" ")[0] for it in self.applications]

    @property
    def words(self) -> list[str]:
        sizes = [(name, value) for name, value in self.configuration.items() if name != "quiet" and value is not None]
        return [word for name, value in sizes for word in (f"--{name}", str(value))]

    def for_page(self) -> dict[str, Any]:
        return {"configuration": self.configuration, "applications": "\n".join(self.applications),
                "script": base64.b64encode(self.script).decode()}


class Answer(ctypes.Structure):
    """The library's outcome of a run, as toarmuts.h has it, and the transcript."""

    _fields_ = [("status", ctypes.c_uint32), ("line", ctypes.c_uint64), ("length", ctypes.c_uint64), ("reason", ctypes.c_uint32),
                ("application", ctypes.c_uint32), ("call", ctypes.c_uint64)]
    transcript = b""

    def for_page(self) -> dict[str, Any]:
        """The outcome in the form of the page's script."""
        numbers = {field[0]: getattr(self, field[0]) for field in self._fields_}
        return {**numbers, "transcript": base64.b64encode(self.transcript).decode()}


class Maker:
    """Makes random cases: most are well formed and short, and each refusal comes up."""

    def __init__(self, seed: int) -> None:
        self.random = random.Random(seed)

    def one_of(self, *values: str) -> str:
        return self.random.choice(values)

    def number(self, least: int, most: int) -> str:
        return str(self.random.randint(least, most))

    def hex(self, least: int, most: int) -> str:
        return self.random.randbytes(self.random.randint(least, most)).hex() or "-"

    def application(self) -> str:
        """A name, or a list of calls; one in thirty is malformed."""
        if self.random.random() < 1 / 30:
            return self.one_of("nobody", "calls frob", "calls kill", "calls clock 1", "calls timer-set 0 x", "calls print 0",
                               "calls wait,clock", "")
        if self.random.random() < 0.4:
            return str(self.random.choice(RULES["applications"]))
        waits = [self.one_of("wait", random_call(self.random)) for _ in range(self.random.randint(1, 12))]
        return f"calls {', '.join(waits)}"

    def input(self) -> str:
        """A line of a script; one in fifty is malformed."""
        if self.random.random() < 1 / 50:
            return self.one_of("tick 01", "serial", "frame 0", "tock", " tick 1", "text hi")
        return self.one_of(f"tick {self.number(0, 20)}", f"tick {self.number(0, 20)}", f"serial {self.hex(1, 9)}", "serial 680a",
                           f"frame {self.hex(1, 12)}", "# note", "")

    def configuration(self) -> dict[str, Any]:
        """Sizes of a mote; one in thirty is none."""
        quota = self.random.choice([None, None, None, 16, 64])
        made: dict[str, Any] = {
            "mmem": self.random.choice([64, 256, 4096, 4096, 65536]), "heap": self.random.choice([64, 256, 4096, 4096, 65536]),
            "header": self.random.choice([16, 16, 8]), "quota": quota, "quiet": self.random.random() < 0.1,
        }
        if self.random.random() < 1 / 30:
            made[self.one_of("mmem", "heap", "header", "quota")] = self.random.choice([0, 6, 12, 65540])
        return made

    def case(self) -> Case:
        script = "".join(f"{self.input()}\n" for _ in range(self.random.randint(0, 15)))
        return Case(self.configuration(), [self.application() for _ in range(self.random.randint(1, 5))], script.encode())

    def row(self) -> str:
        """A row; one in fifty is malformed."""
        stimulus = self.one_of("INIT", "TIMER", "TIMER 0", "line", "frame", "refused", "any", "140", "callback")
        if self.random.random() < 1 / 50:
            stimulus = "tock"
        calls = [self.one_of("print told", "timer-set 0 5", "packet-open", "wait", random_call(self.random), 'print "hi\\n"')
                 for _ in range(self.random.randint(1, 4))]
        return f"on {stimulus}: {', '.join(calls)}{self.one_of('', ', repeat')}"

    def text(self, length: int) -> bytes:
        """UTF-8 of 1 to 4 bytes a letter; in one of three texts a byte is spoilt."""
        kinds = ((0x20, 0x7e), (0xa1, 0x7ff), (0x800, 0xd7ff), (0xe000, 0xffff), (0x10000, 0x10ffff))
        letters = bytearray("".join(chr(self.random.randint(*self.random.choice(kinds))) for _ in range(length)).encode())
        if letters and self.random.random() < 1 / 3:
            letters[self.random.randrange(len(letters))] = self.random.choice([0x80, 0xbf, 0xc0, 0xed, 0xf5, 0xff])
        return bytes(letters)

    def scenario(self) -> str:
        applications = []
        for _ in range(self.random.randint(1, 3)):
            rows = ["rows", *(self.row() for _ in range(self.random.randint(1, 4)))]
            applications += rows if self.random.random() < 0.7 else [f"calls {random_call(self.random)}, wait"]
        inputs = [self.one_of(f"tick {self.number(0, 9)}", "text hello", f"frame {self.hex(1, 5)}", f"at {self.number(20, 60)}")
                  for _ in range(self.random.randint(0, 8))]
        return "".join(f"{line}\n" for line in [*applications, "mmem 256", *inputs])


class NativeLibrary:
    @staticmethod
    def link(folder: Path, to: Path) -> None:
        """Makes a shared library of what a folder has: libtoarmuts.a, toarmuts.h and toarmuts_memory.c."""
        succeed("gcc", "-shared", "-fPIC", "-O2", f"-I{folder}", folder / "toarmuts_memory.c", "-Wl,--whole-archive",
                folder / "libtoarmuts.a", "-Wl,--no-whole-archive", "-o", to)

    def __init__(self, built: Path) -> None:
        self._run = ctypes.CDLL(str(built)).toarmuts_run
        pointer, size = ctypes.c_void_p, ctypes.c_uint64
        self._run.argtypes, self._run.restype = [pointer, ctypes.c_char_p, size, ctypes.c_char_p, size, pointer, size, pointer], None

    def run(self, case: Case) -> Answer:
        given = case.configuration
        quota = given["quota"]
        numbers = (ctypes.c_uint32 * 6)(given["mmem"], given["heap"], given["header"], quota is not None, quota or 0, given["quiet"])
        applications, told, room = "\n".join(case.applications).encode(), Answer(), 1 << 22
        transcript = ctypes.create_string_buffer(room)
        self._run(numbers, applications, len(applications), case.script, len(case.script), transcript, room, ctypes.byref(told))
        assert told.status != NO_ROOM
        if told.status <= LAST_OF_A_RUN:
            told.transcript = ctypes.string_at(transcript, told.length)
        return told


def native(name: str, words: list[str], given: bytes, folder: Path | None = None) -> "subprocess.CompletedProcess[bytes]":
    return subprocess.run([program(name), *words], input=given, capture_output=True, cwd=folder, check=False, timeout=600)
