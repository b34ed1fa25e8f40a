"""The modules of the page with the mote, in Chromium: random runs, pictures and scenarios, byte for byte as the native builds make them."""

import base64
import hashlib
import json
import random
import subprocess
from pathlib import Path
from typing import Any

import pytest

from call_rules import OF_MOTE
from test_network import WORKED
from test_network_random import drawn_network
from tools import ROOT
from web_cases import Case, Maker, NativeLibrary, native
from web_page import Opened, in_chromium, script

pytestmark = in_chromium
PARTS = 4
RUNS = 250
SCENARIOS = 50
NETWORKS = 50
# The first random network; tests/test_network_random.py has those before it.
FIRST_NETWORK = 100_000
# Forms of what mote_picture writes; of a part of a run, too.
FORMS: list[list[str]] = [[], ["--page"], ["--vcd"], ["--unfolded"], ["--page", "--from", "3", "--to", "20"]]
of_each_part = pytest.mark.parametrize("part", range(PARTS))

# The page itself leaves programs to its worker.
PROGRAM_CLASS = (ROOT / "web/js/program.js").read_text(encoding="utf-8")

# Lines of a network's script, well-formed ones and others; also what files of scenarios take for something else.
LINES = ["mote 1 relay", "mote 2 echo", "mote 2 calls print 00", "link 1 2 delay 1", "link 1 2 delay 0", "line 1..2 delay 2 every 2",
         "room 5", "rounds x", "tick 5", "tick 5", "tick x", "1 frame 00", "1 serial 610a", "3 walk", "# c", "", "at 5", "quiet", "walk",
         "1 4 synch 129 - -> wait", "= 3", "halt", " mote 1", "mote 1 relay ", "times 2 tick 1", "script tick 1", "last tick 1",
         "ends finished", "...", "== x", "network", "app hello", "text hi", "mmem 64", "9 frame 00", "1 frame 0", "tick 4294967296"]

LIBRARY_RUNS = script("library_runs")
PLAYED_RUNS = script("played_runs")
PROGRAM_RUNS = PROGRAM_CLASS + script("program_runs")


def with_cases(body: str, cases: list[Any], program: str = "") -> str:
    """A script with its data before it: cases, and the module of a program, which has its name."""
    module = {"mote_picture": "picture", "network_picture": "picture"}.get(program, program)
    return f"const CASES = {json.dumps(cases)}, NAME = {json.dumps(program)}, PROGRAM = {json.dumps(module)};\n{body}"


def outcome(ran: "subprocess.CompletedProcess[bytes]") -> list[Any]:
    """A native run in the form of PROGRAM_RUNS."""
    return [ran.returncode, hashlib.sha256(ran.stdout).hexdigest(), ran.stderr.decode()]


def differing(told: list[Any], wanted: list[Any], cases: list[Any]) -> list[Any]:
    assert len(told) == len(wanted)
    return [(case, own, other) for own, other, case in zip(told, wanted, cases) if own != other][:3]


def is_played(case: Case) -> bool:
    """Whether a test can play the applications of a case: they are lists of calls, and the transcript isn't a quiet one."""
    return all(it.startswith("calls ") for it in case.applications) and not case.configuration["quiet"]


@of_each_part
def test_library(mote_page: Opened, native_library: NativeLibrary, part: int) -> None:
    """Random runs have the native answers and transcripts; lists of calls, played step by step, the same transcripts."""
    maker = Maker(1 + part)
    cases = [maker.case() for _ in range(RUNS)]
    answers = [native_library.run(case) for case in cases]
    given: list[dict[str, Any]] = [case.for_page() for case in cases]
    told = mote_page.ask(with_cases(LIBRARY_RUNS, given))
    assert differing(told, [answer.for_page() for answer in answers], cases) == []
    played = [(case, answer) for case, answer in zip(cases, answers) if is_played(case) and answer.transcript]
    assert len(played) > RUNS // 10
    given = [{"configuration": case.configuration, "lists": [it.removeprefix("calls ").split(", ") for it in case.applications],
              "script": case.script.decode().splitlines()} for case, _ in played]
    told = mote_page.ask(with_cases(PLAYED_RUNS, given))
    assert differing(told, [answer.transcript.decode() for _, answer in played], [case for case, _ in played]) == []


@of_each_part
def test_pictures(mote_page: Opened, native_library: NativeLibrary, part: int) -> None:
    """Pictures, pages and dumps of random transcripts are the native program's; so is what it refuses."""
    maker = Maker(101 + part)
    cases = [maker.case() for _ in range(RUNS)]
    transcripts = [native_library.run(case).transcript.decode() for case in cases]
    given: list[dict[str, Any]] = [{"words": [*FORMS[place % len(FORMS)], *case.words, "--", *case.names], "file": None,
                                    "input": transcript + ("nonsense\n" if place % 40 == 0 else "")}
                                   for place, (case, transcript) in enumerate(zip(cases, transcripts))]
    told = mote_page.ask(with_cases(PROGRAM_RUNS, given, "mote_picture"))
    wanted = [outcome(native("mote_picture", it["words"], it["input"].encode())) for it in given]
    assert differing(told, wanted, given) == []
    assert {status for status, _, _ in told} >= {0, 2}


@of_each_part
def test_scenarios(mote_page: Opened, part: int, tmp_path: Path) -> None:
    """Scenario files with rows, lists and quotes come out as by the native program; so does what is malformed, and what is no UTF-8."""
    maker = Maker(201 + part)
    # A comment in any letters comes first: the program looks at UTF-8 in blocks, with instructions that are rewritten for the page.
    files = [b"# " + maker.text(maker.random.randint(0, 200)) + b"\n" + maker.scenario().encode() for _ in range(SCENARIOS)]
    given: list[dict[str, Any]] = [{"words": [*(["--json"] if place % 10 == 0 else []), "run"], "input": "",
                                    "file": base64.b64encode(file).decode()} for place, file in enumerate(files)]
    told = mote_page.ask(with_cases(PROGRAM_RUNS, given, "scenario"))
    wanted = []
    for it, file in zip(given, files):
        (tmp_path / "run").write_bytes(file)
        wanted.append(outcome(native("scenario", it["words"], b"", tmp_path)))
    assert differing(told, wanted, given) == []
    assert {status for status, _, _ in told} == {0, 2} and any("not text" in errors for _, _, errors in told)


@of_each_part
def test_networks(mote_page: Opened, part: int) -> None:
    """Random networks come out as by the native program, of all motes, of one, and quiet; so does a mote that there isn't."""
    scripts = [drawn_network(FIRST_NETWORK + PARTS * place + part).script() for place in range(NETWORKS)]
    options: list[list[str]] = [[], ["--only", "2"], ["--quiet"], ["--only", "1", "--quiet"], [], ["--only", "12"]]
    given: list[dict[str, Any]] = [{"words": options[place % len(options)], "input": it, "file": None} for place, it in enumerate(scripts)]
    told = mote_page.ask(with_cases(PROGRAM_RUNS, given, "network"))
    assert differing(told, [outcome(native("network", it["words"], it["input"].encode())) for it in given], given) == []
    assert {status for status, _, _ in told} >= {0, 64}


@of_each_part
def test_charts(mote_page: Opened, part: int) -> None:
    """Charts and captures of random networks are the native program's; so is what it refuses."""
    options: list[list[str]] = [[], ["--from", "3", "--to", "20"], ["--pcap"], [], ["--from", "9", "--to", "3"]]
    given: list[dict[str, Any]] = []
    for place in range(NETWORKS):
        text = drawn_network(FIRST_NETWORK + PARTS * place + part).script()
        transcript = native("network", [], text.encode()).stdout.decode()
        given.append({"words": options[place % len(options)], "file": None,
                      "input": text * (place % 3 > 0) + transcript + "nonsense\n" * (place % 20 == 0)})
    told = mote_page.ask(with_cases(PROGRAM_RUNS, given, "network_picture"))
    assert differing(told, [outcome(native("network_picture", it["words"], it["input"].encode())) for it in given], given) == []
    assert {status for status, _, _ in told} >= {0, 2, 64}


def test_malformed_networks(mote_page: Opened) -> None:
    """The page has a reason at the line that the native program finds malformed, whatever stands above and below it."""
    drawn = random.Random(400)
    scripts = ["mote 1 relay\n" + "".join(f"{drawn.choice(LINES)}\n" for _ in range(drawn.randint(1, 5))) for _ in range(200)]
    told = mote_page.ask(PROGRAM_CLASS + with_cases(script("network_faults"), scripts))
    wanted: list[Any] = []
    for it in scripts:
        ran = native("network", [], it.encode())
        wanted.append(["network", int(ran.stdout.split()[-1]), True] if ran.returncode == 2 else None)
    assert differing(told, wanted, scripts) == [] and None in wanted


def test_worked_networks(mote_page: Opened) -> None:
    given: list[dict[str, Any]] = [{"words": it.words.decode().split(), "input": it.text("stdin").decode(), "file": None} for it in WORKED]
    wanted = [[it.status, hashlib.sha256(it.text("stdout")).hexdigest(), ""] for it in WORKED]
    assert differing(mote_page.ask(with_cases(PROGRAM_RUNS, given, "network")), wanted, WORKED) == []


def test_examples_of_the_repository(mote_page: Opened) -> None:
    folder = ROOT / "examples"
    names = sorted(it.stem for it in folder.glob("*.script"))
    cases = [{"configuration": {"mmem": 4096, "heap": 4096, "header": 16, "quota": None, "quiet": False}, "applications": name,
              "script": base64.b64encode((folder / f"{name}.script").read_bytes()).decode()} for name in names]
    told = mote_page.ask(with_cases(LIBRARY_RUNS, cases))
    assert names == sorted(OF_MOTE)
    assert [base64.b64decode(it["transcript"]).decode() for it in told] == [(folder / f"{name}.transcript").read_text() for name in names]


def test_memory_refused(mote_page: Opened) -> None:
    """Where memory is refused, the library and the programs say so, and later runs are right."""
    told = mote_page.ask(PROGRAM_CLASS + script("memory_refused"))
    assert len(set(told["usuals"])) == 1 and told["usuals"][0].startswith("4 synch 129 - -> timer-set 0 10\n") and told["motes"] > 1
    run, mote, *programs = told["told"]
    assert run in ("OUT_OF_MEMORY", "OutOfMemory") and mote == "OUT_OF_MEMORY"
    # The page's own bytes, or the program's.
    assert all(it == "OutOfMemory" or it.startswith("70 ") and "out of memory" in it for it in programs), programs
