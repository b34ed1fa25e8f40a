"""./prove and scripts/for-aarch64 on a small tree of crates, with stand-ins: what they prove in which order, report, store and leave."""

from __future__ import annotations

import fcntl
import os
import shutil
import signal
import subprocess
import threading
import time
from pathlib import Path

import pytest

from schedule import Schedule, most_jobs, read_seconds
from small_tree import WITHOUT_RT, Tree, wait_until
from sources import Sources
from tools import needs, output_of, run, write_program

ALL = ["low", "high", "beside", "mote"]
OF_OTHERS = "c 10  # beside others\nd 10\nb 100\n"


def test_prove(tree: Tree) -> None:
    """The program is proved, crates with the longest way first; what is proved already isn't proved again, but by another kit."""
    assert tree.run("prove").returncode == 0, tree.stderr
    assert tree.begun() == ALL and ", 1 of 4 crates are left, proving mote (0:00)" in tree.stderr
    assert tree.is_clean()
    tree.run("prove")
    assert tree.begun() == ALL
    stamp = tree.crate("mote") / "out/mote.stamp"
    stamp.touch()
    tree.run("prove", KIT="another stub")
    assert tree.begun() == ALL * 2 and not stamp.exists()


# What is begun at once, each as name:jobs:niceness. Crates are each name:the crates below it; their seconds are in the form of
# scripts/prove-times.
@pytest.mark.parametrize(("begun", "most", "crates", "seconds"), [
    pytest.param("b:2:0 a:1:2", 4, "a b c:a d:b,c", f"{OF_OTHERS}a 10", id="far-off-the-longest-way"),
    pytest.param("b:2:0 a:2:1", 4, "a b c:a d:b,c", f"{OF_OTHERS}a 50", id="near-the-longest-way"),
    pytest.param("b:2:0 a:1:1", 4, "a b c:a d:b,c", f"{OF_OTHERS}a 45", id="off-by-its-own-time"),
    pytest.param("a:2:0 b:2:0", 4, "a b c:a d:b,c", f"{OF_OTHERS}a 90", id="two-longest-ways"),
    pytest.param("b:1:0", 1, "a b c:a d:b,c", f"{OF_OTHERS}a 10", id="one-job-at-most"),
    pytest.param("b:2:0 a:2:1", 3, "a b c:a d:b,c", f"{OF_OTHERS}a 50", id="three-jobs-at-most"),
    pytest.param("b:2:0 a:1:10", 4, "a b c:a d:b,c", "c 10\nd 10\nb 1000\na 10", id="no-nicer-than-ten"),
    pytest.param("a:2:0 b:2:1", 4, "a b short:a long:a d:short,long,b", "a 10\nb 60\nshort 10\nlong 100\nd 10",
                 id="the-longer-of-two-ways"),
    pytest.param("a:2:0 b:2:0 c:2:0", 4, "a b c d e:a,b,c,d", "a 100\nb 100\nc 100\nd 100\ne 10", id="half-as-many-again"),
    pytest.param("b:2:0 a:2:0", 4, "a b c:a,b", "a 50\nc 10", id="a-minute-where-no-time-is-known"),
])
def test_order_and_jobs(begun: str, most: int, crates: str, seconds: str) -> None:
    """Which crates begin at once, and what each gets."""
    words = (word.partition(":") for word in crates.split())
    schedule = Schedule({name: lower.split(",") if lower else [] for name, _, lower in words}, read_seconds(seconds), most)
    assert " ".join(f"{it.name}:{it.jobs}:{it.niceness}" for it in schedule.begin()) == begun


def test_sources_of_the_same_moment(tree: Tree) -> None:
    """A source whose time is the moment itself may have been written after it."""
    tree.edit("low")
    now = tree.source("low").lstat().st_ctime_ns
    assert [Sources(tree.root).are_older_than(when) for when in (now, now + 1)] == [False, True]


def test_twice_the_most_jobs() -> None:
    """Crates off the longest way that began before don't delay those on it, up to twice the most jobs in all."""
    below: dict[str, list[str]] = {"x": [], "y": ["x"], "z": ["x"], "w": ["x"], **{f"s{i}": [] for i in range(4)}}
    schedule = Schedule({**below, "d": list(below)}, {"s0": 10, "s1": 10, "s2": 10, "s3": 10}, 4)
    assert [it.name for it in schedule.begin()] == ["x", "s0", "s1", "s2", "s3"]
    schedule.ended("x")
    assert [(it.name, it.jobs) for it in schedule.begin()] == [("w", 2), ("y", 2)]


@pytest.mark.parametrize(("wish", "memory", "jobs"), [("3", 1, 3), ("0", 1, None), ("", 1, None), ("", 1 << 50, 1)],
                         ids=["RT_JOBS", "no-number", "a-job-each-processor", "little-memory"])
def test_most_jobs(monkeypatch: pytest.MonkeyPatch, wish: str, memory: int, jobs: int | None) -> None:
    """RT_JOBS, or a job for each processor that has so much memory; at least one."""
    monkeypatch.setenv("RT_JOBS", wish)
    assert most_jobs(memory) == (jobs if jobs is not None else len(os.sched_getaffinity(0)))


def test_jobs_that_memory_allows(monkeypatch: pytest.MonkeyPatch) -> None:
    """With eight processors and 700 kB that are free."""
    monkeypatch.delenv("RT_JOBS", raising=False)
    monkeypatch.setattr(os, "sched_getaffinity", lambda _: set(range(8)))
    monkeypatch.setattr(Path, "read_text", lambda *_, **__: "MemTotal: 9000 kB\nMemAvailable:   700 kB\n")
    assert [most_jobs(memory) for memory in (50, 100, 350, 351, 701)] == [8, 7, 2, 1, 1]


def test_what_is_under_way_is_told(tree: Tree) -> None:
    """The running checks are reported at each pause, and at the end nothing is nice."""
    tree.shell("sed -i 's/high 40/high 400/' scripts/prove-times")
    tree.run("prove", "--tell", "0.3", RT_JOBS="4", PAUSE="3", LONG="beside")
    assert tree.ran.returncode == 0 and tree.stderr.count("2 of 4 crates are left, proving beside (0:0") >= 2, tree.stderr
    niceness = tree.began.with_name("begun.beside").read_text(encoding="utf-8").strip()
    assert niceness == str(os.nice(0)) and tree.is_clean()


# ---- What fails ----

@pytest.mark.parametrize("is_at_end", [False, True])
def test_full_disk(proved_tree: Tree, is_at_end: bool) -> None:
    """Of a crate that fails, as on a full disk, while it is proved or as its program is put in its place, the program of before and what
    was kept stay."""
    tree = proved_tree
    before = tree.program.read_bytes()
    tree.edit("high")
    if is_at_end:
        tree.program.with_name("mote.new").symlink_to("/dev/full")
    assert tree.run("prove", FAILS="" if is_at_end else "mote").returncode == 1
    assert is_at_end or "no space left on device" in tree.stderr and "prove: mote isn't proved and built" in tree.stderr
    assert tree.program.read_bytes() == before and tree.is_clean() and not list(tree.program.parent.glob("*.new"))
    tree.take_back("high")
    assert tree.runs_proved()


def test_tree_that_cannot_be_written(tree: Tree) -> None:
    """A folder in the lock's place stands for such a tree."""
    (tree.root / ".git/rt-ci.lock").mkdir()
    tree.run("prove")
    assert (tree.ran.returncode, tree.stderr) == (1, tree.cannot_be_written)


def test_no_repository(tree: Tree) -> None:
    """A tree that is no repository is proved in the folder for temporary files."""
    shutil.rmtree(tree.root / ".git")
    temporary = tree.room / "temporary"
    temporary.mkdir()
    assert tree.run("prove", RT_JOBS="0", TMPDIR=str(temporary)).returncode == 0, tree.stderr
    left = [*tree.root.glob("prove*"), *temporary.iterdir()]
    assert [path for path in left if path.suffix != ".lock"] == [tree.root / "prove"]
    words = tree.began.with_name("begun.words").read_text(encoding="utf-8").split()
    assert int(words[words.index("--jobs") + 1]) >= 1
    assert tree.runs_proved()


# ---- Interrupts ----

@pytest.mark.parametrize("number", [signal.SIGINT, signal.SIGTERM, signal.SIGHUP], ids=["INT", "TERM", "HUP"])
def test_interrupt(tree: Tree, number: signal.Signals) -> None:
    """An interrupt of the whole group, again and again, and an end of the script alone: what was kept stays, and the next one goes on."""
    kept = tree.crate("low") / "out/incremental/kept"
    kept.parent.mkdir(parents=True)
    kept.write_text("before\n", encoding="utf-8")
    started = tree.begin_to_prove(PAUSE="300")
    begun = time.monotonic()
    (os.killpg if number == signal.SIGINT else os.kill)(started.pid, number)
    while number == signal.SIGINT and started.poll() is None:
        started.send_signal(number)
        time.sleep(0.01)
    assert tree.end(started).returncode == 128 + number and time.monotonic() - begun < 120
    assert tree.is_clean() and tree.kept("low") == ["before", "low"]
    assert tree.run("prove").returncode == 0


def test_hangup_below_nohup(tree: Tree) -> None:
    command = ["env", "--ignore-signal=HUP", str(tree.root / "prove")]
    environment = {**os.environ, **tree.settings(PAUSE="0.2")}
    with subprocess.Popen(command, stderr=subprocess.DEVNULL, stdout=subprocess.DEVNULL, env=environment) as started:
        wait_until(lambda: tree.begun() != [])
        started.send_signal(signal.SIGHUP)
    assert started.returncode == 0


def test_script_ended_by_force(tree: Tree) -> None:
    """Where the script alone is ended by force, what it began goes on, and the next one waits for that."""
    started = tree.begin_to_prove(PAUSE="4")
    started.kill()
    started.wait()
    tree.run("prove")
    assert tree.ran.returncode == 0 and "waiting until it has ended" in tree.stderr
    assert tree.is_clean() and tree.kept("low") == ["low", "low"]


def test_all_ended_by_force(tree: Tree) -> None:
    """Where all is ended by force, a room is left, and the next ./prove finds what was kept. The gate's proofs don't enter it."""
    started = tree.begin_to_prove(PAUSE="30")
    os.killpg(started.pid, signal.SIGKILL)
    started.wait()
    assert (tree.root / ".git/prove").exists()
    if shutil.which("rt"):
        ran = run("timeout", "60", "rt", "ci", cwd=tree.root)
        assert b"low NOT PROVED" in ran.stdout, output_of(ran)
        assert not any(words in ran.stdout + ran.stderr for words in (b"no check reads", b"remove")), output_of(ran)
    assert tree.run("prove").returncode == 0, tree.stderr
    assert tree.is_clean() and tree.kept("low") == ["low", "low"]


# ---- What is done meanwhile ----

def test_edited_meanwhile(tree: Tree) -> None:
    """A file that is edited while it is proved counts as newer."""
    started = tree.begin_to_prove(PAUSE="3", LONG="low")
    tree.edit("low")
    tree.end(started)
    assert tree.runs_unproved()
    tree.take_back("low")
    assert tree.runs_proved()


def test_kept_anew_meanwhile(tree: Tree) -> None:
    started = tree.begin_to_prove(PAUSE="5", LONG="low")
    kept = tree.crate("low") / "out/incremental"
    kept.mkdir(parents=True)
    (kept / "kept").write_text("anew\n", encoding="utf-8")
    tree.end(started)
    assert tree.kept("low") == ["anew"] and [path.name for path in kept.iterdir()] == ["kept"]


def test_no_way_back(tree: Tree) -> None:
    """Work that can't be restored is left for the next one."""
    started = tree.begin_to_prove(PAUSE="5", LONG="low")
    (tree.crate("low") / "out").touch()
    assert tree.end(started).returncode == 1
    (tree.crate("low") / "out").unlink()
    assert tree.run("prove").returncode == 0, tree.stderr
    assert tree.kept("low") == ["low", "low"] and tree.is_clean()


@pytest.mark.parametrize(("command", "place", "begun"), [
    ("./prove", "crates/low", ALL), ("scripts/for-aarch64 toarmuts", ".git/rt-ci.lock", ["toarmuts"])])
def test_another_rt(tree: Tree, command: str, place: str, begun: list[str]) -> None:
    """A crate in which another rt works is waited for, and so is another ./prove or `rt ci`."""
    assert tree.run("prove", "toarmuts").returncode == 0, tree.stderr
    held = os.open(tree.root / place, os.O_RDONLY)
    fcntl.flock(held, fcntl.LOCK_EX)

    def work() -> None:
        tree.began.write_text("other\n", encoding="utf-8")
        os.close(held)
    working = threading.Timer(1, work)
    working.start()
    tree.shell(command)
    working.join()
    assert tree.ran.returncode == 0 and tree.begun() == ["other", *begun], tree.stderr


def test_two_at_once(tree: Tree) -> None:
    started = tree.begin_to_prove(PAUSE="1")
    second = tree.run("prove")
    assert second.returncode == 0 and b"waiting until it has ended" in second.stderr
    assert tree.end(started).returncode == 0 and tree.begun() == ALL


# ---- Other programs, and libraries ----

def is_current(tree: Tree, *names: str) -> bool:
    return tree.run("prove", "--is-current", *names).returncode == 0


def test_product_without_its_mark(proved_tree: Tree) -> None:
    """What has no mark, as while it is replaced, isn't current, and no fault."""
    assert is_current(proved_tree, "mote")
    for name in ("proved", "mote"):
        (proved_tree.crate("mote") / "out" / name).unlink()
        assert not is_current(proved_tree, "mote") and (proved_tree.ran.returncode, proved_tree.stderr) == (1, "")


def test_other_programs(tree: Tree) -> None:
    assert tree.run("prove", "scenario").returncode == 0 and tree.begun() == ["low", "scenario"] and tree.is_clean()
    tree.run("scenario", "--write", "a.runs")
    assert tree.is_proved("--write", "a.runs")
    assert is_current(tree, "scenario") and not is_current(tree)
    tree.run("prove", "mote", "scenario")
    assert tree.ran.returncode == 0 and "crates/mote/out/mote" in tree.stderr and "crates/scenario/out/scenario" in tree.stderr
    assert tree.runs_proved()
    tree.edit("high")
    assert tree.runs_proved("scenario")


@pytest.mark.parametrize("word", ["nothing", "mote/", "./mote", "low", "high", "crates/mote", ""])
def test_no_such_program(tree: Tree, word: str) -> None:
    tree.run("prove", word)
    assert (tree.ran.returncode, tree.stderr) == (
        64, f"prove: {word} is no program of this repository, and no library for C; these are: mote, scenario, toarmuts, modules_c\n")


@pytest.mark.parametrize("pause", ["0", "-1", "nan", "inf", "soon"])
def test_no_such_pause(tree: Tree, pause: str) -> None:
    tree.run("prove", f"--tell={pause}")
    assert tree.ran.returncode == 2 and f"prove: error: argument --tell: invalid seconds value: '{pause}'" in tree.stderr


@pytest.mark.parametrize(("pause", "is_one"), [("0.09", False), ("0.1", True), ("86400", True), ("86401", False)])
def test_shortest_and_longest_pause(tree: Tree, pause: str, is_one: bool) -> None:
    tree.run("prove", f"--tell={pause}", "--is-current")
    assert tree.ran.returncode == (1 if is_one else 2)


def test_libraries(tree: Tree) -> None:
    assert tree.run("prove", "toarmuts", LATE="toarmuts").returncode == 1
    assert tree.run("prove", "toarmuts", "modules-c").returncode == 0 and tree.is_clean()
    for name in ("toarmuts", "modules_c"):
        assert f"the library is proved and built: crates/{name}/out/lib{name}.a" in tree.stderr
    out = tree.crate("toarmuts") / "out"
    assert "toarmuts" in (out / "libtoarmuts.a").read_text(encoding="utf-8")
    # By its time make sees that it is new.
    assert (out / "libtoarmuts.a").stat().st_mtime_ns > (out / "proved").stat().st_mtime_ns
    assert is_current(tree, "toarmuts")
    tree.edit("low")
    assert not is_current(tree, "toarmuts") and is_current(tree, "modules_c")


def for_aarch64(tree: Tree, **settings: str) -> tuple[int, list[str]]:
    """The status of scripts/for-aarch64, and what was begun; the library for this processor is back in the end."""
    library = tree.crate("toarmuts") / "out/libtoarmuts.a"
    before = library.read_bytes()
    tree.began.unlink(missing_ok=True)
    status = tree.run("scripts/for-aarch64", "toarmuts", stdin=b"", cwd=None, **settings).returncode
    assert library.read_bytes() == before and not list(library.parent.glob("*.here"))
    return status, tree.begun()


def test_for_aarch64(tree: Tree) -> None:
    """The library is built for aarch64 once for each that is proved, and by each kit."""
    out = tree.crate("toarmuts") / "out"
    assert tree.run("prove", "toarmuts").returncode == 0, tree.stderr
    assert for_aarch64(tree) == (0, ["toarmuts"]), tree.stderr
    assert (out / "aarch64/libtoarmuts.a").read_bytes() == (out / "libtoarmuts.a").read_bytes()
    assert for_aarch64(tree) == (0, [])
    tree.shell("echo more >>crates/toarmuts/out/aarch64/libtoarmuts.a")
    assert for_aarch64(tree) == (0, ["toarmuts"])
    tree.shell("sed -i '3s/.*/another kit/' crates/toarmuts/out/aarch64/proved")
    assert for_aarch64(tree) == (0, ["toarmuts"])


def test_for_aarch64_fails(tree: Tree) -> None:
    """What fails leaves the library for this processor, and none for the other."""
    assert tree.run("prove", "toarmuts").returncode == 0, tree.stderr
    assert for_aarch64(tree, FAILS="toarmuts") == (1, ["toarmuts"])
    assert "for-aarch64: toarmuts isn't proved and built for aarch64" in tree.stderr
    assert not (tree.crate("toarmuts") / "out/aarch64/libtoarmuts.a").exists()
    write_program(tree.bin / "cp", '#!/bin/bash\necho part >"${!#}"\nexit 1\n')
    assert for_aarch64(tree) == (1, [])
    (tree.bin / "cp").unlink()
    tree.edit("low")
    assert for_aarch64(tree) == (1, [])
    assert "for-aarch64: toarmuts isn't proved, or older than its sources: ./prove toarmuts" in tree.stderr


@needs("make")
def test_make(tree: Tree) -> None:
    """A Makefile of the examples proves and builds the library where it isn't current, and builds the example where that is newer."""
    blink = tree.root / "examples/c/blink"
    make = "make -s -C examples/c blink CC=cc"
    assert tree.shell(make).returncode == 0 and b"fn" in blink.read_bytes(), tree.stderr
    before = blink.stat().st_mtime_ns
    tree.shell(make)
    assert blink.stat().st_mtime_ns == before and tree.stderr == ""
    tree.edit("toarmuts", "// for c\n")
    tree.shell(make)
    assert b"for c" in blink.read_bytes()
    tree.edit("toarmuts")
    tree.shell(make, PATH=WITHOUT_RT)
    assert "there is no rt" in tree.stderr
