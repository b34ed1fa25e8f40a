"""Records of runs and their replays on Linux, and what boards have in place of the C library: formats, random numbers, qsort.

tests/test_firmware_boards.py has the boards.
"""

import re
import subprocess
from pathlib import Path

import pytest

from contiki_programs import BLINKER, STRICT, Contiki, messages, outcome, script_of, transcript_of
from tools import EXAMPLES, ROOT, SANITIZERS, Completed, Word, all_hold, output_of, run, succeed

HERE = ROOT / "tests/c/firmware"
BOARD = ROOT / "c/contiki/src/board"
THERMO = HERE / "thermo.c"
SECONDS = b"tick 128\ntick 300\nserial 680a\ntick 128\n"
CONTIKI = EXAMPLES / "contiki"
PROGRAMS = sorted(CONTIKI.glob("*.c"))


@pytest.mark.parametrize("count,options", [(1_000_000, ("-O2",)), (100_000, ("-O1", *SANITIZERS))])
def test_formats(tmp_path: Path, count: int, options: tuple[str, ...]) -> None:
    """Random formats of C11 give the text of this machine's C library."""
    succeed("gcc", *STRICT[:3], "-Werror", *options, f"-I{BOARD}", "-Wno-format-nonliteral", "-Wno-format", "-Wno-format-truncation",
            HERE / "formats.c", BOARD / "format.c", BOARD / "floats.c", "-o", tmp_path / "formats")
    all_hold(run(tmp_path / "formats", count))


def test_random_numbers(tmp_path: Path) -> None:
    """The numbers of rand are those of this machine's C library, for each seed."""
    succeed("gcc", *STRICT[1:], *(f"-D{name}=own_{name}" for name in ("rand", "srand", "random", "srandom")), "-c", BOARD / "random.c",
            "-o", tmp_path / "own.o")
    succeed("gcc", *STRICT, HERE / "random.c", tmp_path / "own.o", "-o", tmp_path / "random")
    all_hold(run(tmp_path / "random"))


def test_sort(tmp_path: Path) -> None:
    """qsort makes the order of this machine's C library by the same comparisons, so a program's run is the same."""
    # The address sanitizer's qsort makes comparisons of its own.
    succeed("gcc", *STRICT, "-O1", "-Dqsort=own_qsort", "-Dmalloc=own_malloc", "-c", BOARD / "sort.c", "-o", tmp_path / "own.o")
    succeed("gcc", *STRICT, "-O1", f"-I{ROOT}/tests/c", HERE / "sort.c", tmp_path / "own.o", "-o", tmp_path / "sort")
    all_hold(run(tmp_path / "sort"))


def recorded(contiki: Contiki, place: Path, source: Path, script: bytes, *words: str) -> tuple[Completed, bytes]:
    """A run with a record, and the record."""
    ran = contiki("--record", place, *words, source, stdin=script)
    assert (ran.returncode, ran.stderr) == (0, b""), output_of(ran)
    return ran, place.read_bytes()


def replayed(contiki: Contiki, place: Path, source: Path, record: bytes, *words: str) -> Completed:
    place.write_bytes(record)
    return contiki("--replay", place, *words, source)


@pytest.mark.parametrize("source", PROGRAMS, ids=lambda source: str(source.stem))
def test_replay_of_example(contiki: Contiki, tmp_path: Path, source: Path) -> None:
    """A run with a record is the run without one, and its replay is that run once more; the record ends each input with a check."""
    ran, record = recorded(contiki, tmp_path / "record", source, script_of(source))
    assert ran.stdout == transcript_of(source)
    again = replayed(contiki, tmp_path / "record", source, record)
    inputs = len([line for line in script_of(source).splitlines() if line and not line.startswith(b"#")])
    assert (again.returncode, again.stdout) == (0, ran.stdout), output_of(again)
    assert again.stderr.decode() == f"contiki: replayed {inputs} inputs and 0 values; {inputs + 1} checks agree\n"


def test_record_has_what_decides_the_run(contiki: Contiki, tmp_path: Path) -> None:
    """Its first line names the sizes; each input is before its values, and its check."""
    source = HERE / "node.c"
    _, record = recorded(contiki, tmp_path / "record", source, b"# nothing\n\ntick 5\n", "--node", "258", "--heap", "512", "--mmem", "64",
                         "--header", "8", "--quota", "32", "--clock-second", "100")
    head, boot, line, check = record.decode().splitlines()
    assert re.fullmatch("# record 1 sources [0-9a-f]{16} second 100 mmem 64 heap 512 header 8 quota 32 node 258 long 8 pointer 8", head)
    assert re.fullmatch("# check [0-9]+ [0-9a-f]{8}", boot) and line == "tick 5" and check.startswith("# check ")
    assert replayed(contiki, tmp_path / "record", source, record, "--text", "--clock-second", "100").stdout == b"258 0102\n"


def test_values_are_replayed(contiki: Contiki, tmp_path: Path) -> None:
    """Two runs read other values; a replay reads those of the record, with the sanitizers, too."""
    first, record = recorded(contiki, tmp_path / "first", THERMO, SECONDS, "--text")
    second, _ = recorded(contiki, tmp_path / "second", THERMO, SECONDS, "--text")
    assert first.stdout != second.stdout and len(re.findall(rb"^# value ", record, re.M)) == 4
    for words in ["--text"], ["--text", "--sanitize"]:
        again = replayed(contiki, tmp_path / "record", THERMO, record, *words)
        assert (again.returncode, again.stdout) == (0, first.stdout), output_of(again)


def parts_of(record: bytes) -> list[int]:
    """The numbers of the lines that have an input or a value."""
    return [at for at, line in enumerate(record.splitlines()) if not line.startswith(b"#") or line.startswith(b"# value ")]


def test_each_part_counts(contiki: Contiki, tmp_path: Path) -> None:
    """Without one of its inputs or values, or with one of their bytes changed, a record isn't that of its run: the replay says so."""
    _, record = recorded(contiki, tmp_path / "record", THERMO, SECONDS)
    program = tmp_path / "program"
    succeed(ROOT / "contiki", "--library", contiki.library, "--build", program, THERMO)
    lines = record.splitlines(keepends=True)
    changed = [lines[:at] + lines[at + 1:] for at in parts_of(record)]
    for at in parts_of(record):
        digit = lines[at][-2:-1]
        changed.append(lines[:at] + [lines[at][:-2] + (b"1" if digit != b"1" else b"2") + b"\n"] + lines[at + 1:])
    for it in changed:
        ran = run(program, "--replay", stdin=b"".join(it))
        assert ran.returncode == 1 and re.search(rb"contiki: .*line \d+ of the record: ", ran.stderr), (it, output_of(ran))
    assert run(program, "--replay", stdin=record).returncode == 0


def test_cut_record(contiki: Contiki, tmp_path: Path) -> None:
    """A record that is cut anywhere after its first line replays to a prefix of the run."""
    ran, record = recorded(contiki, tmp_path / "record", THERMO, SECONDS)
    program = tmp_path / "program"
    succeed(ROOT / "contiki", "--library", contiki.library, "--build", program, THERMO)
    lengths = set()
    for end in range(record.index(b"\n") + 1, len(record) + 1):
        again = run(program, "--replay", stdin=record[:end])
        assert again.returncode == 0 and ran.stdout.startswith(again.stdout), (end, output_of(again))
        lengths.add(len(again.stdout))
    assert len(lengths) > 4 and max(lengths) == len(ran.stdout)


@pytest.mark.parametrize("words,told_as", [
    (["--record", "first.c", "second.c"], "first.c is there, and no record: --record needs a file of its own"),
    (["--record=first.c", "first.c", "second.c"], "first.c is there, and no record: --record needs a file of its own"),
    (["--record", "notes", "first.c"], "notes is there, and no record: --record needs a file of its own"),
    (["--record", "run.record", "first.c"], "run.record is the script, too: --record needs a file of its own"),
    (["--board", "mps2-an385", "-o", "new", "--run", "--record", "new", "first.c"], "--record new: the record needs a file of its own"),
    (["--build", "first.c", "second.c"], "--build first.c: the program needs a file of its own, that isn't a source"),
    (["--build", "new.h", "first.c"], "--build new.h: the program needs a file of its own, that isn't a source"),
    (["--build", "./first.o", "first.o"], "--build ./first.o: the program needs a file of its own, that isn't a source"),
    (["--board", "mps2-an385", "-o", "first.c", "second.c"], "-o first.c: the image needs a file of its own, that isn't a source"),
    (["--board", "own.c", "-o", "own.ld", "first.c"], "-o own.ld: the image needs a file of its own, that isn't a source"),
    (["--board", "own.c", "--script", "notes", "-o", "notes", "first.c"],
     "-o notes: the image needs a file of its own, that isn't a source"),
])
def test_source_is_not_overwritten(contiki: Contiki, tmp_path: Path, words: list[str], told_as: str) -> None:
    """A record replaces only a record, and nothing replaces what a run is made of."""
    texts = {"first.c": BLINKER.read_text(encoding="utf-8"), "second.c": "int second;\n", "notes": "# records\n", "first.o": "none",
             "own.c": "none", "own.ld": "none", "run.record": "# record of a run\ntick 1\n"}
    for name, text in texts.items():
        (tmp_path / name).write_text(text, encoding="utf-8")
    with (tmp_path / "run.record").open("rb") as script:
        ran = subprocess.run([ROOT / "contiki", "--library", contiki.library, *words], cwd=tmp_path, stdin=script, capture_output=True,
                             check=False)
    assert (ran.returncode, messages(ran.stderr)) == (64, [told_as]), output_of(ran)
    assert {it.name: it.read_text(encoding="utf-8") for it in tmp_path.iterdir()} == texts


@pytest.mark.parametrize("before", ["", "# record 1 sources of a longer run\n" + 9000 * "tick 1\n"])
def test_record_is_replaced(contiki: Contiki, tmp_path: Path, before: str) -> None:
    """An older record, or an empty file, is replaced as a whole."""
    _, fresh = recorded(contiki, tmp_path / "fresh", BLINKER, b"tick 1\n")
    (tmp_path / "record").write_text(before, encoding="utf-8")
    assert recorded(contiki, tmp_path / "record", BLINKER, b"tick 1\n")[1] == fresh


@pytest.mark.parametrize("record,words,status,told_as", [
    (b"tick 5\n", [], 2, "this is no record: it doesn't begin with `# record 1 sources ..`"),
    (b"", [], 2, "this is no record: it doesn't begin with `# record 1 sources ..`"),
    ("as it is", ["--clock-second", "64"], 64, "the record doesn't fit: CLOCK_SECOND is 128 there, 64 in this program"),
    ("as it is", ["--heap", "512"], 64, "the record has the sizes: leave out --heap"),
    ("as it is", ["--node", "3"], 64, "the record has the mote's number: leave out --node"),
    ("as it is", ["--record", "other"], 64, "--replay makes no record: leave out --record"),
    ("as it is", ["--network", THERMO], 64, "--node, --record and --replay are for one mote: leave out --network"),
])
def test_refused_replay(contiki: Contiki, tmp_path: Path, record: bytes | str, words: list[str], status: int, told_as: str) -> None:
    _, whole = recorded(contiki, tmp_path / "record", THERMO, SECONDS)
    ran = replayed(contiki, tmp_path / "record", THERMO, record if isinstance(record, bytes) else whole, *words)
    assert ran.returncode == status and told_as in messages(ran.stderr), output_of(ran)


def test_replay_of_another_program(contiki: Contiki, tmp_path: Path) -> None:
    """A changed source is named; where its run is another one, the replay ends at the first difference."""
    source = tmp_path / "thermo.c"
    _, record = recorded(contiki, tmp_path / "record", THERMO, SECONDS)
    source.write_text(THERMO.read_text(encoding="utf-8").replace("degrees", "kelvins"), encoding="utf-8")
    status, text, error = outcome(replayed(contiki, tmp_path / "record", source, record, "--text"))
    assert status == 1 and text.endswith("kelvins\n") and text.count("\n") == 1
    assert error.startswith("contiki: the record is of other sources: this run may be another one\n"
                            "contiki: line 5 of the record: its run isn't this one (6 ")
    assert error.endswith(": the sources aren't those of the record\n")


def test_copy_of_the_sources(contiki: Contiki, tmp_path: Path) -> None:
    """The sources are known by their content, not by their folder; a header of the program's own and its macros count."""
    header, source = tmp_path / "own.h", tmp_path / "thermo.c"
    source.write_text('#include "own.h"\n' + THERMO.read_text(encoding="utf-8"), encoding="utf-8")
    header.write_text("/* nothing */\n", encoding="utf-8")
    _, record = recorded(contiki, tmp_path / "record", source, b"tick 1\n", "-DSOME=1")
    other = tmp_path / "other"
    other.mkdir()
    for it in header, source:
        (other / it.name).write_bytes(it.read_bytes())
    same = replayed(contiki, tmp_path / "record", other / "thermo.c", record, "-DSOME=1")
    assert messages(same.stderr) == ["replayed 1 inputs and 0 values; 2 checks agree"]
    assert "the record is of other sources" in replayed(contiki, tmp_path / "record", source, record, "-DSOME=2").stderr.decode()
    header.write_text("/* something */\n", encoding="utf-8")
    assert "the record is of other sources" in replayed(contiki, tmp_path / "record", source, record, "-DSOME=1").stderr.decode()


def test_two_runs_in_one_record(contiki: Contiki, tmp_path: Path) -> None:
    """A board that begins anew begins a new record: a replay ends there, and says so."""
    ran, record = recorded(contiki, tmp_path / "record", THERMO, SECONDS)
    again = replayed(contiki, tmp_path / "record", THERMO, record + record)
    assert (again.returncode, again.stdout) == (0, ran.stdout)
    assert messages(again.stderr)[0] == f"another run begins at line {record.count(10) + 1} of the record: replay it from a file of its own"


def test_board_that_begins_anew_within_a_line(contiki: Contiki, tmp_path: Path) -> None:
    """A board that loses its power leaves a part of a line, on which the next record begins."""
    ran, record = recorded(contiki, tmp_path / "record", THERMO, b"tick 200\nserial 680a\n")
    program = tmp_path / "program"
    succeed(ROOT / "contiki", "--library", contiki.library, "--build", program, THERMO)
    for end in range(1, len(record)):
        again = run(program, "--replay", stdin=record[:end] + record)
        number = record[:end].count(10) + 1
        begun = f"another run begins at line {number} of the record: replay it from a file of its own"
        assert again.returncode == 0 and ran.stdout.startswith(again.stdout), (end, output_of(again))
        assert messages(again.stderr)[:-1] == ([begun] if number > 1 else []), (end, output_of(again))


def test_byte_0_in_a_record(contiki: Contiki, tmp_path: Path) -> None:
    """A line doesn't end at a byte 0: what follows it would be lost unnoticed."""
    _, record = recorded(contiki, tmp_path / "record", THERMO, b"tick 1\ntick 2\n")
    ran = replayed(contiki, tmp_path / "record", THERMO, record.replace(b"tick 1\n", b"tick 1\0"))
    assert (ran.returncode, messages(ran.stderr)) == (1, ["line 3 of the record has a byte 0"]), output_of(ran)


@pytest.mark.parametrize("old,new,line,told_as", [
    (b"tick 1\n", b"tick 1\n# " + 1023 * b"x" + b"\n", 4, "is malformed"),
    (b"tick 1\n", b"tick 1" + 1019 * b"0" + b"\n", 3, "is malformed"),
    (b"tick 1\n", b"tick 1" + 5000 * b"0", 3, "is malformed"),
    (b"\n", b"\r\n", 1, "ends with byte 13, as on Windows: save it with line ends of byte 10 alone"),
    (b"tick 2\n", b"tick 2\r\n", 5, "ends with byte 13, as on Windows: save it with line ends of byte 10 alone"),
], ids=["long comment", "long input", "long end", "line ends of Windows", "one such line end"])
def test_malformed_record(contiki: Contiki, tmp_path: Path, old: bytes, new: bytes, line: int, told_as: str) -> None:
    """A line that is too long isn't taken for the end of a record, nor are other line ends."""
    _, record = recorded(contiki, tmp_path / "record", BLINKER, b"tick 1\ntick 2\n")
    ran = replayed(contiki, tmp_path / "record", BLINKER, record.replace(old, new))
    assert (ran.returncode, messages(ran.stderr)) == (1, [f"line {line} of the record {told_as}"]), output_of(ran)


def test_longest_line_of_a_record(contiki: Contiki, tmp_path: Path) -> None:
    """A comment of 1,024 bytes is read; a line of 256 bytes on the serial line is recorded and replayed."""
    script = b"serial " + 255 * b"61" + b"0a\n"
    ran, record = recorded(contiki, tmp_path / "record", CONTIKI / "shell.c", script)
    assert script in record
    again = replayed(contiki, tmp_path / "record", CONTIKI / "shell.c", record + b"#" + 1023 * b"x" + b"\n")
    assert (again.returncode, again.stdout) == (0, ran.stdout), output_of(again)


@pytest.mark.parametrize("more", [b" 0", b"x", b" # check 1 00000000", b"00000000000000000000"])
def test_malformed_value(contiki: Contiki, tmp_path: Path, more: bytes) -> None:
    """All of a value's line counts: otherwise a lost line end would hide the line after it."""
    _, record = recorded(contiki, tmp_path / "record", THERMO, SECONDS)
    value = next(line for line in record.splitlines() if line.startswith(b"# value "))
    number = record[:record.index(value)].count(10) + 1
    ran = replayed(contiki, tmp_path / "record", THERMO, record.replace(value, value + more, 1))
    assert ran.returncode == 1 and messages(ran.stderr)[-1].endswith(f": line {number} of the record is malformed"), output_of(ran)


def test_record_that_ends_within_a_line(contiki: Contiki, tmp_path: Path) -> None:
    """A board whose port is too slow may end its record within a line, which isn't part of the run then."""
    ran, record = recorded(contiki, tmp_path / "record", THERMO, b"tick 200\nserial 680a\n")
    program = tmp_path / "program"
    succeed(ROOT / "contiki", "--library", contiki.library, "--build", program, THERMO)
    for end in range(record.index(b"\n") + 1, len(record)):
        again = run(program, "--replay", stdin=record[:end] + b"# the record ends here: the port is too slow\n")
        assert again.returncode == 0 and ran.stdout.startswith(again.stdout), (end, output_of(again))


def test_long_record(contiki: Contiki, tmp_path: Path) -> None:
    """A record may be longer than a script: that of a board which ran for days replays to its end."""
    ran, record = recorded(contiki, tmp_path / "record", BLINKER, b"tick 200\n")
    head, _, rest = record.partition(b"\n")
    again = replayed(contiki, tmp_path / "record", BLINKER, head + b"\n" + 600_000 * b"# serial line: 12 bytes lost\n" + rest)
    assert (again.returncode, again.stdout) == (0, ran.stdout)
    assert messages(again.stderr) == ["replayed 1 inputs and 0 values; 2 checks agree"]


def test_refused_run_keeps_the_record(contiki: Contiki, tmp_path: Path) -> None:
    """An older record is there until a run begins. A program refuses a record of a replay, as the command does."""
    _, record = recorded(contiki, tmp_path / "record", BLINKER, b"tick 1\n")
    program = tmp_path / "program"
    succeed(ROOT / "contiki", "--library", contiki.library, "--build", program, BLINKER)
    for words, told_as in ((["--heap", "3"], "bad sizes"), (["--replay"], "--replay makes no record: leave out --record")):
        ran = run(program, *words, "--record", tmp_path / "record", stdin=record)
        assert (ran.returncode, messages(ran.stderr)) == (64, [told_as]), output_of(ran)
        assert (tmp_path / "record").read_bytes() == record


def test_record_from_a_pipe(contiki: Contiki, tmp_path: Path) -> None:
    """A record may come from another command, as one that unpacks it."""
    ran, _ = recorded(contiki, tmp_path / "record", BLINKER, b"tick 1\n")
    words: list[Word] = [ROOT / "contiki", "--library", contiki.library, "--replay", "/dev/stdin", BLINKER]
    again = run("bash", "-c", 'cat "$1" | "${@:2}"', "-", tmp_path / "record", *words)
    assert (again.returncode, again.stdout) == (0, ran.stdout), output_of(again)
    folder = run(*words[:3], "--replay", tmp_path, BLINKER)
    assert (folder.returncode, messages(folder.stderr)) == (64, [f"{tmp_path}: no such file"]), output_of(folder)


def test_full_disk(contiki: Contiki, tmp_path: Path) -> None:
    """Where the record can't be written, the run ends, with the transcript so far; the record replays to that."""
    program, record = tmp_path / "program", tmp_path / "record"
    succeed(ROOT / "contiki", "--library", contiki.library, "--build", program, BLINKER)
    ran = run("bash", "-c", 'trap "" XFSZ; ulimit -f 1; exec "$@"', "-", program, "--record", record, stdin=b"tick 100\n" * 100)
    assert (ran.returncode, messages(ran.stderr)) == (6, ["the record can't be written"]) and record.stat().st_size == 1024
    again = run(program, "--replay", record)
    assert again.returncode == 0 and again.stdout.count(b"\n") > 30 and ran.stdout.startswith(again.stdout), output_of(again)


def test_bug_is_found_by_a_replay(contiki: Contiki, tmp_path: Path) -> None:
    """A write after an array goes unnoticed, and only prints odd sums; the replay with the sanitizers names the line."""
    script = b"tick 128\n" + b"".join(b"frame " + b"66" * length + b"\n" for length in range(5, 14)) + b"tick 128\n"
    _, record = recorded(contiki, tmp_path / "record", HERE / "meter.c", script, "--text")
    assert replayed(contiki, tmp_path / "record", HERE / "meter.c", record, "--text").returncode == 0
    found = replayed(contiki, tmp_path / "record", HERE / "meter.c", record, "--text", "--sanitize")
    assert found.returncode == 1 and b"handling PACKET (139)" in found.stderr and b"meter.c:19:" in found.stderr, output_of(found)


def test_record_of_a_board(contiki: Contiki) -> None:
    """The stored record of a board replays: the one that docs/firmware.md shows."""
    ran = contiki("--replay", CONTIKI / "shell.record", "--text", CONTIKI / "shell.c")
    assert outcome(ran) == (0, "help, echo TEXT, count N\nwhat is status?\n", "contiki: replayed 4 inputs and 0 values; 5 checks agree\n")


def test_node(contiki: Contiki) -> None:
    """With a number the program is as in a network: its identifier, its address, and headers of its frames."""
    alone, third = contiki(HERE / "node.c"), contiki("--node", "3", HERE / "node.c")
    for ran, text, frame in (alone, "1 0001\n", "07"), (third, "3 0003\n", "41d801cdabffff" + "0300030003000300" + "07"):
        assert f"print {text.encode().hex()}\n" in ran.stdout.decode() and f"note sent {frame}\n" in ran.stdout.decode()
    for number, told_as in ("65536", "a mote's number is at most 65535"), ("0", "a mote's number is at least 1"):
        ran = contiki("--node", number, HERE / "node.c")
        assert (ran.returncode, messages(ran.stderr)) == (64, [told_as])


def test_value_outside_of_a_process(contiki: Contiki, tmp_path: Path) -> None:
    """Only a process may read a value: a record couldn't say where another one is read."""
    source = tmp_path / "program.c"
    source.write_text('#include "contiki.h"\n#include "dev/value.h"\nPROCESS(only, "Only");\nAUTOSTART_PROCESSES(&only);\n'
                      'static uint32_t read_it(void) { return 1; }\n__attribute__((constructor)) static void begin(void) '
                      '{ value_of(read_it); }\nPROCESS_THREAD(only, ev, data) { PROCESS_BEGIN(); PROCESS_END(); }\n', encoding="utf-8")
    ran = contiki(source)
    assert (ran.returncode, messages(ran.stderr)) == (1, ["value_of is called outside of any process"]), output_of(ran)
