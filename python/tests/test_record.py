"""Records of runs: worked ones, cut ones, malformed ones."""
import pickle
import shutil
import subprocess

import pytest
from common import ROOT

from toarmuts import BadRecord, BadSizes, Mote, Options, Print, Record, RecordCheck, Script, TimerSet, Wait, WrongType, read_record

LIBRARIES = [ROOT / "crates/toarmuts/out" / name for name in ("libtoarmuts.a", "unproved/libtoarmuts.a")]
HEAD = "# record 1 sources 46b1f23ef0167e85 second 100 mmem 64 heap 128 header 8 quota 16 node 258 long 4 pointer 8\n"
BODY = """# check 3 00c20a2b
tick 10
# value 4294967295
# value 0
# check 7 ffffffff
serial 68690A
frame 0a0b
# radio: 3 bytes lost
tick 0
#
# contiki: NULL
"""


def test_each_part():
    record = Record.of(HEAD + BODY)
    assert (record.sources, record.second, record.node, record.long_bytes, record.pointer_bytes) == ("46b1f23ef0167e85", 100, 258, 4, 8)
    assert record.options == Options(mmem=64, heap=128, header=8, quota=16) and record.values == (4294967295, 0)
    assert record.script == Script(["tick 10", "serial 68690A", "frame 0a0b", "tick 0"]) and record.script.clock == 10
    assert record.checks == (RecordCheck(0, 3, 0xc20a2b), RecordCheck(1, 7, 0xffffffff))
    assert record.notes == ("radio: 3 bytes lost", "", "contiki: NULL") and record.next_run is None
    assert Record.of((HEAD + BODY).encode()) == record == pickle.loads(pickle.dumps(record))


def test_spaces_of_a_comment():
    """One space after `#` isn't part of it; all others are."""
    assert Record.of(HEAD + "#  two \n#none\n# a\tb\t\n").notes == (" two ", "none", "a\tb\t")


def test_no_quota_and_no_node():
    record = Record.of(HEAD.replace("quota 16 node 258", "quota 0 node 0"))
    assert (record.options.quota, record.node, len(record.script), record.checks) == (None, None, 0, ())


def test_a_file(tmp_path):
    (tmp_path / "a.record").write_text(HEAD + BODY)
    assert read_record(tmp_path / "a.record") == read_record(str(tmp_path / "a.record")) == Record.of(HEAD + BODY)
    with pytest.raises(FileNotFoundError):
        read_record(tmp_path / "none")


def test_a_record_that_is_cut_is_a_prefix():
    """Wherever it is cut: the parts of all whole lines."""
    whole = Record.of(HEAD + BODY)
    for end in range(len(BODY) + 1):
        record, lines = Record.of(HEAD + BODY[:end]), BODY[:end].count("\n")
        inputs = [line for line in BODY.split("\n")[:lines] if line and not line.startswith("#")]
        assert list(record.script) == inputs and record.options == whole.options
        for part in ("values", "checks", "notes"):
            assert getattr(whole, part)[:len(getattr(record, part))] == getattr(record, part)
    for end in range(len(HEAD)):
        with pytest.raises(BadRecord, match="line 1 of the record: this is no record"):
            Record.of(HEAD[:end])


def test_a_board_that_begins_anew():
    record = Record.of(HEAD + "tick 5\n" + HEAD + "tick 7\n")
    assert record.script == Script(["tick 5"]) and record.next_run == 3


def test_a_board_that_begins_anew_within_a_line():
    """A board that loses its power leaves a part of a line, on which the next record begins; of the first line that one is read."""
    whole, lines = Record.of(HEAD + BODY), (HEAD + BODY).splitlines()
    for end in range(1, len(HEAD + BODY)):
        number = (HEAD + BODY)[:end].count("\n") + 1
        record = Record.of((HEAD + BODY)[:end] + HEAD + "tick 7\n")
        inputs = [line for line in lines[1:number - 1] if not line.startswith("#")]
        assert (list(record.script), record.next_run) == ((inputs, number) if number > 1 else (["tick 7"], None))
        assert record.values == whole.values[:len(record.values)] and record.checks == whole.checks[:len(record.checks)]


def test_a_record_that_ends_within_a_line():
    """A board whose port is too slow ends its record with a line that says so, even within another one."""
    for end in range(len(HEAD), len(HEAD + BODY)):
        record, cut = Record.of((HEAD + BODY)[:end] + "# the record ends here: the port is too slow\n"), Record.of((HEAD + BODY)[:end])
        assert (record.script, record.values, record.checks) == (cut.script, cut.values, cut.checks)
        assert record.notes == (*cut.notes, "the record ends here: the port is too slow")


@pytest.mark.parametrize("line", ["tick 010", "tick 4294967296", "tick", "serial 0", "serial", "frame " + "00" * 128, " tick 1", "hello",
                                  "# check 1", "# check 1 00c20a2", "# check 01 00c20a2b", "# check 1 00C20A2B", "# value ", "# value -1",
                                  "# value 01", "# value x", "", "tick 1\r"])
def test_malformed_lines(line):
    with pytest.raises(BadRecord, match="line 3 of the record: it is malformed: ") as raised:
        Record.of(f"{HEAD}tick 1\n{line}\ntick 2\n")
    assert raised.value.line == 3 and pickle.loads(pickle.dumps(raised.value)).line == 3 and isinstance(raised.value, ValueError)


@pytest.mark.parametrize("number, text", [(1, HEAD.replace("mmem 64", "mmem 4294967296")), (2, HEAD + "# value 4294967296\n")])
def test_large_numbers(number, text):
    with pytest.raises(BadRecord, match=f"line {number} of the record: 4294967296 is too large; at most 4,294,967,295 is allowed"):
        Record.of(text)


def test_the_largest_number_of_a_mote():
    assert Record.of(HEAD.replace("node 258", "node 65535")).node == 65535
    with pytest.raises(BadRecord, match="line 1 of the record: 65536 is too large; at most 65,535 is allowed"):
        Record.of(HEAD.replace("node 258", "node 65536"))


@pytest.mark.parametrize("head", ["", "\n", "tick 5\n", HEAD.replace("record 1", "record 2"), HEAD.replace(" node 258", ""),
                                  HEAD.replace("46b1", "46B1"), HEAD.replace("\n", " \n"), "\ufeff" + HEAD])
def test_no_record(head):
    with pytest.raises(BadRecord, match="line 1 of the record: this is no record: it doesn't begin with `# record 1 sources ..`"):
        Record.of(head)


def test_wrong_types():
    with pytest.raises(WrongType, match="a record must be a str or bytes, not list"):
        Record.of([HEAD])


def test_bytes_that_are_no_text():
    with pytest.raises(BadRecord, match="line 2 of the record: it is malformed"):
        Record.of(HEAD.encode() + b"tick \xff\n")
    assert Record.of(HEAD.encode() + b"# \xff\n").notes == ("\\xff",)


def test_runs():
    """As of any script: the mote's own applications and those in Python, with the record's sizes."""
    record = Record.of(HEAD + BODY)

    def beat():
        yield TimerSet(0, 10)
        yield Wait()
        yield Print(b"beat")

    run = record.run(["blink", beat, "echo"], check=True)
    assert run.printed(4) == b"on\n" and run.printed(5) == b"beat" and run.printed(6) == b"hi" and run.options == record.options
    mote = Mote(["blink", beat, "echo"], options=record.options)
    mote.run(record.script)
    assert run.text == str(mote.transcript)
    with pytest.raises(BadSizes):
        Record.of(HEAD.replace("mmem 64", "mmem 63")).run(["blink"])


def test_the_record_of_the_example():
    """Its inputs are those of a board's terminal: two lines, which the shell receives."""
    record = read_record(ROOT / "examples/contiki/shell.record")
    assert list(record.script) == ["tick 294", "serial " + b"help\n".hex(), "tick 125", "serial " + b"status\n".hex()]
    assert (record.options, record.node, record.values, record.pointer_bytes) == (Options(), None, (), 4)
    assert [check.inputs for check in record.checks] == [0, 1, 2, 3, 4]


def test_a_record_of_a_run_here(tmp_path):
    """`./contiki --record` writes what is read: the script's inputs, and at each rest the number of lines of the transcript."""
    if shutil.which("gcc") is None or not any(library.exists() for library in LIBRARIES):
        pytest.skip("not here: gcc, or the library of ./prove toarmuts")
    script, written = "tick 10\nserial 68656c700a\nframe 0a\n", tmp_path / "run.record"
    words = [ROOT / "contiki", "--mmem", "2048", "--record", written, ROOT / "examples/contiki/shell.c"]
    ran = subprocess.run(words, input=script.encode(), capture_output=True, check=True, timeout=500)
    record = read_record(written)
    assert str(record.script) == script and record.options == Options(mmem=2048)
    assert [check.inputs for check in record.checks] == [0, 1, 2, 3] and record.checks[-1].lines == ran.stdout.count(b"\n")
