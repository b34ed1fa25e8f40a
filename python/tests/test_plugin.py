"""pytest carries out scenarios."""
import re
import subprocess
import sys

import pytest
from common import ROOT
import toarmuts
from toarmuts import read_scenarios
from toarmuts.scenario import read_file

FAILING = ("== one\napp hello\n4 synch 129 - -> print 68690a\n4 answer done -> exit\n\n"
           "== two\ntick 1\n\n== three\ntick 1\n> tick 1\nends halted\n")


def run_pytest(folder, *words):
    command = [sys.executable, "-m", "pytest", "-p", "no:cacheprovider", *map(str, words)]
    return subprocess.run(command, cwd=folder, capture_output=True, text=True, check=False)


def test_the_difference_is_told(tmp_path):
    (tmp_path / "a.scenario").write_text(FAILING)
    done = run_pytest(tmp_path, "a.scenario")
    assert done.returncode == 1 and "2 failed, 1 skipped" in done.stdout
    for words in ("line 2 of the transcript differs, at clock 0", "wanted:   4 answer done -> exit", "found:    4 answer done -> wait",
                  "process 4: the reply to its call is done; it calls exit", "ended with: finished, and not: halted", "a.scenario: one"):
        assert words in done.stdout, words
    assert "Traceback" not in done.stdout


def test_a_file_of_no_form_is_told(tmp_path):
    (tmp_path / "bad.runs").write_text("== one\ntock 5\n")
    done = run_pytest(tmp_path)
    assert done.returncode == 2 and "bad.runs: line 2: unknown word tock" in done.stdout


def test_byte_13_of_a_script_is_read_and_of_a_file_refused(tmp_path):
    """Neither is taken for a line end of its own."""
    run = toarmuts.run(["hello"], "tick 1\r\n")
    (tmp_path / "a.scenario").write_bytes(run.scenario().encode())
    assert [scenario.carry_out().fault for scenario in read_file(tmp_path / "a.scenario")] == [None]
    assert run_pytest(tmp_path, "a.scenario").returncode == 0
    (tmp_path / "b.scenario").write_bytes(b"app hello\r\n4 synch 129 - -> print 68690a\r\n")
    done = run_pytest(tmp_path, "b.scenario")
    assert done.returncode == 2 and "b.scenario: line 1: the line ends with byte 13, as lines of Windows do" in done.stdout


@pytest.mark.parametrize("line", ["rows", "on INIT: wait", "...", "4 synch INIT - -> wait", '4 answer done -> print "hi"',
                                  'calls print "hi"',
                                  'serial "hi"', '> serial "hi"', 'times 2 > serial "hi"'])
def test_what_the_program_alone_reads_is_skipped(tmp_path, line):
    (tmp_path / "rows.scenario").write_text(f"== one\napp hello\n{line}\n")
    done = run_pytest(tmp_path, "-rs")
    assert "1 skipped" in done.stdout and "line 3: rows, ..., names of events and quotes are read by ./scenario alone" in done.stdout


def test_a_quote_in_a_comment_or_a_text_is_read():
    scenario = read_scenarios('# "rows"\napp hello\ntext "hi"\nscript "hi"\n')[0]
    assert scenario.script == 'serial 226869220a\n"hi"\n'


def test_pages_of_failing_runs(tmp_path):
    (tmp_path / "a.scenario").write_text(FAILING)
    done = run_pytest(tmp_path, "--toarmuts-pages", tmp_path / "pages")
    pages = sorted(path.name for path in (tmp_path / "pages").glob("*"))
    assert pages == ["a-one.html", "a-three.html"] and f"the run: {tmp_path}/pages/a-one.html" in done.stdout
    assert "it starts (INIT)" in (tmp_path / "pages/a-one.html").read_text()


def test_all_scenarios_of_the_repository():
    done = run_pytest(ROOT, "-q", "--toarmuts-coverage", "examples", "crates/scenario/data")
    assert done.returncode == 0 and "cells were reached" in done.stdout, done.stdout[-2000:]


def test_it_is_quiet_where_nothing_is_asked(tmp_path):
    (tmp_path / "test_nothing.py").write_text("def test():\n    import sys\n    assert 'toarmuts' not in sys.modules\n")
    assert run_pytest(tmp_path).returncode == 0


@pytest.mark.parametrize("option", ["--toarmuts-pages", "--toarmuts-coverage"])
def test_options_are_told(option):
    assert option in run_pytest(ROOT, "--help").stdout


def test_coverage_of_several_processes_is_that_of_one():
    """By pytest-xdist."""
    pytest.importorskip("xdist")
    words = ("-q", "--toarmuts-coverage", "examples", "crates/scenario/data")
    tables = [run_pytest(ROOT, *words, *more).stdout.partition("what the scenarios reached")[2] for more in ((), ("-n", "2"))]
    tables = [re.sub(r" in [0-9.]+s.*", "", table).splitlines()[1:-1] for table in tables]
    assert tables[0] == tables[1] and re.search(r"^1[0-9]{2} of 181 cells were reached$", "\n".join(tables[1]), re.M), tables[1][-3:]


def test_coverage_of_a_process_that_died_is_told(tmp_path):
    pytest.importorskip("xdist")
    (tmp_path / "a.scenario").write_text("app hello\nends finished\n")
    (tmp_path / "test_dies.py").write_text("import os\n\n\ndef test_dies():\n    os._exit(3)\n")
    done = run_pytest(tmp_path, "-n", "1", "--toarmuts-coverage", "--max-worker-restart", "0")
    assert done.returncode == 1 and "what gw0 reached is missing: that worker has died" in done.stdout, done.stdout


@pytest.mark.parametrize("name, text", [
    ("other.runs", "not ours: a=1\n"), ("numbers.runs", "1 2 3\n0.5 7\n"), ("plan.scenario", "name: login\nsteps:\n  - open\n"),
    ("scene.scenario", "<?xml version='1.0'?>\n<OpenSCENARIO/>\n"), ("empty.runs", ""), ("binary.runs", b"\xff\x00\x80")])
def test_files_of_other_programs_are_passed_over(tmp_path, name, text):
    """Where they are named, what is wrong is told."""
    (tmp_path / name).write_bytes(text if isinstance(text, bytes) else text.encode())
    (tmp_path / "ours.scenario").write_text("app hello\nends finished\n4 synch 129 - -> print 68690a\n4 answer done -> wait\n")
    done = run_pytest(tmp_path, "-W", "error")
    assert done.returncode == 0 and "1 passed" in done.stdout, done.stdout
    if text:
        done = run_pytest(tmp_path, name)
        assert done.returncode != 0, done.stdout


def test_a_setting_says_which_files_are_taken(tmp_path):
    (tmp_path / "a.runs").write_text("== one\ntock 5\n")
    (tmp_path / "b.scenario").write_text("ends halted\n")
    assert run_pytest(tmp_path).returncode == 2
    done = run_pytest(tmp_path, "-o", "toarmuts_files=*.scenario")
    assert done.returncode == 1 and "1 failed" in done.stdout
    assert run_pytest(tmp_path, "-o", "toarmuts_files=").returncode == 5
