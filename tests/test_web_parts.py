"""The page's scripts that need no mote, each function by itself in Chromium: what is typed is read, lines are put into words and folded."""

import json
from collections.abc import Iterator
from typing import Any

import pytest

from devtools import Browser, Page
from tools import ROOT
from web_page import in_chromium

PARTS = ("bytes", "calls", "experiment", "network", "explain", "folding", "outcome", "link", "runner")


@pytest.fixture(scope="module")
def parts(browser: Browser, tmp_path_factory: pytest.TempPathFactory) -> Iterator[Page]:
    """A page with these scripts alone, and the rules that they have there."""
    page = tmp_path_factory.mktemp("parts") / "parts.html"
    rules = (ROOT / "interface/rules.json").read_text(encoding="utf-8")
    scripts = "\n".join((ROOT / f"web/js/{name}.js").read_text(encoding="utf-8") for name in PARTS)
    page.write_text(f"<!doctype html><meta charset=utf-8><script>const RULES = {rules};\n{scripts}\nconst isWholePage = true;</script>",
                    encoding="utf-8")
    opened = browser.open(page.as_uri())
    opened.wait_for("typeof isWholePage !== 'undefined'")
    yield opened
    opened.close()


# Parts of expressions: what a run returned; an experiment without lines; a library that leaves an experiment to scenario.
TOLD = "(({ transcript, end, fault }) => [transcript && textOf(transcript), end, fault])"
EMPTY = "{ applications: '', script: '', ...DEFAULT_SIZES, quiet: false }"
UNREAD = "{ run: () => ({ name: 'BAD_LINE', transcript: utf8.encode('') }) }"

# Expressions, and their values.
VALUES: list[tuple[str, Any]] = [
    # Bytes and texts.
    ("hexOf([0, 10, 255])", "000aff"),
    ("[...bytesOfHex('000aFf')]", [0, 10, 255]),
    ("[...bytesOfHex('')]", []),
    ("linesIn('a\\n\\nb')", ["a", "", "b"]),
    ("linesIn('a\\n')", ["a"]),
    ("linesIn('')", []),
    ("base64ForAddress(Uint8Array.of(251, 239, 255, 1))", "--__AQ"),
    ("[...bytesOfBase64('--__AQ')]", [251, 239, 255, 1]),
    ("[...joined([Uint8Array.of(1, 2), Uint8Array.of(), Uint8Array.of(3)])]", [1, 2, 3]),
    # Calls.
    ("withoutQuotes('print \"a\\\\n\\\\\"\\\\\\\\\"')", "print 610a225c"),
    ("withoutQuotes('print \"\"')", "print -"),
    ("withoutQuotes('post 4 140 x\"\"')", "post 4 140 x"),
    ("withoutQuotes('post 4 140 x\"a, b\"')", "post 4 140 x612c2062"),
    ("readCall(' mmem-write  1 4 \"hi\" ').text", "mmem-write 1 4 6869"),
    ("readCall('MMEM-WRITE 1 4 -')", "there is no call “MMEM-WRITE”"),
    ("readCall('kill')", "write kill PROCESS"),
    ("readCall('kill 4 5')", "write kill PROCESS"),
    ("readCall('heap-alloc 0')", "write heap-alloc HEAP-BLOCK SIZE"),
    ("readCall('kill 256')", "“256” must be a number from 0 to 255 (process)"),
    ("readCall('kill 255').numbers", [255]),
    ("readCall('kill 04')", "“04” must be a number from 0 to 255 (process)"),
    ("readCall('timer-set 0 4294967295').numbers", [0, 4294967295]),
    ("readCall('timer-set 0 4294967296')", "“4294967296” must be a number from 0 to 4,294,967,295 (interval)"),
    ("readCall('print ' + '61'.repeat(64)).bytes.length", 64),
    ("readCall('print ' + '61'.repeat(65))", "at most 64 bytes are allowed"),
    ("readCall('print 6')", "“6” must be a text in quotes, or hex: two digits for each byte"),
    ("readCall('print -').bytes", []),
    ("[readCall('post 4 140 -')].map(({ payload, number, bytes }) => [payload, number, bytes])[0]", [0, 0, []]),
    ("[readCall('post 4 140 7')].map(({ payload, number, bytes }) => [payload, number, bytes])[0]", [1, 7, []]),
    ("[readCall('post 4 140 x')].map(({ payload, number, bytes }) => [payload, number, bytes])[0]", [2, 0, []]),
    ("[readCall('post 4 140 x0aF0')].map(({ payload, text, bytes }) => [payload, text, bytes])[0]", [2, "post 4 140 x0af0", [10, 240]]),
    ("readCall('post 4 140 x\"\"').text", "post 4 140 x"),
    ("readCall('post 4 140 x-')", "“x-” must be a number from 0 to 4,294,967,295 (payload)"),
    ("readCall('post 4 140 x' + '00'.repeat(127)).bytes.length", 127),
    ("readCall('post 4 140 x' + '00'.repeat(128))", "at most 127 bytes are allowed"),
    ("RULES.calls.every((call, place) => CALLS.get(call.name).kind === place + 1)", True),
    ("aboutCall('kill 4').form", "kill PROCESS"),
    ("aboutCall('none')", None),
    # Experiments.
    ("applicationsIn('hello\\n# no\\n  \\non INIT: wait\\nonly\\n')", [{"line": 1, "text": "hello"}, {"line": 5, "text": "only"}]),
    ("namesOf({ applications: 'app hello\\ncalls wait\\nrows\\non INIT: wait\\n blink ' })", ["hello", "calls", "rows", "blink"]),
    ("optionsOf({ mmem: 4096, heap: 64, header: 8, quota: null })", ["--heap", "64", "--header", "8"]),
    ("optionsOf({ mmem: 64, heap: 4096, header: 16, quota: 16 })", ["--mmem", "64", "--quota", "16"]),
    ("scenarioText({ applications: 'hello\\ncalls wait', mmem: 64, heap: 4096, header: 16, quota: null, quiet: true,"
     " script: 'tick 1\\n# x\\ntext hi' })", "app hello\ncalls wait\nmmem 64\nquiet\ntick 1\nscript # x\ntext hi\n"),
    ("scenarioText({ applications: 'hello', ...DEFAULT_SIZES, quiet: false, script: 'tick 1\\ntick x\\ntext hi\\n' }, 2)",
     "app hello\ntick 1\nscript tick x\nscript text hi\n"),
    # A line of spaces is no application; a scenario file has empty lines alone.
    ("scenarioText({ applications: 'hello\\n  \\ncalls wait', ...DEFAULT_SIZES, quiet: false, script: '' })", "app hello\n\ncalls wait\n"),
    ("scenarioLines({ applications: '', ...DEFAULT_SIZES, quiet: false, script: 'tick 1\\n\\nwalk' })"
     ".map(({ editor, line }) => [editor, line])", [["script", 1], ["script", 2], ["script", 3]]),
    ("endOf(utf8.encode('x\\nbad line 12\\n'))", {"name": "BAD_LINE", "line": 12}),
    ("endOf(utf8.encode('bad line 16777216\\n'))", {"name": "BAD_LINE", "line": 16777216}),
    ("endOf(utf8.encode('halt\\n'))", {"name": "HALTED", "line": 0}),
    ("endOf(utf8.encode('too long\\n'))", {"name": "TOO_LONG", "line": 0}),
    ("endOf(utf8.encode('> tick 1\\n'))", {"name": "FINISHED", "line": 0}),
    ("endOf(utf8.encode('2 halt\\n')).name", "FINISHED"),
    ("faultOf({ name: 'BAD_SIZES', reason: 5 }, [])",
     {"message": "Managed memory must have room for a quota of each application and one of the frames.", "editor": "quota", "line": 0}),
    ("faultOf({ name: 'BAD_SIZES', reason: 2 }, [])",
     {"message": "Heap memory must be a multiple of 4, from 20 to 65,536 bytes.", "editor": "heap", "line": 0}),
    ("faultOf({ name: 'TOO_MANY_APPLICATIONS', application: 1 }, [{ line: 2 }, { line: 5 }])",
     {"message": "At most 1 applications are allowed.", "editor": "applications", "line": 5}),
    ("faultOf({ name: 'OUT_OF_MEMORY' }, [])", {"message": "The mote ran out of memory.", "editor": None, "line": 0}),
    # Runs, with stand-ins for the library and for the program scenario, which reads what the library doesn't.
    (f"{TOLD}(runExperiment({{ run: (_, names, script) => ({{ name: 'FINISHED', line: 0,"
     f" transcript: utf8.encode(`${{names}}; ${{textOf(script)}}`) }}) }}, null, {{ ...{EMPTY}, applications: 'hello\\n# x\\n\\nblink',"
     " script: 'tick 1' }))", ["hello\nblink; tick 1", {"name": "FINISHED", "line": 0}, None]),
    (f"{TOLD}(runExperiment({{ run: () => ({{ name: 'BAD_SIZES', reason: 2, transcript: null }}) }}, null, {EMPTY}))",
     [None, None, {"message": "Heap memory must be a multiple of 4, from 20 to 65,536 bytes.", "editor": "heap", "line": 0}]),
    (f"{TOLD}(runExperiment({UNREAD}, {{ run: () => ({{ status: 0, output: utf8.encode('bad line 2\\n') }}) }}, {EMPTY}))",
     ["bad line 2\n", {"name": "BAD_LINE", "line": 2},
      {"message": "This line is malformed: write tick N, serial HEX, frame HEX or text WORDS.", "editor": "script", "line": 2}]),
    (f"{TOLD}(runExperiment(null, {{ run: () => ({{ status: 2, errors: utf8.encode('scenario: experiment: line 2: no such call\\n') }}) }},"
     f" {{ ...{EMPTY}, applications: 'rows\\non INIT: walk' }}))",
     [None, None, {"message": "no such call", "editor": "applications", "line": 2}]),
    (f"{TOLD}(runExperiment({UNREAD}, {{ run: () => ({{ status: 2, errors: utf8.encode('scenario: experiment: line 1: bad\\n') }}) }},"
     f" {{ ...{EMPTY}, mmem: 6 }}))", [None, None, {"message": "bad", "editor": "mmem", "line": 1}]),
    (f"{TOLD}(runExperiment({UNREAD}, {{ run: (words, input, {{ bytes }}) => (textOf(bytes).includes('script tick x') ?"
     " { status: 0, output: utf8.encode('bad line 2\\n') } :"
     f" {{ status: 2, errors: utf8.encode('scenario: experiment: line 3: no such line\\n') }}) }}, {{ ...{EMPTY}, applications: 'hello',"
     " script: 'tick 1\\ntick x' }))",
     ["bad line 2\n", {"name": "BAD_LINE", "line": 2}, {"message": "no such line", "editor": "script", "line": 2}]),
    ("[64, 70].map((status) => runNetwork({ network: { run: () => ({ status, output: utf8.encode(''),"
     " errors: utf8.encode('network: out of memory\\n') }) }, scenario: { run: () => ({ status: 0,"
     " output: utf8.encode('{\"script\": \"\"}') }) } }, { network: 'mote 1', only: 9, quiet: false }).fault)",
     [{"message": "There is no mote 9: choose another one.", "editor": "only", "line": 0},
      {"message": "The network ended early: out of memory.", "editor": None, "line": 0}]),
    # Networks.
    ("motesIn('# x\\nmote 1..3 hello --mmem 64 blink calls wait, exit\\nline 1..3 delay 1\\nmote 4\\ntick 1\\nmote 5 hello')",
     [{"first": 1, "last": 3, "names": ["hello", "blink", "calls"], "options": ["--mmem", "64"]},
      {"first": 4, "last": 4, "names": [], "options": []}]),
    ("moteNumbered(motesIn('mote 1..3 hello\\nmote 4 blink'), 3).names", ["hello"]),
    ("moteNumbered(motesIn('mote 1..3 hello\\nmote 4 blink'), 4).names", ["blink"]),
    ("moteNumbered(motesIn('mote 1..3 hello'), 4).names", []),
    ("numberOfMotes(motesIn('mote 1..3 hello\\nmote 4 blink'))", 4),
    ("numberOfMotes(motesIn(''))", 0),
    ("['3 walk', '12', 'walk', ''].map(formOfLine).map((words) => words.slice(0, 20))",
     ["an input of a mote i", "an input of a mote i", "a line begins with m", "a line begins with m"]),
    ("formOfLine('walk')", "a line begins with mote, link, line, ring, mesh, grid, room, rounds, tick or the number of a mote."),
    ("['mote 1 x', 'tick 1', 'tick', '3 serial 61', '12 frame', 'walk', 'ats', ' ', '\\t'].every(isForScenario)", True),
    ("['', '# x', '#', '= 5', '==', '3 walk', '12', '3 serials 61', '1 4 synch 129', 'lost 1 2', 'halt', 'bad line 3', 'at 5', '...',"
     " 'script tick 1', 'times 3 tick 1', 'quiet', 'ends finished', 'network'].some(isForScenario)", False),
    # What the program scenario says.
    ("refusalOf({ status: 2, errors: utf8.encode('scenario: experiment: line 12: no call prnt\\n') })",
     {"message": "no call prnt", "line": 12}),
    ("refusalOf({ status: 2, errors: utf8.encode('scenario: experiment: line 2: tick 4294967296 is no line of a script\\n') })",
     {"message": "tick 4294967296 is no line of a script: N is a number from 0 to 4,294,967,295, with no zero before it", "line": 2}),
    ("refusalOf({ status: 2, errors: utf8.encode('scenario: experiment: line 2: 3 frame 0 is no line of a script\\n') }).message",
     "3 frame 0 is no line of a script: HEX is two digits for each of 1 to 127 bytes"),
    ("refusalOf({ status: 70, errors: utf8.encode('scenario: out of memory\\n') })",
     {"message": "The mote ran out of memory.", "line": 0}),
    ("refusalOf({ status: 2, errors: utf8.encode('scenario: experiment: not text\\n') })", {"message": "not text", "line": 0}),
    ("refusalOf({ status: 9, errors: utf8.encode('') })", {"message": "The program scenario ended with 9.", "line": 0}),
    ("networkClocks(['1 > tick 1', '= 5', '2 halt', '= 70', 'lost 1 2'])", [0, 5, 5, 70, 70]),
    # A malformed line of an input's form starts the motes before it ends the run; one of the first lines doesn't.
    ("['3 serial 61', '3 frame 61', 'walk'].map((line) => runNetwork({"
     " network: { run: () => ({ status: 2, output: utf8.encode('bad line 2\\n') }) },"
     " scenario: { run: (options, input, file) => (textOf(file.bytes).split('\\n').length > 3"
     " ? { status: 2, errors: utf8.encode('scenario: experiment: line 3: no such thing\\n') }"
     " : { status: 0, output: utf8.encode(JSON.stringify({ script: 'mote 1 hello\\n' })) }) } },"
     " { network: `mote 1 hello\\n${line}`, only: null, quiet: false })).map(({ transcript, end, fault }) =>"
     " [transcript !== null, end, fault.editor, fault.line, fault.message])",
     [[is_started, {"name": "BAD_LINE", "line": 2}, "network", 2, "no such thing"] for is_started in (True, True, False)]),
    ("[...linesOfMotes(['12 a b', '= 3', '1 c', '12 d', 'lost 1 2'])]",
     [[12, {"places": [0, 3], "texts": ["a b", "d"]}], [1, {"places": [2], "texts": ["c"]}]]),
    ("['= 1234', 'lost 1 2', 'full 3 4', 'missed - 2', 'missed 1 2', 'halt', 'bad line 3'].map(networkWords)",
     ["the clock goes on to 1,234", "the frame from mote 1 to 2 is lost: the link's rule",
      "the frame from mote 3 to 4 finds no room in flight", "an input arrives at mote 2, which was halted",
      "the frame from mote 1 arrives at mote 2, which was halted", "the network halts: its last line took all its rounds", "bad line 3"]),
    # Lines in words.
    ("lineInWords('> tick 1', [])", "The clock goes on by 1 tick."),
    ("lineInWords('> tick 1000', [])", "The clock goes on by 1,000 ticks."),
    ("lineInWords('> serial 68690a', [])", "“hi⏎” arrives on the serial line."),
    ("lineInWords('> serial 687f', [])", "687f arrives on the serial line."),
    ("lineInWords('> frame 00', [])", "A radio frame of 1 byte arrives: 00."),
    ("lineInWords('note sent 6869', [])", "A radio frame is sent: “hi”."),
    ("lineInWords('note lost 12', []) === `The frame is lost: ${REFUSALS.get(12)}.`", True),
    ("lineInWords('bad line 7', [])", "Line 7 of the script is malformed: the run ends here."),
    ("lineInWords('halt', [])", "The mote halts: this input led to 10,000 turns and rounds."),
    ("lineInWords('too long', [])", "The script has more than 16,777,216 bytes: the run ends here."),
    ("lineInWords('5 event 136 2 -> wait', ['hello', 'blink']).split('. ')[0]",
     "Process 5 (blink) receives TIMER: its event timer 2 has run out"),
    ("lineInWords('6 synch 140 x6869 -> wait', []).split('. ')[0]", "Process 6 receives event 140 with “hi” at once"),
    ("lineInWords('4 event 134 - -> wait', []).split('. ')[0]", "Process 4 receives event MSG (134) from the event queue"),
    ("lineInWords('4 event 139 2 -> wait', []).split('. ')[0]", "Process 4 receives PACKET: a frame of 2 bytes is held"),
    ("lineInWords('4 synch 129 - -> wait', []).split('. ')[0]", "Process 4 starts: it receives INIT"),
    ("lineInWords('4 synch 131 - -> wait', []).split('. ')[0]", "Process 4 ends: it receives EXIT"),
    ("lineInWords('4 synch 135 7 -> wait', []).split('. ')[0]", "Process 4 receives EXITED: process 7 has ended"),
    ("lineInWords('4 event 138 x6f6e -> wait', []).split('. ')[0]", "Process 4 receives a line from the serial line: “on”"),
    ("lineInWords('4 poll 130 - -> wait', []).split('. ')[0]", "Process 4 is polled: it receives POLL"),
    ("lineInWords('4 callback 3 -> wait', []).split('. ')[0]", "Process 4 is called: its callback timer 3 has run out"),
    ("lineInWords('4 answer bytes - -> wait', []).split('. ')[0]", "Process 4 goes on: the reply to its call is no bytes"),
    ("lineInWords('4 answer num 5 -> wait', []).split('. ')[0]", "Process 4 goes on: the reply to its call is 5"),
    ("lineInWords('4 answer refused 3 -> wait', []).includes(REFUSALS.get(3))", True),
    ("callInWords('print 6f6e0a').split('. ')[0]", "It calls print “on⏎” (print 6f6e0a)"),
    ("callInWords('print -').split('. ')[0]", "It calls print -"),
    ("callInWords('print 00').split('. ')[0]", "It calls print 00"),
    ("callInWords('post 4 140 x6869').split('. ')[0]", "It calls post 4 140 x“hi” (post 4 140 x6869)"),
    ("['post 4 140 x', 'post 4 140 7', 'kill 61'].map((call) => callInWords(call).split('. ')[0])",
     ["It calls post 4 140 x", "It calls post 4 140 7", "It calls kill 61"]),
    ("networkLineInWords('= 5')", "The clock goes on to 5."),
    ("networkLineInWords('bad line 4')", "Line 4 of the script is malformed: the run ends here."),
    # Repeated lines.
    ("foldedRows(['a', 'b', 'b', 'b', 'b', 'c'])", [{"first": place, "count": 1, "period": 0} for place in range(6)]),
    ("foldedRows(['a', 'b', 'b', 'b', 'b', 'b', 'c'])",
     [{"first": 0, "count": 1, "period": 0}, {"first": 1, "count": 1, "period": 0}, {"first": 2, "count": 4, "period": 1},
      {"first": 6, "count": 1, "period": 0}]),
    ("foldedRows(['a', 'b', 'a', 'b', 'a', 'b', 'a'])",
     [{"first": 0, "count": 1, "period": 0}, {"first": 1, "count": 1, "period": 0}, {"first": 2, "count": 4, "period": 2},
      {"first": 6, "count": 1, "period": 0}]),
    ("foldedRows(Array.from({ length: 192 }, (_, at) => String(at % 64))).at(-1)", {"first": 64, "count": 128, "period": 64}),
    ("foldedRows(Array.from({ length: 195 }, (_, at) => String(at % 65))).length", 195),
    ("foldedRows([...'abcdeabcdeabcde']).map(({ count }) => count)", [1, 1, 1, 1, 1, 10]),
    ("foldedRows([...'abcdeabcdeabcd']).length", 14),
    # The report of a run.
    ("[0.04, 9.96, 10, 10.2, 999.4, 999.5, 999.6, 1000, 61240].map(milliseconds)",
     ["0.0 ms", "10.0 ms", "10 ms", "10 ms", "999 ms", "1.0 s", "1.0 s", "1.0 s", "61.2 s"]),
    ("outcomeInWords({ end: { name: 'HALTED' }, lines: ['a'], took: 5, rows: null })", "The mote halted: 1 line in 5.0 ms."),
    ("outcomeInWords({ end: { name: 'FINISHED' }, lines: ['a', 'b'], took: 5, rows: [] })",
     "The script was run to its end: 2 lines in 5.0 ms, repeated lines folded."),
    ("outcomeInWords({ end: { name: 'FINISHED' }, lines: ['a', 'b'], took: 5, rows: ['a', 'b'] })",
     "The script was run to its end: 2 lines in 5.0 ms."),
    ("[4, 1005, 18000].map((waited) => outcomeInWords({ end: { name: 'FINISHED' }, lines: ['a'], took: 5, waited, rows: null }))",
     ["The script was run to its end: 1 line in 5.0 ms.", "The script was run to its end: 1 line in 5.0 ms.",
      "The script was run to its end: 1 line in 5.0 ms, shown after 18.0 s."]),
    ("[faultInWords({ message: 'm', editor: 'script', line: 3 }), faultInWords({ message: 'm', editor: 'network', line: 4 }),"
     " faultInWords({ message: 'm.', editor: 'quota', line: 1 })]", ["Inputs, line 3: m.", "Network, line 4: m.", "m."]),
    # Links.
    ("[null, 5, {}, { network: '', quiet: false }, { network: '', quiet: false, only: null }, { network: '', quiet: false, only: 3 },"
     " { network: 5, quiet: false, only: null }, { applications: '', script: '', ...DEFAULT_SIZES, quiet: false },"
     " { applications: '', script: '', ...DEFAULT_SIZES, quiet: false, quota: '4' }, { applications: '', script: '', quiet: true }]"
     ".map(isWhole)",
     [False, False, False, False, True, True, False, True, False, False]),
    ("await experimentOf(await linkOf({ network: 'mote 1 ✓', quiet: true, only: 2 }))", {"network": "mote 1 ✓", "quiet": True, "only": 2}),
    ("await experimentOf('#e=AAAA')", "The link is incomplete: it holds no experiment."),
    ("await experimentOf(await linkOf({ network: 5 }))", "The link holds no experiment of this page."),
    ("(await linkOf({ network: 'a'.repeat(2 ** 25), quiet: true, only: null })).length < 100000", True),
    ("await experimentOf(await linkOf({ network: 'a'.repeat(2 ** 24), quiet: true, only: null }))", "The link holds more than 16 MB."),
    # With 39 other bytes, 16 MB and no more.
    ("(await experimentOf(await linkOf({ network: 'a'.repeat(2 ** 24 - 39), quiet: true, only: null }))).network.length", 2 ** 24 - 39),
    ("await experimentOf(await linkOf({ network: 'a'.repeat(2 ** 24 - 38), quiet: true, only: null }))", "The link holds more than 16 MB."),
]


@in_chromium
def test_values(parts: Page) -> None:
    """A refusal has its message."""
    asked = "".join(f"async () => ({expression})," for expression, _ in VALUES)
    told = parts.ask(f"""
        const found = [];
        for (const work of [{asked}]) {{
          try {{ found.push(await work()); }} catch (error) {{
            if (!(error instanceof BadCall || error instanceof BadLink)) throw error;
            found.push(error.message);
          }}
        }}
        return JSON.stringify(found);""")
    wrong = [f"{expression}: {it!r}, not {wanted!r}" for (expression, wanted), it in zip(VALUES, json.loads(told)) if it != wanted]
    assert len(json.loads(told)) == len(VALUES) and not wrong, "\n".join(wrong)


# What the worker's own script takes: the first library finds no memory, and a program that gets no input fails without a word. The others
# write which library they were made with.
STAND_INS = """class OutOfMemory extends Error {}
let made = 0;
class Library { constructor() { if (++made === 1) throw new RangeError("no memory"); } }
class Program {
  run(words, input) {
    if (input === null) throw new Error("");
    return { status: 0, output: utf8.encode(textOf(input) + made) };
  }
}
"""


@in_chromium
def test_worker_that_fails(parts: Page) -> None:
    """A task that fails says so and leaves the next ones a worker; one that never begins, or that its browser refuses, fails each task."""
    source = "".join((ROOT / f"web/js/{name}.js").read_text(encoding="utf-8") for name in ("bytes", "worker"))
    told = parts.ask(f"""
        const phases = [], show = (phase) => phases.push(phase), given = {{ mote: {{ names: [], options: [] }}, options: [] }};
        const ask = (runner, input) => runner.ask("picture", {{ ...given, transcript: input && utf8.encode(input) }})
          .then(({{ svg }}) => `drawn ${{svg}}`, ({{ message }}) => `failed ${{message}}`);
        const runner = new Runner({{ most: 1 }}, {json.dumps(STAND_INS + source)}, show), found = [];
        for (const input of ["a", "b", "b", null, "c"]) found.push(await ask(runner, input));
        const broken = new Runner({{}}, "throw new Error('broken')", show);
        for (const input of ["a", "b"]) found.push(await ask(broken, input));
        broken.stop();
        return {{ found, isBusy: runner.isBusy || broken.isBusy, last: phases.at(-1) }};""")
    broken = "failed The page's worker failed: Uncaught Error: broken."
    found = ["failed The mote ran out of memory.", "drawn b2", "drawn b2", "failed ", "drawn c3", broken, broken]
    assert told == {"found": found, "isBusy": False, "last": None}
