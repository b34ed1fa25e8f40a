"""Pictures of runs, by the programs ``mote_picture`` and ``network_picture``, and pages in HTML."""
from __future__ import annotations

import html
import os
import pathlib
import re
import shutil
import subprocess
import tempfile
import threading
import weakref
from dataclasses import replace
from typing import Iterator, NamedTuple

from .errors import BadInput, BadTranscript, NoPicture, WrongType, shown
from .library import belongs_to_another, repository
from .links import Loss
from .network_runs import NetworkRun
from .network_setup import setup_lines, size_words
from .network_transcript import NetworkEntry, NetworkKind, NetworkTranscript
from .runs import Run
from .transcript import Entry, Input, Transcript, Turn
from .values import index_of

LIMIT = 120
# A notebook keeps what it shows: at most this many bytes of a picture, this many seconds to draw it, and this many entries.
MOST_BYTES_SHOWN = 1_000_000
SECONDS_TO_SHOW = 5
MOST_ENTRIES_SHOWN = 100
MOST_CLOCK = 2**64 - 1
_STYLE = """body { font: 14px sans-serif; margin: 2em; max-width: 100em }
table { border-collapse: collapse } td, th { padding: 1px 8px; text-align: left; vertical-align: top }
td.text, pre { font-family: monospace } tr.input { background: #e8f0fe } tr.refused { color: #b00020 } svg { max-width: 100% }"""


_NAME = re.compile("[A-Za-z_][A-Za-z0-9_-]*")


class Drawing(NamedTuple):
    """What a program draws: its arguments, and what it reads."""

    crate: str
    words: list[str]
    data: bytes


def program(crate: str = "mote_picture") -> pathlib.Path | None:
    """The program: what TOARMUTS_PICTURE names (of a mote), what the repository has built, or the one in PATH, as a release has it."""
    named = os.environ.get("TOARMUTS_PICTURE") if crate == "mote_picture" else None
    if named:
        return pathlib.Path(named)
    root = repository()
    # The program for networks is another name of the same one.
    built = root / "crates/mote_picture/out" / crate if root is not None else None
    if built is not None and os.access(built, os.X_OK) and not belongs_to_another(built):
        return built
    found = shutil.which(crate.replace("_", "-")) or shutil.which(crate)
    return pathlib.Path(found) if found else None


def drawing_of(run: Run | NetworkRun, first: int | None = None, last: int | None = None, unfolded: bool = False) -> Drawing:
    """What is drawn of a run, from one clock to another."""
    part = [["--from", str(first)] if first is not None else [], ["--to", str(last)] if last is not None else [],
            ["--unfolded"] if unfolded else []]
    words = [word for words in part for word in words]
    if isinstance(run, Run):
        names = [named.shown for named in run.named]
        ends = ["--"] if any(name.startswith("-") for name in names) else []
        sizes = [word for word in run.options.words() if word != "--quiet"]
        return Drawing("mote_picture", [*sizes, *words, *ends, *names], run.transcript.data)
    return Drawing("network_picture", words, _script_of(run) + run.transcript.data)


def _script_of(run: NetworkRun) -> bytes:
    """The motes and links of a network, as far as a chart needs them: names of applications, and delays."""
    links = [replace(link, loss=Loss()) for link in run.setup.links]
    names = [" ".join(named.shown if _NAME.fullmatch(named.shown) else "calls" for named in mote.named) for mote in run.setup.motes]
    return "".join(f"{line}\n" for line in setup_lines(run.setup.with_links(links), names)).encode()


def _check_clock(name: str, clock: object) -> int | None:
    if clock is None:
        return None
    number = index_of(clock)
    if number is None:
        raise WrongType(f"{name} must be an int or None, not {type(clock).__name__}")
    if not 0 <= number <= MOST_CLOCK:
        raise BadInput(f"{name} is {number}; a clock from 0 to {MOST_CLOCK:,} is allowed")
    return number


def draw(run: Run | NetworkRun, *, first: int | None = None, last: int | None = None, unfolded: bool = False) -> str:
    """The picture of a run as SVG; raises NoPicture where there is none."""
    drawing = drawing_of(run, _check_clock("first", first), _check_clock("last", last), unfolded)
    made_by = program(drawing.crate)
    if made_by is None:
        raise NoPicture(f"the program that draws pictures isn't built: `./prove {drawing.crate}` in the repository proves and builds it")
    try:
        done = subprocess.run([str(made_by), *drawing.words], input=drawing.data, capture_output=True, timeout=LIMIT, check=False)
    except (OSError, subprocess.TimeoutExpired) as fault:
        raise NoPicture(f"{made_by}: {fault}") from fault
    if done.returncode:
        raise NoPicture(f"{made_by} ended with {done.returncode}: {done.stderr.decode('utf-8', 'replace').strip()}")
    return done.stdout.decode("utf-8")


_drawn: "weakref.WeakKeyDictionary[object, tuple[str, str | None]]" = weakref.WeakKeyDictionary()
"""The picture that was drawn for one way of showing a run, and which way: a notebook asks for each way, and it is drawn once."""


def draw_once(run: Run | NetworkRun, way: str) -> str | None:
    """The picture of a run for a way of showing it; None where there is none, and where it would be too large or too late."""
    known = _drawn.pop(run, None)
    if known is not None and known[0] != way:
        return known[1]
    made = draw_for_notebook(run)
    _drawn[run] = way, made
    return made


def draw_for_notebook(run: Run | NetworkRun) -> str | None:
    """The picture of a run; None where there is none, and where it would be too large or too late."""
    drawing = drawing_of(run)
    made_by = program(drawing.crate)
    if made_by is None:
        return None
    with tempfile.TemporaryFile() as transcript:
        transcript.write(drawing.data)
        transcript.seek(0)
        try:
            process = subprocess.Popen([str(made_by), *drawing.words], stdin=transcript, stdout=subprocess.PIPE, stderr=subprocess.DEVNULL)
        except OSError:
            return None
        with process:
            return _read_picture(process)


def _read_picture(process: "subprocess.Popen[bytes]") -> str | None:
    """What the program writes; where that is too much, ends it and returns None."""
    assert process.stdout is not None
    late = threading.Timer(SECONDS_TO_SHOW, process.kill)
    late.start()
    try:
        svg = process.stdout.read(MOST_BYTES_SHOWN + 1)
        if len(svg) > MOST_BYTES_SHOWN or process.wait() != 0:
            return None
        return svg.decode("utf-8")
    finally:
        late.cancel()
        process.kill()


def table_for_notebook(entries: Transcript | NetworkTranscript, ended: str | None = None) -> str | None:
    """The first entries as a table in HTML, and their number; None where a line is malformed."""
    try:
        rows = "\n".join(_rows(entries.front(MOST_ENTRIES_SHOWN)))
    except BadTranscript:
        return None
    count = len(entries)
    below = f"The first {MOST_ENTRIES_SHOWN} of {count:,} entries." if count > MOST_ENTRIES_SHOWN else ""
    below += f" It ended with: {html.escape(ended)}." if ended is not None else ""
    return f"<table>{_HEAD}{rows}</table>" + (f"<p>{below.strip()}</p>" if below else "")


_HEAD = "<tr><th>Clock</th><th>Line</th><th>Text</th><th>In words</th></tr>"


def _class_of(entry: Entry | NetworkEntry) -> str:
    """The class of a row: inputs are blue, and what is refused or isn't heard is red."""
    if isinstance(entry, NetworkEntry):
        if entry.entry is not None:
            return _class_of(entry.entry)
        return "" if entry.kind is NetworkKind.CLOCK else "refused"
    if isinstance(entry, Input):
        return "input"
    return "refused" if isinstance(entry, Turn) and entry.refusal is not None else ""


def _rows(entries: Transcript | NetworkTranscript) -> Iterator[str]:
    clock: int | None = None
    for entry in entries:
        time = str(entry.clock) if entry.clock != clock else ""
        clock, kind = entry.clock, _class_of(entry)
        cells = [time, str(entry.line), entry.text, entry.explain()]
        text = "".join(f"<td{' class=text' if place == 2 else ''}>{html.escape(cell)}</td>" for place, cell in enumerate(cells))
        yield f'<tr class="{kind}">{text}</tr>' if kind else f"<tr>{text}</tr>"


def page(run: Run, title: str = "") -> str:
    """A page in HTML that needs no other file."""
    options = " ".join(run.options.words()) or "the usual sizes"
    parts = [f"<p>It ended with: {html.escape(run.ended)}. Options: {html.escape(options)}.</p>", "<h2>Applications</h2><ol start=4>"]
    parts += [f"<li><code>{html.escape(application)}</code></li>" for application in run.applications]
    parts += ["</ol>"]
    return _page(run, title, f"A run of {', '.join(named.shown for named in run.named) or 'no applications'}", parts,
                 run.script.decode("utf-8", "replace"))


def page_of_network(run: NetworkRun, title: str = "") -> str:
    """The same of a network."""
    motes = [" ".join([mote.shown, *size_words(mote.options)]) for mote in run.setup.motes]
    parts = [f"<p>It ended with: {html.escape(run.ended)}. Frames sent: {len(run.frames()):,}; lost: {len(run.lost()):,}; without room in "
             f"flight: {len(run.full()):,}.</p>", "<h2>Motes</h2><ol>"]
    parts += [*(f"<li><code>{html.escape(mote)}</code></li>" for mote in motes), "</ol><h2>Links</h2>"]
    parts += [f"<pre>{html.escape(''.join(f'{link}{chr(10)}' for link in run.setup.links))}</pre>"]
    return _page(run, title, f"A network of {len(motes)} mote{'' if len(motes) == 1 else 's'}", parts,
                 "".join(f"{line}\n" for line in run.inputs))


def _page(run: Run | NetworkRun, title: str, name: str, parts: list[str], script: str) -> str:
    """A page with what was run, the script, the picture and the transcript."""
    if not isinstance(title, str):
        raise WrongType(f"a page's title must be a str, not {type(title).__name__}")
    try:
        picture = draw(run)
    except NoPicture as fault:
        picture = f"<p>There is no picture: {html.escape(str(fault))}</p>"
    head = html.escape(shown(title) or name)
    parts = [*parts, "<h2>Script</h2>", f"<pre>{html.escape(shown(script))}</pre>", "<h2>Picture</h2>", picture,
             f"<h2>Transcript</h2><table>{_HEAD}", *_rows(run.transcript), "</table>"]
    return (f"<!DOCTYPE html>\n<html lang=en><head><meta charset=utf-8><title>{head}</title><style>{_STYLE}</style></head>\n"
            f"<body><h1>{head}</h1>\n" + "\n".join(parts) + "\n</body></html>\n")
