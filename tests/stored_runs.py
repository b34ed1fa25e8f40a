"""The transcripts that the repository has: of the worked runs, of the scenarios in examples/, and of the samples there."""

import functools
import json
from dataclasses import dataclass
from pathlib import Path

from tools import EXAMPLES, ROOT, program, succeed

PLACES = {"worked runs": ["crates/scenario/data/*.scenario"], "examples": ["examples/*.scenario", "examples/rows/*.scenario"]}


@dataclass(frozen=True)
class StoredRun:
    """A run's name, its transcript, the options of its sizes, whether the transcript is a quiet one, and the number of applications."""

    name: str
    transcript: str
    sizes: tuple[str, ...] = ()
    is_quiet: bool = False
    applications: int = 0

    @property
    def lines(self) -> list[str]:
        return self.transcript.splitlines()

    @property
    def looks_quiet(self) -> bool:
        """Whether the transcript is seen to be a quiet one: not by how the script ended alone."""
        return self.is_quiet and not self.transcript.startswith(("bad line", "too long")) and self.transcript != ""


def files(kind: str) -> list[Path]:
    return [path for pattern in PLACES[kind] for path in sorted(ROOT.glob(pattern))]


def names(kind: str) -> list[str]:
    """The names of the runs of this kind, by their lines: a file without such a line is one run."""
    return [f"{path.name}: {name}" for path in files(kind)
            for name in [line[3:] for line in path.read_text(encoding="utf-8").splitlines() if line.startswith("== ")] or [""]]


SAMPLES = [path.name for path in sorted(EXAMPLES.glob("*.transcript"))]
WORKED_RUNS = names("worked runs")
SCENARIOS = names("examples")
ALL = [*WORKED_RUNS, *SCENARIOS, *SAMPLES]


@functools.lru_cache(maxsize=None)
def runs_of(kind: str) -> dict[str, StoredRun]:
    """The runs of this kind, as the program `scenario` reads them."""
    runs = {}
    for line in succeed(program("scenario"), "--json", *files(kind)).stdout.splitlines():
        record = json.loads(line)
        name = f"{Path(record['file']).name}: {record['name'] or ''}"
        transcript = record["transcript"] or ""
        sizes = tuple(word for word in record["words"] if word != "--quiet")
        # Sizes that no mote boots with have no transcript.
        runs[name] = StoredRun(name, transcript, sizes if transcript else (), "--quiet" in record["words"], len(record["applications"]))
    return runs


def stored_run(name: str) -> StoredRun:
    if name in SAMPLES:
        return StoredRun(name, (EXAMPLES / name).read_text(encoding="utf-8"))
    return runs_of("worked runs" if name in WORKED_RUNS else "examples")[name]
