"""The licences of what the page has in it besides this repository's own work, as HTML."""
from __future__ import annotations

import html
import re
from collections.abc import Iterator, Sequence
from pathlib import Path

from retarget.compiler import kit_folder
from retarget.refusal import Refused

ROOT = Path(__file__).resolve().parent.parent.parent
PRODUCTS = ("toarmuts", "mote_picture", "scenario", "network")
COPYRIGHT = Path("/usr/share/doc")


def libraries_below(products: Sequence[str]) -> Iterator[str]:
    """The kit's libraries that these products are made of."""
    lines = (line.partition("#")[0].partition(":") for line in (ROOT / "crates.txt").read_text(encoding="utf-8").splitlines())
    below = {name.split()[0]: uses.split() for name, _, uses in lines if name.strip()}
    waiting, known = list(products), set()
    while waiting:
        name = waiting.pop()
        if name in known:
            continue
        known.add(name)
        if name in below:
            waiting += below[name]
        else:
            form = (kit_folder() / "rlibs" / f"{name}.rlib/format").read_text(encoding="utf-8")
            waiting += re.findall(r"^dep (\S+)$", form, re.M)
            yield name


def kit_notices() -> dict[str, list[str]]:
    """The texts of licences of the kit's libraries, each with the libraries that have it."""
    found: dict[str, list[str]] = {}
    for name in sorted(libraries_below(PRODUCTS)):
        for notice in sorted((kit_folder() / "rattle" / name).glob("LICENSE*")):
            found.setdefault(notice.read_text(encoding="utf-8").strip(), []).append(name)
    return found


def expat_of(package: str, holder: str) -> str:
    """The text of the Expat licence in the file copyright of a Debian package."""
    path = COPYRIGHT / package / "copyright"
    found = re.search(r"^License: Expat\n((?: .*\n)+)", path.read_text(encoding="utf-8"), re.M) if path.exists() else None
    if found is None:
        raise Refused(f"{path} has no text of the Expat licence (Debian: {package})")
    text = re.sub(r"^ \.?", "", found[1], flags=re.M)
    return f"Copyright: {holder}\n\n{text.strip()}"


def licences() -> str:
    own = (ROOT / "packaging/copyright").read_text(encoding="utf-8").strip()
    texts = [
        ("Toarmuts", own),
        ("CodeMirror, the editors", expat_of("libjs-codemirror", "Marijn Haverbeke and others")),
        ("wasi-libc, of which the modules have malloc", "Its malloc is dlmalloc by Doug Lea, in the public domain (CC0 1.0)."),
        *((", ".join(names), text) for text, names in kit_notices().items()),
    ]
    return "\n".join(f"<details><summary>{html.escape(name)}</summary><pre>{html.escape(text)}</pre></details>" for name, text in texts)
