"""What is compiled: the proved library, its memory calls, and two small files in C, as one module of the package.

A plain shared library for ctypes wants a C compiler and no header of Python. Where cffi is, a module of cffi's is built beside it, in API
mode with Python's stable interface (abi3): it is faster, and taken wherever cffi is at running. ``TOARMUTS_BACKEND`` (``cffi`` or
``ctypes``) says whether cffi's is built; ``TOARMUTS_CRATE`` names the folder ``crates/toarmuts`` where it isn't beside this one.
"""
from __future__ import annotations

import functools
import hashlib
import json
import os
import pathlib
import re
import subprocess
import sys
import sysconfig
from typing import Any

HERE = pathlib.Path(__file__).resolve().parent
CRATE = pathlib.Path(os.environ.get("TOARMUTS_CRATE", HERE.parent / "crates" / "toarmuts"))
ROOT = CRATE.resolve().parent.parent
LIBRARY = CRATE / "out" / "libtoarmuts.a"
HEADER = CRATE / "include" / "toarmuts.h"
PROVE = "./prove toarmuts"
NO_SDIST = ("there is no source distribution: it would lack the proved library, which `./prove toarmuts` in the repository makes; "
            "`pip wheel ./python` there makes a wheel that can be handed on")
SOURCES = ["native/transcript_table.c", "native/advance.c", "native/network_script.c", "native/stack.c"]
HEADERS = ("transcript_table.h", "advance.h", "network_script.h", "stack.h")

# The headers for cffi, which reads no preprocessor's lines. The compiler compares it with them.
DECLARED = """
struct toarmuts_configuration { uint32_t mmem, heap, header, has_quota, quota, quiet; };
struct toarmuts_outcome { uint32_t status; uint64_t line; size_t length; uint32_t reason, application; size_t call; };
void run_mote(const struct toarmuts_configuration *configuration, const uint8_t *applications, size_t applications_length,
              const uint8_t *script, size_t script_length, uint8_t *transcript, size_t room, struct toarmuts_outcome *outcome);
struct transcript_row { ...; };
size_t transcript_lines(const uint8_t *text, size_t length);
size_t transcript_table(const uint8_t *text, size_t length, struct transcript_row *rows);
struct toarmuts_mote { ...; };
struct toarmuts_call { ...; };
struct toarmuts_application { ...; };
struct advance { ...; };
uint32_t open_mote(const struct toarmuts_configuration *configuration, uint32_t applications, struct toarmuts_mote *mote);
uint32_t feed_line(struct toarmuts_mote *mote, const uint8_t *line, size_t length);
uint32_t feed_input(struct toarmuts_mote *mote, uint32_t kind, uint32_t ticks, const uint8_t *bytes, size_t length);
uint32_t toarmuts_clock(struct toarmuts_mote *mote, uint64_t *clock);
uint32_t toarmuts_close(struct toarmuts_mote *mote);
uint32_t toarmuts_due(struct toarmuts_mote *mote, uint64_t *clock);
void advance_mote(struct toarmuts_mote *mote, const struct toarmuts_call *call, struct advance *advance);
void advance_mote_bundled(struct toarmuts_mote *mote, struct toarmuts_application *application, struct advance *advance);
struct toarmuts_network { ...; };
struct toarmuts_network_sizes { uint32_t room, links; uint64_t rounds; };
struct toarmuts_network_mote { ...; };
struct toarmuts_link { ...; };
uint32_t open_network(const struct toarmuts_network_sizes *sizes, const struct toarmuts_network_mote *motes, uint64_t count,
                      const struct toarmuts_link *links, uint64_t links_count, struct toarmuts_network *network);
void advance_network_script(struct toarmuts_network *network, const uint8_t *script, uint64_t first, uint64_t length,
                            struct advance *advance);
void advance_network(struct toarmuts_network *network, const struct toarmuts_call *call, struct advance *advance);
void advance_network_bundled(struct toarmuts_network *network, struct toarmuts_application *application, struct advance *advance);
uint32_t toarmuts_network_clock(struct toarmuts_network *network, uint64_t *clock);
uint32_t toarmuts_network_due(struct toarmuts_network *network, uint32_t mote, uint64_t *clock);
uint32_t toarmuts_network_close(struct toarmuts_network *network);
"""


class NotBuilt(SystemExit):
    """The library isn't there, or isn't that of the sources, and none can be built. The message has the command that makes it."""


def missing_calls(library: pathlib.Path) -> list[str]:
    """The calls of the header that the library lacks: it was made of older sources."""
    names = re.findall(r"\b(toarmuts_\w+)\(", HEADER.read_text(encoding="utf-8"))
    content = library.read_bytes()
    return [name for name in dict.fromkeys(names) if name.encode() + b"\0" not in content]


def is_stale() -> bool:
    """Whether ./prove made the library, and of other sources than are there now. What `rt lib` made since is newer than the mark."""
    mark, prove = CRATE / "out" / "proved", ROOT / "prove"
    if not mark.exists() or not prove.exists() or LIBRARY.stat().st_mtime > mark.stat().st_mtime:
        return False
    return subprocess.run([str(prove), "--is-current", "toarmuts"], check=False, capture_output=True).returncode == 1


def unproved_library() -> pathlib.Path | None:
    """The library as scripts/unproved.py of the repository builds it without a proof, once; None where that can't be done."""
    script = ROOT / "scripts" / "unproved.py"
    if not script.exists():
        return None
    built = subprocess.run([str(script), "toarmuts"], check=False, stdin=subprocess.DEVNULL, stdout=subprocess.PIPE, text=True)
    return pathlib.Path(built.stdout.rstrip("\n")) if built.returncode == 0 else None


@functools.lru_cache(maxsize=None)
def library_file() -> pathlib.Path:
    """The proved library. Where that is missing, or older than its sources, it is one that is built without a proof; and where that can't
    be built NotBuilt is raised, with the reason."""
    if not LIBRARY.exists():
        why = f"there is no {LIBRARY}: `{PROVE}` in {ROOT} proves and builds it"
    elif lacking := missing_calls(LIBRARY):
        why = f"{LIBRARY} lacks {lacking[0]}, it is older than its header: `{PROVE}` in {ROOT} makes it anew"
    elif "TOARMUTS_STALE" not in os.environ and is_stale():
        why = f"{LIBRARY} is older than its sources: `{PROVE}` in {ROOT} makes it anew (TOARMUTS_STALE=1 takes it as it is)"
    else:
        return LIBRARY
    unproved = unproved_library()
    if unproved is None:
        raise NotBuilt(f"toarmuts: {why}")
    print(f"toarmuts: the library is unproved: {why}", file=sys.stderr)
    return unproved


def write_call_words(folder: pathlib.Path) -> str:
    """Writes the words of calls, of rules.json, as a table in C, and returns the file."""
    rules = json.loads((HERE / "src/toarmuts/rules.json").read_text(encoding="utf-8"))
    rows = sorted((row["name"], kind) for kind, row in enumerate(rules["calls"], 1))
    lines = ['#include "transcript_table.h"', "const struct call_word call_words[] = {"]
    lines += [f'  {{"{word}", {len(word)}, {kind}}},' for word, kind in rows]
    lines += ["};", "const size_t call_words_count = sizeof call_words / sizeof *call_words;", ""]
    return write_source(folder, "call_words.c", "\n".join(lines))


def write_source(folder: pathlib.Path, name: str, text: str) -> str:
    """Writes a file in C, and returns its path for the compiler: an object file goes where its source is."""
    folder.mkdir(parents=True, exist_ok=True)
    place = folder / name
    place.write_text(text, encoding="utf-8")
    return os.path.relpath(place, HERE)


def has_cffi() -> bool:
    """Whether cffi is there to build with, its module for the Python that is installed into, and Python's headers."""
    try:
        import cffi  # noqa: F401
    except ImportError:
        return False
    found = subprocess.run([sys.executable, "-I", "-c", "import _cffi_backend"], check=False, capture_output=True).returncode == 0
    return found and has_headers()


def has_headers() -> bool:
    """Whether Python's headers are there."""
    return os.path.exists(os.path.join(sysconfig.get_path("include"), "Python.h"))


def backend() -> str:
    """``cffi`` or ``ctypes``."""
    asked = os.environ.get("TOARMUTS_BACKEND", "")
    if asked not in ("", "cffi", "ctypes"):
        raise NotBuilt(f"toarmuts: TOARMUTS_BACKEND is {asked!r}; cffi or ctypes is allowed")
    return asked or ("cffi" if has_cffi() else "ctypes")


def build_arguments(folder: pathlib.Path) -> dict[str, Any]:
    """The compiler's arguments, for both ways."""
    return {
        "sources": [*SOURCES, write_call_words(folder), write_source(folder, "memory.c", '#include "toarmuts_memory.c"\n')],
        "include_dirs": [str(HERE / "native"), str(CRATE / "include")],
        "depends": [str(library_file()), str(HEADER), *(str(HERE / "native" / name) for name in HEADERS)],
        "extra_compile_args": ["-std=c11", "-O3"],
        "extra_link_args": ["-Wl,--whole-archive", str(library_file()), "-Wl,--no-whole-archive"],
        "py_limited_api": True,
    }


def extensions() -> list[Any]:
    """The modules that are compiled: the library for ctypes, that for cffi, and what makes entries, where these can be built."""
    from setuptools import Extension

    library_file()
    arguments = build_arguments(HERE / "build" / "native")
    entries = Extension("toarmuts._entries", sources=["native/entries.c"], include_dirs=[str(HERE / "native")],
                        depends=["native/transcript_table.h"], extra_compile_args=["-std=c11", "-O3"], py_limited_api=True)
    shared = Extension("toarmuts._library", **arguments)
    if backend() == "ctypes":
        return [shared] + ([entries] if has_headers() else [])
    from cffi import FFI

    builder = FFI()
    builder.cdef(DECLARED)
    includes = "".join(f'#include "{name}"\n' for name in ("toarmuts.h", *HEADERS))
    builder.set_source("toarmuts._native", includes, **arguments)
    return [builder.distutils_extension(str(HERE / "build" / "native")), shared, entries]


def built() -> dict[str, Any]:
    """What the package records of its build: the repository, which TOARMUTS_REPOSITORY may name, and which library it was."""
    repository, library = os.environ.get("TOARMUTS_REPOSITORY", str(ROOT)), library_file()
    return {"repository": repository, "library": hashlib.sha256(library.read_bytes()).hexdigest(), "is_proved": library == LIBRARY,
            "backend": backend()}
