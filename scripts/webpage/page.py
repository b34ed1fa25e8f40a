"""Puts the page into one file of HTML."""
from __future__ import annotations

import base64
import hashlib
import importlib
import importlib.util
import json
import re
from collections.abc import Mapping
from pathlib import Path

from retarget.refusal import Refused
from webpage.licences import licences

ROOT = Path(__file__).resolve().parent.parent.parent
WEB = ROOT / "web"
EDITOR = Path("/usr/share/javascript/codemirror")
EDITOR_SCRIPTS = ("lib/codemirror.js", "addon/mode/simple.js", "addon/hint/show-hint.js")
EDITOR_STYLES = ("lib/codemirror.css", "addon/hint/show-hint.css")

# The files of web/js, in the order in which a script has them: those of the page, and those of its worker.
PAGE_SCRIPTS = ("bytes", "memory", "library", "calls", "experiment", "network", "explain", "transcript_view", "runner", "editor", "fields",
                "outcome", "link", "keep", "save", "tabs", "divider", "pictures", "hand", "hand_view", "page")
WORKER_SCRIPTS = ("bytes", "memory", "library", "program", "experiment", "network", "folding", "worker")


def read(path: Path) -> str:
    try:
        return path.read_text(encoding="utf-8")
    except FileNotFoundError:
        raise Refused(f"{path} is missing" + (" (Debian: libjs-codemirror)" if EDITOR in path.parents else "")) from None


def require_packages() -> None:
    for name in (*EDITOR_SCRIPTS, *EDITOR_STYLES):
        read(EDITOR / name)
    if importlib.util.find_spec("markdown") is None:
        raise Refused("Python's module markdown is missing (Debian: python3-markdown)")


def value(of: object) -> str:
    return json.dumps(of, ensure_ascii=False, separators=(",", ":")).replace("<", "\\u003c")


def checked(script: str) -> str:
    """A script that no end tag in it can end."""
    if re.search(r"</script|<!--", script, re.IGNORECASE):
        raise Refused("a script has a tag that ends it")
    return script


def joined(names: tuple[str, ...]) -> str:
    return checked('"use strict";\n' + "".join(read(WEB / f"js/{name}.js") for name in names))


def sum_for_policy(script: str) -> str:
    return f"'sha256-{base64.b64encode(hashlib.sha256(script.encode()).digest()).decode()}'"


def policy(scripts: list[str]) -> str:
    """The page's Content-Security-Policy: these scripts and no other, modules of WebAssembly, and nothing from outside."""
    allowed = " ".join(sum_for_policy(script) for script in scripts)
    return (f"default-src 'none'; script-src {allowed} 'wasm-unsafe-eval'; worker-src blob:; style-src 'unsafe-inline'; img-src data:; "
            "base-uri 'none'; form-action 'none'")


def page_script(modules: Mapping[str, Path]) -> str:
    data = {
        "RULES": value(json.loads(read(ROOT / "interface/rules.json"))),
        "EXAMPLES": value(json.loads(read(WEB / "examples.json"))),
        "MODULES": value({name: base64.b64encode(path.read_bytes()).decode() for name, path in modules.items()}),
    }
    return "\n" + "".join(f"const {name} = {text};\n" for name, text in data.items()) + joined(PAGE_SCRIPTS)


def about() -> str:
    """docs/page.md as HTML. Its title is that of the tab."""
    # Debian has its types in a package of their own: this way mypy needs none, and finds nothing where they are there.
    markdown = importlib.import_module("markdown")
    text = read(ROOT / "docs/page.md").partition("\n")[2]
    made: str = markdown.markdown(text, extensions=["tables", "toc"], output_format="html")
    return made


def facts(modules: Mapping[str, Path], commit: str) -> str:
    size = sum(path.stat().st_size for path in modules.values())
    return f"Version {read(ROOT / 'VERSION').strip()}, commit {commit}; {size:,} bytes of WebAssembly."


def make_page(modules: Mapping[str, Path], commit: str) -> str:
    editor = "\n" + checked("".join(read(EDITOR / name) for name in EDITOR_SCRIPTS))
    script = page_script(modules)
    # The explorer's own script, which the page shows in a frame.
    explorer = "\n" + read(ROOT / "crates/mote_picture/web/page.js")
    scripts = "".join([f"<script>{editor}</script>\n", f'<script type="text/plain" id="worker">{joined(WORKER_SCRIPTS)}</script>\n',
                       f"<script>{script}</script>"])
    parts = {
        "POLICY": policy([editor, script, explorer]), "EDITOR_STYLE": "".join(read(EDITOR / name) for name in EDITOR_STYLES),
        "STYLE": read(WEB / "page.css"), "ABOUT": about(), "FACTS": facts(modules, commit), "LICENCES": licences(), "SCRIPTS": scripts,
    }
    return re.sub(r"@([A-Z_]+)@", lambda found: parts[found[1]], read(WEB / "page.html"))
