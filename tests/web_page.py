"""What the tests of the page share: the page itself, made once a session, and Chromium.

A page that a test has opened may ask for nothing outside, break no policy of its own, and end no script with an error.
"""

import contextlib
import json
import os
import re
import subprocess
from collections.abc import Iterator
from pathlib import Path
from typing import Any, NamedTuple

import pytest

from devtools import Browser, Page, chromium
from tools import ROOT, once
from web_cases import NativeLibrary

in_chromium = pytest.mark.skipif(not chromium(), reason="no Chromium here (Debian: chromium)")
IS_READY = "document.body?.dataset.isReady === 'yes'"
OWN_ADDRESSES = ("blob:null/", "data:,", "about:")


def script(name: str) -> str:
    """A script of tests/web, the body of a function in the page."""
    return (ROOT / f"tests/web/{name}.js").read_text(encoding="utf-8")


# What a test's script may use beside the page's own.
HELPERS = script("helpers")


def build_page(to: Path, anew: bool) -> None:
    """Makes the page. The tests are skipped where packages of Debian are missing, or where programs would have to be proved once more."""
    made = subprocess.run([ROOT / "scripts/for-web", *(["--anew"] if anew else []), to], capture_output=True, text=True, check=False)
    if made.returncode != 0 and re.search(r"\(Debian: |: --anew$", made.stderr, re.M):
        pytest.skip(made.stderr.strip())
    if made.returncode != 0:
        pytest.fail(made.stderr, pytrace=False)
    print(made.stderr, end="")


@pytest.fixture(scope="session")
def page_file(shared: Path, pytestconfig: pytest.Config) -> Path:
    """The page: the one that TOARMUTS_WEB_PAGE names, as a release's, or one that is made now."""
    made, anew = os.environ.get("TOARMUTS_WEB_PAGE"), bool(pytestconfig.getoption("--whole"))
    return Path(made).resolve() if made else once(shared / "mote.html", lambda to: build_page(to, anew))


@pytest.fixture(scope="session")
def browser(tmp_path_factory: pytest.TempPathFactory) -> Iterator[Browser]:
    with Browser(tmp_path_factory.mktemp("chromium")) as running:
        yield running


class Opened(NamedTuple):
    page: Page

    def ask(self, body: str) -> Any:
        return self.page.ask(f"{HELPERS}\n{{\n{body}\n}}")

    def reload(self) -> None:
        """Loads the page again, as its reader may, and waits until it is ready."""
        self.page.ask("globalThis.isOld = true;")
        self.page.call("Page.reload")
        self.page.wait_for(f"!globalThis.isOld && {IS_READY}")


def set_fields(it: Opened, applications: str = "", inputs: str = "", **sizes: Any) -> None:
    it.ask(f"await showExperiment({json.dumps({'applications': applications, 'script': inputs, **sizes})}); await idle();")


def set_network(it: Opened, network: str, only: int | None = None, quiet: bool = False) -> None:
    it.ask(f"await showExperiment({json.dumps({'network': network, 'only': only, 'quiet': quiet})}); await idle();")


def type_into(it: Opened, editor: str, text: str) -> None:
    """Types a text at the end of an editor, and waits until it has run."""
    it.ask(f"editors.{editor}.focus(); editors.{editor}.code.setCursor(editors.{editor}.code.lastLine(), 999);")
    it.page.insert(text)
    it.page.wait_for(f"editors.{editor}.text.endsWith({json.dumps(text)})")
    it.ask("await new Promise((done) => setTimeout(done, TYPING_PAUSE + 50)); await idle();")


@contextlib.contextmanager
def opened(browser: Browser, address: str, width: int = 1200, dark: bool = False, height: int = 900) -> Iterator[Opened]:
    page = browser.open(address, width, height, dark)
    page.wait_for(IS_READY)
    try:
        yield Opened(page)
    finally:
        # What a page keeps, a later test would find.
        page.ask("localStorage.clear();")
    own = (address.partition("#")[0], *OWN_ADDRESSES)
    outside, errors = [it for it in page.requests() if not it.startswith(own)], page.errors()
    page.close()
    assert (outside, errors) == ([], [])


@pytest.fixture
def mote_page(browser: Browser, page_file: Path) -> Iterator[Opened]:
    with opened(browser, page_file.as_uri()) as it:
        yield it


@pytest.fixture(scope="session")
def native_library(toarmuts_library: Path, shared: Path) -> NativeLibrary:
    return NativeLibrary(once(shared / "libtoarmuts-for-web.so", lambda to: NativeLibrary.link(toarmuts_library, to)))
