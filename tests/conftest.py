"""What tests take that is made once a session: shared by all workers of pytest-xdist."""

import os
import shutil
from pathlib import Path
from typing import Callable

import pytest

from contiki_programs import Contiki
from fault_library import faults  # noqa: F401  a fixture
from small_tree import Tree
from tools import CRATES, EXAMPLES, current_library, library, once, program, sanitizes, succeed
from web_page import browser, mote_page, native_library, page_file  # noqa: F401  fixtures

# What still may be built while the other tests are carried out: the libraries for C, and then what is made of their modules.
BUILT_LAST = ({"toarmuts_library", "modules_library"}, {"page_file", "proofs"})


def pytest_addoption(parser: pytest.Parser) -> None:
    parser.addoption("--whole", action="store_true", help="also try what takes minutes more: the web page and a release where programs "
                     "must be proved once more for them, and a release in a clean Debian, which comes from a mirror")


def pytest_configure(config: pytest.Config) -> None:
    config.addinivalue_line("markers", "whole: is carried out with --whole alone")


def pytest_collection_modifyitems(config: pytest.Config, items: list[pytest.Item]) -> None:
    """Puts tests that need a library for C last, and after them those that need its module."""
    if not config.getoption("--whole"):
        items[:] = [item for item in items if item.get_closest_marker("whole") is None]
    items.sort(key=lambda item: max((turn for turn, names in enumerate(BUILT_LAST, 1) if names & set(getattr(item, "fixturenames", ()))),
                                    default=0))


@pytest.fixture(scope="session")
def shared(tmp_path_factory: pytest.TempPathFactory) -> Path:
    base = tmp_path_factory.getbasetemp()
    folder = (base.parent if "PYTEST_XDIST_WORKER" in os.environ else base) / "shared"
    folder.mkdir(exist_ok=True)
    return folder


def built(name: str) -> Callable[[], Path]:
    """The fixture of a built program."""
    @pytest.fixture(scope="session", name=name)
    def it() -> Path:
        return program(name)
    return it


mote, scenario, network = built("mote"), built("scenario"), built("network")
mote_picture, network_picture = built("mote_picture"), built("network_picture")


def gathered(place: Path, name: str, *headers: str) -> Path:
    """A folder with a library for C, and files beside it."""
    def gather(folder: Path) -> None:
        folder.mkdir(exist_ok=True)
        for file in (library(name), *(CRATES / name / "include" / header for header in headers)):
            shutil.copy2(file, folder)
    return once(place, gather)


@pytest.fixture(scope="session")
def toarmuts_library(shared: Path) -> Path:
    """A folder with the library for C of crates/toarmuts: its headers, where its memory comes from, and libtoarmuts.a."""
    return gathered(shared / "toarmuts", "toarmuts", "toarmuts.h", "toarmuts_memory.c", "toarmuts_block.h", "toarmuts_block.c")


@pytest.fixture(scope="session")
def modules_library(shared: Path) -> Path:
    """A folder with libmodules_c.a, the archive of the memory modules for C."""
    return gathered(shared / "modules_c", "modules_c")


@pytest.fixture(scope="session")
def c_examples(toarmuts_library: Path, shared: Path) -> Path:
    def make(mark: Path) -> None:
        current_library("toarmuts")
        succeed("make", "-s", "-C", EXAMPLES / "c", "blink", "beat")
        mark.touch()
    once(shared / "c_examples", make)
    return EXAMPLES / "c"


@pytest.fixture(scope="session")
def contiki(toarmuts_library: Path, shared: Path) -> Contiki:
    return Contiki(toarmuts_library, shared / "contiki")


@pytest.fixture(params=["gcc", "clang"])
def sanitizing_compiler(request: pytest.FixtureRequest) -> str:
    compiler = str(request.param)
    if not sanitizes(compiler):
        pytest.skip(f"no {compiler} with sanitizers here")
    return compiler


@pytest.fixture
def tree(tmp_path: Path) -> Tree:
    """A small repository of four crates, whose `rt` and tests are stand-ins."""
    return Tree(tmp_path)


@pytest.fixture
def proved_tree(tmp_path: Path, shared: Path) -> Tree:
    """Such a tree, whose program mote is proved and built."""
    def make(place: Path) -> None:
        place.mkdir(exist_ok=True)
        first = Tree(place)
        assert first.run("prove").returncode == 0, first.stderr
    shutil.copytree(once(shared / "proved", make), tmp_path, symlinks=True, dirs_exist_ok=True)
    return Tree(tmp_path)
