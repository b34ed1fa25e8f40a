"""The package for Python: installed without a network into fresh environments, with its tests, pages and types."""

import functools
import os
import re
import shutil
from pathlib import Path
from typing import Callable

import pytest

from tools import CRATES, EXAMPLES, ROOT, SANITIZERS, Completed, Word, all_hold, needs, once, output_of, run, succeed, with_sanitizers

PACKAGE = ROOT / "python"
TESTS = PACKAGE / "tests"
# Debian's Python, whose packages these are.
PYTHON = "/usr/bin/python3" if os.access("/usr/bin/python3", os.X_OK) else "python3"
# What cffi writes has unused parameters.
WARNINGS = "-Wextra -Werror -Wno-unused-parameter -Wno-missing-field-initializers"
NO_WHEEL = """import sys
sys.modules['wheel'] = sys.modules['wheel.bdist_wheel'] = sys.modules['setuptools.command.bdist_wheel'] = None
import backend
backend.build_wheel(sys.argv[1])
"""
# The Python of an environment, by its name.
Environments = Callable[[str], Path]


@functools.lru_cache(maxsize=None)
def has(module: str) -> bool:
    return run(PYTHON, "-c", f"import {module}").returncode == 0


def lacks(*modules: str) -> pytest.MarkDecorator:
    lacking = [module for module in modules if not has(module)]
    return pytest.mark.skipif(bool(lacking), reason=f"not here, for {PYTHON}: {', '.join(lacking)}")


pytestmark = [lacks("venv", "ensurepip", "setuptools"), needs("gcc")]


@pytest.fixture(autouse=True)
def settings(monkeypatch: pytest.MonkeyPatch) -> None:
    """What pip takes is there: it must ask nobody. Nothing tells where another library is, or of the pytest that carries this out."""
    for name in [*(name for name in os.environ if name.startswith(("PYTEST_", "TOARMUTS_"))), "PYTHONPATH"]:
        monkeypatch.delenv(name, raising=False)
    for name in ("PIP_NO_INDEX", "PIP_DISABLE_PIP_VERSION_CHECK", "PYTHONDONTWRITEBYTECODE"):
        monkeypatch.setenv(name, "1")


def make_environment(place: Path) -> None:
    """Makes an environment with a new build of the package: `bare` sees none of Debian's packages, `sanitized` has what is written in C
    with the sanitizers, and `packed` has a wheel that was made without the package of that name."""
    succeed(PYTHON, "-m", "venv", "--clear", *([] if place.name == "bare" else ["--system-site-packages"]), place)
    package, settings = place / "package", {"TOARMUTS_CRATE": str(CRATES / "toarmuts")}
    shutil.copytree(PACKAGE, package, ignore=shutil.ignore_patterns("build", "*.egg-info", "*.so", "__pycache__"))
    if place.name == "sanitized":
        settings |= {"CFLAGS": f"{SANITIZERS[0]} -fno-sanitize-recover=undefined {WARNINGS}", "LDFLAGS": SANITIZERS[0]}
    if place.name == "packed":
        succeed(PYTHON, "-c", NO_WHEEL, place, cwd=package, settings=settings)
        package, = place.glob("toarmuts-*.whl")
    succeed(place / "bin/pip", "install", package, cwd=place.parent, settings=settings)


@pytest.fixture(scope="module")
def environments(toarmuts_library: Path, shared: Path) -> Environments:
    """The Python of an environment of this name, which is made once. The library for C is there."""
    assert toarmuts_library.exists()
    return lambda name: once(shared / "python" / name, make_environment) / "bin/python"


def pass_all(ran: Completed) -> None:
    """Some tests passed, and none failed; of those that were skipped it is told why."""
    last = ran.stdout.decode().rstrip().rpartition("\n")[2]
    assert ran.returncode == 0 and re.search(r"\b[1-9]\d* passed", last), output_of(ran)
    if "skipped" in last:
        pytest.skip("passed, but for: " + "; ".join(re.findall(r"^SKIPPED (.*)", ran.stdout.decode(), re.M)))


def pytest_by(python: Path, *words: Word, cwd: Path = TESTS, settings: dict[str, str] | None = None) -> None:
    pass_all(run(python, "-m", "pytest", "-q", "-p", "no:cacheprovider", "-rs", *words, cwd=cwd, settings=settings, timeout=3600))


@pytest.mark.parametrize("name", ["bare", "environment"])
def test_backend(environments: Environments, name: str) -> None:
    """The library is loaded by cffi if there is one, otherwise by ctypes."""
    told_of = succeed(environments(name), "-c", "from toarmuts.library import library; print(library().backend)").stdout
    if name == "environment" and not has("cffi"):
        pytest.skip("no python3-cffi here: the library is taken by ctypes alone")
    assert told_of.decode().strip() == ("ctypes" if name == "bare" else "cffi")


@needs("make")
@pytest.mark.parametrize("name", ["bare", "environment", "packed"])
def test_example(environments: Environments, c_examples: Path, tmp_path: Path, name: str) -> None:
    ran = succeed(environments(name), EXAMPLES / "python/blink.py", cwd=tmp_path)
    assert ran.stdout == succeed(c_examples / "blink").stdout != b""


@lacks("pytest", "hypothesis")
@pytest.mark.parametrize("file", sorted(path.name for path in TESTS.glob("test_*.py")))
def test_tests(environments: Environments, file: str) -> None:
    pytest_by(environments("environment"), file)


@lacks("pytest", "hypothesis")
def test_docstrings(environments: Environments, tmp_path: Path) -> None:
    pytest_by(environments("environment"), "--doctest-modules", "--pyargs", "toarmuts", "--ignore-glob=*/by_c*.py", cwd=tmp_path)


@lacks("pytest", "hypothesis")
def test_page(environments: Environments, tmp_path: Path) -> None:
    pytest_by(environments("environment"), "-p", "same_each_time", "--doctest-glob=*.md", ROOT / "docs/python.md", cwd=tmp_path,
              settings={"PYTHONPATH": str(TESTS)})


@lacks("pytest", "hypothesis", "cffi")
@with_sanitizers
@pytest.mark.parametrize("file", ["test_entries.py", "test_mote.py", "test_network.py"])
def test_sanitized(environments: Environments, file: str) -> None:
    """What is written in C, with all warnings and the sanitizers."""
    places = [succeed("gcc", f"-print-file-name={name}").stdout.decode().strip() for name in ("libasan.so", "libubsan.so")]
    pytest_by(environments("sanitized"), file, settings={"LD_PRELOAD": ":".join(places), "ASAN_OPTIONS": "detect_leaks=0"})


@lacks("pytest", "hypothesis")
@pytest.mark.parametrize("file", ["test_entries.py", "test_mote.py", "test_arguments.py", "test_network.py"])
def test_by_ctypes(environments: Environments, tmp_path: Path, file: str) -> None:
    """What depends on the way to the library: once more by ctypes, with rows made in Python."""
    python = environments("environment")
    shared_library, = environments("bare").parent.parent.glob("lib/python3*/site-packages/toarmuts/_library*.so")
    package, = python.parent.parent.glob("lib/python3*/site-packages/toarmuts")
    shutil.copytree(package, tmp_path / "toarmuts", ignore=shutil.ignore_patterns("_entries*.so"))
    pytest_by(python, file, settings={"PYTHONPATH": str(tmp_path), "TOARMUTS_LIBRARY": str(shared_library)})


@needs("mypy")
@pytest.mark.parametrize(("folder", "files"), [(PACKAGE, ["src"]), (EXAMPLES / "python", sorted((EXAMPLES / "python").glob("*.py")))],
                         ids=["package", "examples"])
def test_types(tmp_path: Path, folder: Path, files: list[Word]) -> None:
    succeed("mypy", "--strict", "--cache-dir", tmp_path, *files, cwd=folder, settings={"MYPYPATH": str(PACKAGE / "src")})


def test_table_of_transcripts(sanitizing_compiler: str, tmp_path: Path) -> None:
    words = tmp_path / "words"
    succeed(PYTHON, "-c", "import build_native, pathlib, sys; build_native.write_call_words(pathlib.Path(sys.argv[1]))", words, cwd=PACKAGE)
    succeed(sanitizing_compiler, "-std=c11", "-O1", "-g", "-Wall", "-Wextra", "-Werror", *SANITIZERS, f"-I{PACKAGE}/native",
            f"-I{ROOT}/tests/c", ROOT / "tests/c/transcript_table_test.c", PACKAGE / "native/transcript_table.c", words / "call_words.c",
            "-o", tmp_path / "table")
    all_hold(run(tmp_path / "table", "200000", timeout=3600))
