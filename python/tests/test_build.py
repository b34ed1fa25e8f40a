"""A library that is missing or stale is reported, with the command that makes it; both ways to the library answer the same."""
import email
import importlib.metadata
import json
import os
import shutil
import subprocess
import sys

import pytest
from common import ROOT

import toarmuts
from toarmuts.library import HERE, library, repository

try:
    import tomllib
except ImportError:
    from setuptools.extern import tomli as tomllib

TOLD = "import toarmuts\ntry:\n    toarmuts.run(['hello'])\nexcept toarmuts.LibraryError as fault:\n    print(fault)\n"


def run_python(code, folder=ROOT / "python", **environment):
    """What a program prints, and the last line of what it tells where it fails."""
    done = subprocess.run([sys.executable, "-c", code], cwd=folder, env={**os.environ, **environment}, capture_output=True, text=True,
                          check=False)
    return (done.stdout + done.stderr).strip()


def check_library(crate, **environment):
    """What is reported of the library that a build takes."""
    return run_python("import build_native; build_native.library_file()", TOARMUTS_CRATE=str(crate), **environment)


def test_a_missing_library_is_reported_before_it_is_built(tmp_path):
    crate = tmp_path / "crates/toarmuts"
    crate.mkdir(parents=True)
    output = check_library(crate)
    assert f"there is no {crate}/out/libtoarmuts.a" in output and "`./prove toarmuts`" in output


def test_a_library_that_is_older_than_its_header_is_reported(tmp_path):
    crate = tmp_path / "crates/toarmuts"
    (crate / "include").mkdir(parents=True)
    (crate / "out").mkdir()
    (crate / "include/toarmuts.h").write_text("void toarmuts_run(void);\nvoid toarmuts_newer(void);\n")
    (crate / "out/libtoarmuts.a").write_bytes(b"toarmuts_run\0")
    output = check_library(crate)
    assert "lacks toarmuts_newer, it is older than its header" in output and "`./prove toarmuts`" in output


def test_a_library_of_other_sources_is_reported(tmp_path):
    """A stub of ./prove says that it isn't current."""
    crate = tmp_path / "crates/toarmuts"
    (crate / "include").mkdir(parents=True)
    (crate / "out").mkdir()
    (crate / "include/toarmuts.h").write_text("void toarmuts_run(void);\n")
    (crate / "out/libtoarmuts.a").write_bytes(b"toarmuts_run\0")
    (crate / "out/proved").write_text("")
    prove = tmp_path / "prove"
    prove.write_text("#!/bin/sh\nexit $(cat status)\n".replace("status)", f"{tmp_path}/status)"))
    prove.chmod(0o755)
    (tmp_path / "status").write_text("1\n")
    assert "is older than its sources: `./prove toarmuts`" in check_library(crate)
    (tmp_path / "status").write_text("0\n")
    assert check_library(crate) == ""


@pytest.mark.parametrize("environment, reason", [
    ({"TOARMUTS_LIBRARY": "/no/such/library.so"}, "TOARMUTS_LIBRARY names /no/such/library.so, which isn't there; `./prove toarmuts`"),
    ({"TOARMUTS_LIBRARY": __file__}, "can't be loaded"),
    ({"TOARMUTS_BACKEND": "none"}, "TOARMUTS_BACKEND is 'none'; cffi or ctypes is allowed"),
])
def test_a_library_that_cannot_be_taken_is_reported(environment, reason):
    assert reason in run_python(TOLD, **environment)


def test_a_way_to_the_library_that_was_not_built_is_reported():
    """With cffi's way that of ctypes is built, too."""
    asks = "import toarmuts.library as it; print(it.library().backend)"
    if "TOARMUTS_LIBRARY" in os.environ:
        return
    assert run_python(asks, TOARMUTS_BACKEND="ctypes") == "ctypes"
    if any(HERE.glob("_native*.so")):
        assert run_python(asks, TOARMUTS_BACKEND="cffi") == "cffi"
    else:
        assert "TOARMUTS_BACKEND is 'cffi', and toarmuts was built for ctypes" in run_python(TOLD, TOARMUTS_BACKEND="cffi")


def test_what_an_earlier_build_left_is_not_installed(tmp_path):
    """A library for cffi of an environment that had it, and a module that is no more."""
    shutil.copytree(ROOT / "python", tmp_path / "python", ignore=shutil.ignore_patterns("build", "*.egg-info", "*.so"))
    folder = tmp_path / "built/toarmuts"
    folder.mkdir(parents=True)
    for left in ("_native.abi3.so", "gone.py"):
        (folder / left).write_text("")
    subprocess.run([sys.executable, "setup.py", "--quiet", "build_py", "--build-lib", tmp_path / "built"], check=True, capture_output=True,
                   cwd=tmp_path / "python", env={**os.environ, "TOARMUTS_CRATE": str(ROOT / "crates/toarmuts")})
    names = {path.name for path in folder.iterdir()}
    assert {"__init__.py", "mote.py", "rules.json", "built.json"} <= names and not {"_native.abi3.so", "gone.py"} & names


def test_another_library_is_reported(tmp_path):
    """One that was built of an empty file."""
    (tmp_path / "empty.c").write_text("int nothing;\n")
    subprocess.run(["gcc", "-shared", "-fPIC", "-o", tmp_path / "empty.so", tmp_path / "empty.c"], check=True)
    assert "lacks toarmuts_run, it is older than this package" in run_python(TOLD, TOARMUTS_LIBRARY=str(tmp_path / "empty.so"))


def test_the_sources_alone_tell_what_is_missing(tmp_path):
    """The package is looked for in a copy of its sources, with nothing compiled."""
    import shutil

    shutil.copytree(ROOT / "python/src", tmp_path / "src", ignore=shutil.ignore_patterns("*.so", "__pycache__"))
    output = run_python(TOLD, tmp_path, PYTHONPATH=str(tmp_path / "src"))
    assert "the compiled library isn't in" in output and "`pip install ./python`" in output


def test_debians_setuptools_makes_no_wheel_for_another_python():
    """So what it built is packed by the backend."""
    code = ("import backend, sys\nbackend._setuptools.__file__ = backend.DEBIAN + '/setuptools/build_meta.py'\n"
            "sys.base_prefix = '/opt/python'\n")
    assert run_python(f"{code}print(backend._has_wheel())") == "False"


def test_a_repository_with_another_library_is_reported(tmp_path):
    """It may have been built anew since."""
    (tmp_path / "crates/toarmuts/out").mkdir(parents=True)
    code = "import toarmuts; from toarmuts.library import repository; print(repository()); toarmuts.run(['hello'])"
    output = run_python(code, tmp_path, TOARMUTS_REPOSITORY=str(tmp_path))
    assert output == str(tmp_path)
    (tmp_path / "crates/toarmuts/out/libtoarmuts.a").write_bytes(b"another one")
    output = run_python(code, tmp_path, TOARMUTS_REPOSITORY=str(tmp_path))
    made = tmp_path / "crates/toarmuts/out/libtoarmuts.a"
    assert f"toarmuts was built with another library than {made}: `pip install {tmp_path}/python` rebuilds it" in output
    assert run_python("import toarmuts; toarmuts.run(['hello'])") == ""


def test_a_stale_library_may_be_taken_without_the_program_that_tells(tmp_path):
    """The folders python and crates/toarmuts alone, as a packager copies them."""
    crate = tmp_path / "crates/toarmuts"
    (crate / "include").mkdir(parents=True)
    (crate / "out").mkdir()
    (crate / "include/toarmuts.h").write_text("void toarmuts_run(void);\n")
    (crate / "out/libtoarmuts.a").write_bytes(b"toarmuts_run\0")
    (crate / "out/proved").write_text("")
    assert check_library(crate) == ""
    (tmp_path / "prove").write_text("#!/bin/sh\ntouch asked\nexit 1\n")
    (tmp_path / "prove").chmod(0o755)
    assert check_library(crate, TOARMUTS_STALE="1") == "" and "older than its sources" in check_library(crate)


@pytest.mark.parametrize("status", [0, 1])
def test_an_unproved_library_is_built_where_there_is_no_proved_one(tmp_path, status):
    """By scripts/unproved.py, for which there is a stand-in. Where it fails the reason is that of the proved one."""
    (tmp_path / "scripts").mkdir()
    script = tmp_path / "scripts/unproved.py"
    script.write_text(f"#!/bin/sh\necho /unproved/$1.a\nexit {status}\n")
    script.chmod(0o755)
    output = run_python("import build_native; print(build_native.library_file())", TOARMUTS_CRATE=str(tmp_path / "crates/toarmuts"))
    assert ("/unproved/toarmuts.a" in output) == (status == 0)
    assert f"toarmuts: {'the library is unproved: ' * (status == 0)}there is no {tmp_path}/crates/toarmuts/out/libtoarmuts.a: " in output


@pytest.mark.parametrize("is_proved", [True, False])
def test_an_unproved_library_is_reported(tmp_path, is_proved):
    """A warning, once, where the package was built with an unproved library."""
    settings = copied(tmp_path, "/nowhere", is_proved=is_proved)
    if "TOARMUTS_LIBRARY" in os.environ:
        return
    output = run_python("import toarmuts; toarmuts.run(['hello'])", tmp_path, **settings)
    assert output.count("the library of toarmuts is unproved; `./prove toarmuts`") == (not is_proved)


def copied(folder, repository, **note):
    """The installed package in another place, with this note of its build."""
    place = folder / "toarmuts"
    shutil.copytree(HERE, place, ignore=shutil.ignore_patterns("__pycache__"))
    (place / "built.json").write_text(json.dumps({"repository": repository, **note}))
    return {"PYTHONPATH": str(folder), "PATH": "/nowhere", "TOARMUTS_PICTURE": ""}


def lure(folder):
    """A folder that looks like a repository, with a program that must not be run."""
    (folder / "crates/toarmuts").mkdir(parents=True)
    program = folder / "crates/mote_picture/out/mote_picture"
    program.parent.mkdir(parents=True)
    program.write_text("#!/bin/sh\necho '<svg>lured</svg>'\n")
    program.chmod(0o755)
    return program


SHOWN = ("import toarmuts.picture as picture, toarmuts.library as library\n"
         "print(library.HERE.parent.name, library.repository(), picture.program())")


def test_a_program_from_a_parent_folder_is_never_run(tmp_path):
    """A wheel that names no repository may lie below a folder of anyone's."""
    lure(tmp_path)
    environment = copied(tmp_path / "environment/lib/site-packages", "")
    assert run_python(SHOWN, tmp_path, **environment) == "site-packages None None"
    # In a clone the sources are python/src/toarmuts, and so it is known where that begins.
    environment = copied(tmp_path / "python/src", "")
    assert run_python(SHOWN, tmp_path, **environment) == f"src {tmp_path} {tmp_path}/crates/mote_picture/out/mote_picture"


@pytest.mark.skipif(os.geteuid() != 0, reason="only root gives files away")
def test_a_program_of_another_user_is_never_run(tmp_path):
    """The folder that was noted may be gone, and made anew by anyone."""
    program, folder = lure(tmp_path / "noted"), tmp_path / "noted"
    environment = copied(tmp_path / "packages", str(folder))
    assert run_python(SHOWN, tmp_path, **environment) == f"packages {folder} {program}"
    os.chown(program, 12345, 12345)
    assert run_python(SHOWN, tmp_path, **environment) == f"packages {folder} None"
    os.chown(folder, 12345, 12345)
    assert run_python(SHOWN, tmp_path, **environment) == "packages None None"
    environment["TOARMUTS_REPOSITORY"] = str(folder)
    assert run_python(SHOWN, tmp_path, **environment) == f"packages {folder} {program}"


def test_where_there_is_no_cffi_the_other_way_is_taken():
    """A wheel that was built with it may come to an environment that has none."""
    code = "import sys; sys.modules['_cffi_backend'] = None\nimport toarmuts.library as it; print(it.library().backend)"
    if "TOARMUTS_LIBRARY" not in os.environ and any(HERE.glob("_library*.so")):
        assert run_python(code) == "ctypes"
        assert run_python(code.replace("; sys.modules['_cffi_backend'] = None", "")) == library().backend


def test_the_metadata_tell_what_the_package_is():
    """Of what is installed, and of a wheel that the backend packs."""
    packed = run_python("import backend; print(backend._metadata(backend._project())['METADATA'])")
    project = tomllib.loads((ROOT / "python/pyproject.toml").read_text())["project"]
    for metadata in (email.message_from_string(packed), importlib.metadata.metadata("toarmuts")):
        assert (metadata["Name"], metadata["Version"], metadata["Author"]) == ("toarmuts", toarmuts.__version__, "the Toarmuts authors")
        assert metadata["Requires-Python"] == ">=3.10" and metadata["Description-Content-Type"] == "text/markdown"
        assert metadata.get_all("Classifier") == project["classifiers"] and metadata["Keywords"] == ",".join(project["keywords"])
        about = metadata.get_payload() or metadata["Description"]
        assert about.strip() == (ROOT / "python/README.md").read_text().strip()
        assert sorted(metadata.get_all("Provides-Extra")) == sorted(project["optional-dependencies"])


def test_no_source_distribution_is_offered(tmp_path):
    output = run_python(f"import backend; backend.build_sdist({str(tmp_path)!r})")
    assert "UnsupportedOperation: there is no source distribution: it would lack the proved library" in output
    assert "`pip wheel ./python`" in output and not list(tmp_path.iterdir())
    environment = {**os.environ, "TOARMUTS_CRATE": str(ROOT / "crates/toarmuts")}
    done = subprocess.run([sys.executable, "setup.py", "--quiet", "sdist", "--dist-dir", tmp_path], cwd=ROOT / "python", env=environment,
                          capture_output=True, text=True, check=False)
    assert done.returncode == 1 and "toarmuts: there is no source distribution" in done.stderr and not list(tmp_path.iterdir())


def test_it_tells_of_itself():
    output = run_python("import runpy, sys; sys.argv = ['toarmuts']; runpy.run_module('toarmuts', run_name='__main__')")
    for words in (f"toarmuts {toarmuts.__version__}, in {HERE}", f"called by {library().backend}", "> tick 10", "its event timer 0 ran out",
                  "docs/python.md"):
        assert words in output, output
    done = subprocess.run([sys.executable, "-m", "toarmuts", "--version"], capture_output=True, text=True, check=False)
    assert (done.returncode, done.stdout) == (0, f"toarmuts {toarmuts.__version__}\n")


def test_modules_are_there_once_they_are_asked_for():
    code = "import sys, toarmuts; print('hypothesis' in sys.modules, toarmuts.strategies.KINDS[0], toarmuts.campaign.PATIENCE)"
    assert run_python(code) == "False tick 10"
    assert "AttributeError: module 'toarmuts' has no attribute 'frob'" in run_python("import toarmuts; toarmuts.frob")


def test_it_knows_how_it_was_built():
    assert library().backend in ("cffi", "ctypes") and library() is library()
    root = repository()
    assert root is not None and (root / "crates/toarmuts").is_dir()
    assert toarmuts.run(["hello"]).finished
