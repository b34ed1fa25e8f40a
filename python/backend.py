"""The build backend: setuptools, from where it is installed. Nothing is fetched, so `pip install ./python` needs no network.

pip builds in an environment that sees no installed package. What a build takes (setuptools, cffi) is looked for in the environment that
is installed into, then beside the Python that it was made of, and then among Debian's packages. Where setuptools has no way to
make a wheel, since the package of that name is lacking, what it built is packed here.
"""
import base64
import hashlib
import os
import pathlib
import runpy
import site
import sys
import sysconfig
import tempfile
import zipfile

DEBIAN = "/usr/lib/python3/dist-packages"
TAG = f"cp310-abi3-{sysconfig.get_platform().replace('-', '_').replace('.', '_')}"


def _folders():
    """Where packages are installed, those of the environment first."""
    yield from site.getsitepackages()
    version = f"python{sys.version_info.major}.{sys.version_info.minor}"
    for folder in ("lib/python3/dist-packages", f"local/lib/{version}/dist-packages", f"lib/{version}/site-packages"):
        yield os.path.join(sys.base_prefix, folder)
    yield DEBIAN


def _see_installed():
    for folder in _folders():
        if os.path.isdir(folder) and folder not in sys.path:
            sys.path.append(folder)


_see_installed()
try:
    from setuptools import build_meta as _setuptools
except ImportError:
    raise SystemExit("toarmuts: setuptools isn't installed: apt-get install python3-setuptools") from None


def _has_wheel():
    """Whether setuptools can make a wheel. Debian's can't by a Python that isn't Debian's, which lacks what its `install` takes."""
    if _setuptools.__file__.startswith(DEBIAN) and sys.base_prefix != "/usr":
        return False
    for name in ("setuptools.command.bdist_wheel", "wheel.bdist_wheel"):
        try:
            __import__(name)
        except ImportError:
            continue
        return True
    return False


def get_requires_for_build_wheel(config_settings=None):
    """Nothing: what is needed is installed, or reported above."""
    return []


get_requires_for_build_editable = get_requires_for_build_sdist = get_requires_for_build_wheel


class UnsupportedOperation(Exception):
    """What this backend doesn't make, and why."""


def build_sdist(sdist_directory, config_settings=None):
    """None is made: it could not be installed."""
    sys.path.insert(0, os.getcwd())
    from build_native import NO_SDIST

    raise UnsupportedOperation(NO_SDIST)


if _has_wheel():
    prepare_metadata_for_build_wheel = _setuptools.prepare_metadata_for_build_wheel
    build_editable = _setuptools.build_editable


def build_wheel(wheel_directory, config_settings=None, metadata_directory=None):
    """The wheel, by setuptools where it can."""
    if _has_wheel():
        return _setuptools.build_wheel(wheel_directory, config_settings, metadata_directory)
    with tempfile.TemporaryDirectory() as folder:
        sys.argv = ["setup.py", "--quiet", "build", "--build-lib", folder]
        runpy.run_path("setup.py", run_name="__main__")
        return _pack(pathlib.Path(folder), pathlib.Path(wheel_directory))


def _project():
    """What pyproject.toml says of the package."""
    try:
        import tomllib
    except ImportError:
        from setuptools.extern import tomli as tomllib
    return tomllib.loads(pathlib.Path("pyproject.toml").read_text(encoding="utf-8"))["project"]


def _metadata(project):
    """The files that describe the package, beside the list of all."""
    head = f"Metadata-Version: 2.1\nName: {project['name']}\nVersion: {project['version']}\nSummary: {project['description']}\n"
    head += "".join(f"Author: {author['name']}\n" for author in project["authors"]) + f"License: {project['license']['text']}\n"
    head += f"Keywords: {','.join(project['keywords'])}\n" + "".join(f"Classifier: {row}\n" for row in project["classifiers"])
    extras = "".join(f"Provides-Extra: {extra}\n" + "".join(f'Requires-Dist: {needed} ; extra == "{extra}"\n' for needed in several)
                     for extra, several in project["optional-dependencies"].items())
    groups = {"console_scripts": project["scripts"], **project["entry-points"]}
    entries = "".join(f"[{group}]\n" + "".join(f"{name} = {place}\n" for name, place in several.items())
                      for group, several in groups.items())
    about = pathlib.Path(project["readme"]).read_text(encoding="utf-8")
    end = f"Requires-Python: {project['requires-python']}\nDescription-Content-Type: text/markdown\n{extras}\n{about}"
    wheel = f"Wheel-Version: 1.0\nGenerator: toarmuts\nRoot-Is-Purelib: false\nTag: {TAG}\n"
    licence = pathlib.Path("LICENSE").read_text(encoding="utf-8")
    return {"METADATA": f"{head}License-File: LICENSE\n{end}", "WHEEL": wheel, "entry_points.txt": entries, "LICENSE": licence}


def _pack(folder, wheel_directory):
    """A wheel of the files in a folder."""
    project = _project()
    stem = f"{project['name']}-{project['version']}"
    files = {str(path.relative_to(folder)): path.read_bytes() for path in sorted(folder.rglob("*")) if path.is_file()}
    files |= {f"{stem}.dist-info/{name}": text.encode() for name, text in _metadata(project).items()}
    record = f"{stem}.dist-info/RECORD"
    rows = [f"{name},sha256={base64.urlsafe_b64encode(hashlib.sha256(data).digest()).rstrip(b'=').decode()},{len(data)}\n"
            for name, data in files.items()]
    name = f"{stem}-{TAG}.whl"
    with zipfile.ZipFile(wheel_directory / name, "w", zipfile.ZIP_DEFLATED) as wheel:
        for place, data in files.items():
            wheel.writestr(place, data)
        wheel.writestr(record, "".join(rows) + f"{record},,\n")
    return name
