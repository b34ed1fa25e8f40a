"""The compiled part of the package, and a note on what it was built from."""
import json
import pathlib
import shutil
import sys

from setuptools import setup
from setuptools.command.build_py import build_py
from setuptools.command.sdist import sdist

sys.path.insert(0, str(pathlib.Path(__file__).resolve().parent))
import build_native  # noqa: E402  it is beside this file


class build_py_with_note(build_py):
    """Writes ``built.json`` beside the modules. What an earlier build left there goes: pip would install its library for cffi into an
    environment that has none."""

    def run(self):
        folder = pathlib.Path(self.build_lib) / "toarmuts"
        editable = getattr(self, "editable_mode", False)
        if not editable:
            shutil.rmtree(folder, ignore_errors=True)
        super().run()
        if not editable:
            folder.mkdir(parents=True, exist_ok=True)
            (folder / "built.json").write_text(json.dumps(build_native.built()) + "\n", encoding="utf-8")


class no_sdist(sdist):
    """An archive of this folder could not be installed: the proved library is another part of the repository."""

    def run(self):
        raise SystemExit(f"toarmuts: {build_native.NO_SDIST}")


setup(
    ext_modules=build_native.extensions(),
    cmdclass={"build_py": build_py_with_note, "sdist": no_sdist},
    options={"bdist_wheel": {"py_limited_api": "cp310"}},
)
