"""The real rt's module, but of this stand-in for a kit, by its file. $WITH_RT is the path with the real rt,
and $RATTLE another rattle."""

import os
import subprocess
from pathlib import Path

_own, _settings = __file__, {**os.environ, "PATH": os.environ["WITH_RT"]}
_told = subprocess.run(["rt", "doc"], env=_settings, check=True, capture_output=True, text=True).stdout
__file__ = str(Path(_told.strip()).parent / "bin/rtlib.py")
exec(compile(Path(__file__).read_text(encoding="utf-8"), __file__, "exec"))
__file__ = _own
globals()["RATTLE"] = os.environ.get("RATTLE", globals()["RATTLE"])
