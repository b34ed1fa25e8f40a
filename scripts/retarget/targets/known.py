"""All targets, by their names."""
from __future__ import annotations

from . import Target
from .cortex_m import CORES
from .wasm32 import WASM32

TARGETS: dict[str, Target] = {it.name: it for it in (*CORES, WASM32)}
