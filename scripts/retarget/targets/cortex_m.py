"""Cortex-M0, M3 and M4, without and with a floating-point unit."""
from __future__ import annotations

from pathlib import Path

from ..forms import Forms
from . import Target

DATA_LAYOUT = "e-m:e-p:32:32-Fi8-i64:64-v128:64:128-a:0:32-n32-S64"

# What the proved libraries ask of C, with the types that they declare.
MEMORY_CALLS = {
    "rattle_alloc": "{ i64, i64 } (i64, i64)",
    "rattle_realloc": "{ i64, i64 } (ptr, i64, i64, i64)",
    "rattle_dealloc": "void (ptr)",
}

# No proved library has a float, so each core's archive can be called with either convention for floats, but a linker wants one.
SECTIONS = ("-ffunction-sections", "-fdata-sections")


def memory_calls() -> dict[str, str]:
    """The replacement of the memory calls: all of it replaces the first, and the second is removed with it."""
    text = Path(__file__).with_name("memory_calls.ll").read_text(encoding="utf-8")
    return {"rattle_alloc": text, "rattle_realloc": ""}


def core(name: str, architecture: str, processor: str, floats: str = "soft") -> Target:
    """A core, with newlib's malloc, which aligns at 8."""
    environment = "eabihf" if floats == "hard" else "eabi"
    return Target(
        name=name,
        triple=f"{architecture}-unknown-none-{environment}",
        data_layout=DATA_LAYOUT,
        options=(f"--target={architecture}-none-{environment}", f"-mcpu={processor}", f"-mfloat-abi={floats}", *SECTIONS),
        forms=Forms(foreign=MEMORY_CALLS),
        largest_alignment=8,
        stand_ins=memory_calls(),
    )


CORES = (
    core("cortex-m0", "thumbv6m", "cortex-m0"),
    core("cortex-m3", "thumbv7m", "cortex-m3"),
    core("cortex-m4", "thumbv7em", "cortex-m4"),
    core("cortex-m4f", "thumbv7em", "cortex-m4", "hard"),
)
