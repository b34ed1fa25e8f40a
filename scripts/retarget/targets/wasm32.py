"""WebAssembly with 32-bit memory."""
from __future__ import annotations

from pathlib import Path

from ..forms import Forms
from . import Target
from .cortex_m import MEMORY_CALLS

# What the proved programs ask of C beside memory: web/shim/program.c has them.
SYSTEM_CALLS = {
    "read": "i64 (i32, ptr, i64)",
    "write": "i64 (i32, ptr, i64)",
    "__write": "i64 (i32, ptr, i64)",
    "lseek": "i64 (i32, i64, i32)",
    "rattle_arg": "i64 (i64, ptr, i64)",
    "rattle_env": "i64 (ptr, ptr, i64)",
    "rattle_env_at": "i64 (i64, ptr, i64)",
    "rattle_errno": "i32 ()",
    "rattle_set_errno": "void (i32)",
    "__sysv_signal": "i64 (i32, i64)",
    "__x86_get_cpuid_feature_leaf": "ptr (i32)",
    "open": "i32 (ptr, i32, ...)",
    "close": "i32 (i32)",
    "statx": "i32 (i32, ptr, i32, i32, ptr)",
    "realpath": "ptr (ptr, ptr)",
    "rename": "i32 (ptr, ptr)",
    "unlink": "i32 (ptr)",
    "chmod": "i32 (ptr, i32)",
    "fchmod": "i32 (i32, i32)",
    "flock": "i32 (i32, i32)",
    "fsync": "i32 (i32)",
    "fdatasync": "i32 (i32)",
    "ftruncate": "i32 (i32, i64)",
}

# The one instruction of x86-64 that a program asks for by its name.
SHUFFLE = {"llvm.x86.ssse3.pshuf.b.128": "<16 x i8> (<16 x i8>, <16 x i8>)"}

WASM32 = Target(
    name="wasm32",
    triple="wasm32-unknown-unknown",
    data_layout="e-m:e-p:32:32-p10:8:8-p20:8:8-i64:64-i128:128-n32:64-S128-ni:1:10:20",
    options=("--target=wasm32-unknown-unknown", "-mcpu=lime1", "-ffunction-sections", "-fdata-sections", "-mllvm",
             "-expand-div-rem-bits=64"),
    forms=Forms(foreign={**MEMORY_CALLS, **SYSTEM_CALLS, **SHUFFLE}, has_floats=True, has_wide_lanes=True),
    largest_alignment=16,
    stand_ins={name: Path(__file__).with_name("shuffle.ll").read_text(encoding="utf-8") for name in SHUFFLE},
)
