"""The memory modules for C where a call is refused, or takes exactly what is left: short programs under the sanitizers."""

from pathlib import Path

import pytest

from contiki_programs import outcome
from test_modules import MODULES, SANITIZED, build_modules
from tools import output_of, run, succeed, with_sanitizers

# Programs over the modules as they are in the library: a heap of 65,536 bytes, managed memory of 4,096.
PROGRAM = """#include "lib/heapmem.h"
#include "lib/mmem.h"
#include "toarmuts/memory.h"
#include <stdio.h>
#include <string.h>
int
main(void)
{
%s
  return 0;
}
"""
# A block whose resize is refused since no gap has the bytes, though its zone has them: what is left is in two gaps.
REFUSED = """  char *block = heapmem_alloc(20), *gap = heapmem_alloc(30000), *end = heapmem_alloc(20);
  memset(block, 1, 20);
  if(!heapmem_free(gap) || heapmem_realloc(block, 40000) != NULL || end == NULL) {
    return 2;
  }
"""


@pytest.fixture(scope="module")
def checked(modules_library: Path, shared: Path) -> Path:
    return build_modules(shared / "modules-checked", modules_library, "gcc", *SANITIZED)


def compiled(modules: Path, folder: Path, statements: str) -> Path:
    (folder / "program.c").write_text(PROGRAM % statements, encoding="utf-8")
    built = folder / "program"
    succeed("gcc", "-std=c11", "-Wall", "-Wextra", *SANITIZED, f"-I{MODULES}/include", folder / "program.c", modules, "-o", built)
    return built


@with_sanitizers
@pytest.mark.parametrize(("write", "is_own"), [("block[19] = 2;", True), ("block[20] = 2;", False), ("block[31] = 2;", False),
                                               ("gap[0] = 2;", False), ("end[19] = 2;", True), ("end[-1] = 2;", False)])
def test_block_whose_resize_is_refused(checked: Path, tmp_path: Path, write: str, is_own: bool) -> None:
    """It has its own bytes as before, and the sanitizer still finds a write beyond them."""
    ran = run(compiled(checked, tmp_path, f"{REFUSED}  {write}"))
    assert (ran.returncode == 0, b"use-after-poison" in ran.stderr) == (is_own, not is_own), output_of(ran)


@with_sanitizers
def test_zone_of_all_that_is_left(checked: Path, tmp_path: Path) -> None:
    """A zone may have exactly what the general zone has left; then that has nothing."""
    ran = run(compiled(checked, tmp_path, """  size_t all = 65536 - 48;
  char *block = heapmem_alloc(33);
  heapmem_zone_t more = heapmem_zone_register("more", all + 1), rest = heapmem_zone_register("rest", all);
  printf("%d %d %d ", more == HEAPMEM_ZONE_INVALID, rest, heapmem_zone_register("none", 1) == HEAPMEM_ZONE_INVALID);
  printf("%d ", heapmem_zone_register("empty", 0));
  printf("%d %d ", heapmem_alloc(1) == NULL, heapmem_zone_alloc(rest, all + 1) == NULL);
  printf("%d\\n", heapmem_zone_alloc(rest, all) == block + 48);"""))
    assert outcome(ran) == (0, "1 1 1 2 1 1 1\n", "")


@with_sanitizers
def test_rows_that_are_given_back(checked: Path, tmp_path: Path) -> None:
    """A call compares only the rows up to the last one with a block: what is in rows after it doesn't matter."""
    ran = run(compiled(checked, tmp_path, """  static struct mmem m[4];
  int is_right = 1;
  for(int i = 0; i < 4; i++) {
    is_right &= mmem_alloc(&m[i], 16);
  }
  mmem_free(&m[1]);
  mmem_free(&m[3]);
  mmem_free(&m[2]);
  memset(&toarmuts_mmem_memory.rows[2], 0xff, 2 * sizeof toarmuts_mmem_memory.rows[2]);
  printf("%d %d ", is_right, mmem_alloc(&m[1], 16));
  mmem_free(&m[0]);
  mmem_free(&m[1]);
  memset(&toarmuts_mmem_memory.rows[1], 0xff, sizeof toarmuts_mmem_memory.rows[1]);
  printf("%d\\n", mmem_alloc(&m[2], 4096));"""))
    assert outcome(ran) == (0, "1 1 1\n", "")
