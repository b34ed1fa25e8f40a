/*
 * Managed memory by handles, under this project's names; lib/mmem.h uses it. Blocks of any sizes in one memory, which move together
 * if the gap after the last one is too short. For x86-64 and aarch64, and for Cortex-M as docs/boards.md says.
 *
 * Duties of the caller: a memory is not NULL. Its rows and mem are valid for num rows and size bytes, and overlap no other object; with
 * a number of 0, NULL is allowed. No two threads use one memory at once, and no signal handler uses one that a thread uses. The calls
 * return for rows of any content. Each call needs less than 1 KB of stack.
 */
#ifndef TOARMUTS_MANAGED_H
#define TOARMUTS_MANAGED_H

#include "toarmuts/calls.h"

TOARMUTS_BEGIN

/* The result of a call for a block. */
enum toarmuts_managed_status {
  TOARMUTS_MANAGED_ALLOCATED = 0, /* the handle has a block */
  TOARMUTS_MANAGED_NO_TABLE =
    1, /* the rows are invalid: a block is outside the memory, or two of them share a byte; or it has 2^32 bytes or more */
  TOARMUTS_MANAGED_NO_HANDLE = 2, /* there is no such handle */
  TOARMUTS_MANAGED_IN_USE = 3,    /* the handle had a block already */
  TOARMUTS_MANAGED_NO_BYTES = 4,  /* no bytes were asked for */
  TOARMUTS_MANAGED_NO_ROOM = 5    /* fewer bytes are free */
};

/* A memory of size bytes, and num rows, one for each handle from 0 on. */
struct toarmuts_managed {
  size_t size;
  size_t num;
  struct toarmuts_managed_row *rows;
  unsigned char *mem;
};

/*
 * Declares a memory of this size, rounded up to a multiple of 16, for this number of blocks. No handle has one. Both must be at least
 * 1, which the compiler checks.
 */
#define TOARMUTS_MANAGED(name, size, handles)                                          \
  TOARMUTS_ASSERT((size) >= 1, "TOARMUTS_MANAGED: a memory has at least 1 byte");      \
  TOARMUTS_ASSERT((handles) >= 1, "TOARMUTS_MANAGED: a memory has at least 1 handle"); \
  static struct toarmuts_managed_row name##_rows[handles];                             \
  static TOARMUTS_BYTES(name##_mem, TOARMUTS_ALIGNED(size));                           \
  static struct toarmuts_managed name = {sizeof name##_mem.bytes, handles, name##_rows, name##_mem.bytes}

/* Frees all blocks. */
void toarmuts_managed_init(struct toarmuts_managed *m);

/*
 * Allocates a block for a handle, its bytes all 0, and returns the result. Nothing changes unless that is ALLOCATED. A block uses its
 * size, rounded up to a multiple of 16. Each block may move; old pointers into it are invalid.
 */
enum toarmuts_managed_status toarmuts_managed_alloc(struct toarmuts_managed *m, size_t handle, size_t size);

/* Frees a handle's block: true; false, and nothing changes, if it has none. No block moves. */
bool toarmuts_managed_free(struct toarmuts_managed *m, size_t handle);

/* The address of a handle's block, a multiple of 16, valid until the next toarmuts_managed_alloc; NULL if it has none in the memory. */
void *toarmuts_managed_pointer(const struct toarmuts_managed *m, size_t handle);

/* The number of free bytes; 0 if the rows are invalid. */
size_t toarmuts_managed_available(const struct toarmuts_managed *m);

TOARMUTS_END

#endif
