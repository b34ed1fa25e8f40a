/*
 * A mote in a block of the caller's, without malloc. toarmuts_block.c is compiled in place of toarmuts_memory.c; what else of the library
 * allocates memory (toarmuts_open, toarmuts_run, networks) says OUT_OF_MEMORY then.
 */
#ifndef TOARMUTS_BLOCK_H_
#define TOARMUTS_BLOCK_H_

#include "toarmuts.h"

#include <stddef.h>

#ifdef __cplusplus
extern "C" {
#endif

/* As toarmuts_open, with all memory in these bytes, which are the mote's up to toarmuts_close. OUT_OF_MEMORY where they are too few.
 * One mote is opened at a time. */
uint32_t toarmuts_open_in(void *block, size_t size, const struct toarmuts_configuration *configuration, uint32_t applications,
                          struct toarmuts_mote *mote);

/* How many bytes the last mote needed that toarmuts_open_in opened: so many, at a multiple of 16, are enough for another one with the same
 * arguments. */
size_t toarmuts_block_used(void);

#ifdef __cplusplus
}
#endif

#endif
