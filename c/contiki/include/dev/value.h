/*
 * What a program reads of the world beside its inputs: a sensor's register, a switch, a counter. The value is noted in the record of the
 * run, and a replay of that record returns the noted value, without reading anything.
 */
#ifndef VALUE_H_
#define VALUE_H_

#include <stdint.h>

/* Returns what `read` returns. Only processes may call this; on a board no interrupt may. */
uint32_t value_of(uint32_t (*read)(void));

#endif
