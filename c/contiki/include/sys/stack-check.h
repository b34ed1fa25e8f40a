/*
 * The use of the stack. Here it is the stack of the program on its host: the distance from the start of main to the deepest call of
 * the mote so far, with the driver's frames. Functions that don't call the mote aren't measured.
 */
#ifndef STACK_CHECK_H_
#define STACK_CHECK_H_

#include <stdint.h>

/* Does nothing. */
static inline void
stack_check_init(void)
{
}

/* The greatest use so far, in bytes, and the number of bytes that the host allows (ulimit -s), at most INT32_MAX. */
int32_t stack_check_get_usage(void);
int32_t stack_check_get_reserved_size(void);

#endif
