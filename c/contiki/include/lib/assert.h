/* Assertions. One that fails prints its file and line, as in Contiki-NG, and stops the program. */
#include <assert.h>

#include "sys/cc.h"

/* As in C, the header may be included again after NDEBUG was defined or undefined. */
#undef assert
#ifdef NDEBUG
#define assert(e) ((void)0)
#else
#define assert(e) ((e) ? (void)0 : _xassert(__FILE__, __LINE__))
#endif

#ifndef CONTIKI_ASSERT_H_
#define CONTIKI_ASSERT_H_

CC_NORETURN void _xassert(const char *file, int lineno);

#endif
