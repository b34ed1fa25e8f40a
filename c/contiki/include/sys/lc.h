/* Local continuations: where a function continues when it is called next. It is a `switch` over line numbers, so none may be set within
 * another `switch`, nor two on one line: the compiler reports the latter, and lc_lost the former. */
#ifndef LC_H_
#define LC_H_

#include "sys/cc.h"

typedef unsigned int lc_t;

/* Ends the program: the function has no such line to continue at. */
CC_NORETURN void lc_lost(lc_t line);

#define LC_INIT(s) (s) = 0
#define LC_RESUME(s) \
  switch(s) {        \
  default:           \
    lc_lost(s);      \
  case 0:
#define LC_SET(s) \
  (s) = __LINE__; \
  CC_FALLTHROUGH; \
  case __LINE__:
#define LC_END(s) }

#endif
