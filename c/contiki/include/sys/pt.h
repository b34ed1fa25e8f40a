/* Protothreads: functions that can wait, and have no stack meanwhile. Their local variables are lost at each wait. */
#ifndef PT_H_
#define PT_H_

#include "sys/lc.h"

struct pt {
  lc_t lc;
};

/* The results of a protothread. */
#define PT_WAITING 0
#define PT_YIELDED 1
#define PT_EXITED 2
#define PT_ENDED 3

#define PT_THREAD(name_args) char name_args
#define PT_INIT(pt) LC_INIT((pt)->lc)

/* PT_YIELD_FLAG is 1 from the start of a call to its first yield. */
#define PT_BEGIN(pt)        \
  {                         \
    char PT_YIELD_FLAG = 1; \
    (void)PT_YIELD_FLAG;    \
    LC_RESUME((pt)->lc)

#define PT_END(pt)   \
  LC_END((pt)->lc)   \
  PT_YIELD_FLAG = 0; \
  PT_INIT(pt);       \
  return PT_ENDED;   \
  }

/* Returns until the condition holds. */
#define PT_WAIT_UNTIL(pt, condition) \
  do {                               \
    LC_SET((pt)->lc)                 \
    if(!(condition)) {               \
      return PT_WAITING;             \
    }                                \
  } while(0)
#define PT_WAIT_WHILE(pt, condition) PT_WAIT_UNTIL((pt), !(condition))

/* Returns until another protothread has ended or exited. */
#define PT_WAIT_THREAD(pt, thread) PT_WAIT_WHILE((pt), PT_SCHEDULE(thread))

/* Begins another protothread, and returns until it has ended or exited. */
#define PT_SPAWN(pt, child, thread) \
  do {                              \
    PT_INIT((child));               \
    PT_WAIT_THREAD((pt), (thread)); \
  } while(0)

/* Returns, and starts again at the next call. */
#define PT_RESTART(pt) \
  do {                 \
    PT_INIT(pt);       \
    return PT_WAITING; \
  } while(0)

#define PT_EXIT(pt)   \
  do {                \
    PT_INIT(pt);      \
    return PT_EXITED; \
  } while(0)

/* Calls a protothread; not 0 if it hasn't ended. */
#define PT_SCHEDULE(f) ((f) < PT_EXITED)

/* Returns once. */
#define PT_YIELD(pt)         \
  do {                       \
    PT_YIELD_FLAG = 0;       \
    LC_SET((pt)->lc)         \
    if(PT_YIELD_FLAG == 0) { \
      return PT_YIELDED;     \
    }                        \
  } while(0)

/* Returns once, and then until the condition holds. */
#define PT_YIELD_UNTIL(pt, condition)          \
  do {                                         \
    PT_YIELD_FLAG = 0;                         \
    LC_SET((pt)->lc)                           \
    if((PT_YIELD_FLAG == 0) || !(condition)) { \
      return PT_YIELDED;                       \
    }                                          \
  } while(0)

#endif
