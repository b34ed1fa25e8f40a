/* Counting semaphores for protothreads. */
#ifndef PT_SEM_H_
#define PT_SEM_H_

#include "sys/pt.h"

/* The count is head - tail. */
struct pt_sem {
  unsigned int head, tail;
};

#define PT_SEM_COUNT(s) ((s)->head - (s)->tail)

#define PT_SEM_INIT(s, c) \
  do {                    \
    (s)->tail = 0;        \
    (s)->head = (c);      \
  } while(0)

/* Waits until the count is above 0, and decreases it by one. */
#define PT_SEM_WAIT(pt, s)                    \
  do {                                        \
    PT_WAIT_UNTIL((pt), PT_SEM_COUNT(s) > 0); \
    ++(s)->tail;                              \
  } while(0)

#define PT_SEM_SIGNAL(pt, s) (++(s)->head)

#endif
