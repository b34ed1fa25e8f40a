/* rtimer.h: the callback timer of a process calls for it. */
#include "sys/rtimer.h"

static void
call_back(void *ptr)
{
  struct rtimer *task = ptr;
  if(task->func != NULL) {
    task->func(task, task->ptr);
  }
}

int
rtimer_set_after(struct rtimer *task, rtimer_clock_t time, clock_time_t left, rtimer_callback_t func, void *ptr)
{
  task->time = time;
  task->func = func;
  task->ptr = ptr;
  ctimer_set(&task->ctimer, left, call_back, task);
  return RTIMER_OK;
}
