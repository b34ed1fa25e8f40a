/* Mutexes, atomic operations and the check of the stack. */
#include "contiki.h"
#include "sys/atomic.h"
#include "sys/critical.h"
#include "sys/memory-barrier.h"
#include "sys/mutex.h"
#include "sys/stack-check.h"

#include <stdio.h>

static mutex_t mutex = MUTEX_STATUS_UNLOCKED;
static uint8_t shared;

PROCESS(locks_process, "Locks");
AUTOSTART_PROCESSES(&locks_process);

PROCESS_THREAD(locks_process, ev, data)
{
  int32_t actual, allowed;
  int_master_status_t status;

  PROCESS_BEGIN();

  printf("lock: %d", mutex_try_lock(&mutex));
  printf(", again: %d", mutex_try_lock(&mutex));
  mutex_unlock(&mutex);
  printf(", unlocked: %d\n", mutex_try_lock(&mutex));

  status = critical_enter();
  printf("swap: %d", atomic_cas_uint8(&shared, 0, 7));
  critical_exit(status);
  memory_barrier();
  printf(", again: %d, value %u\n", atomic_cas_uint8(&shared, 0, 9), shared);

  stack_check_init();
  actual = stack_check_get_usage();
  allowed = stack_check_get_reserved_size();
  printf("stack: %s\n", actual > 0 && actual < allowed ? "within its bounds" : "beyond its bounds");

  PROCESS_END();
}
