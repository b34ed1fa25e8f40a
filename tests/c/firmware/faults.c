/* A process with a mistake, which a line of the serial line names. */
#include "contiki.h"

#include "dev/value.h"
#include "lib/assert.h"

#include <stdlib.h>

PROCESS(careless, "Careless");
AUTOSTART_PROCESSES(&careless);

static volatile int zero;
static int *volatile nowhere;

/* Endless recursion, by frames of some bytes of which only one is written. */
#define DEEP(size)                                     \
  static CC_UNUSED int deep_##size(int n)              \
  {                                                    \
    volatile char room[size];                          \
    room[0] = (char)n;                                 \
    return n == -1 ? 0 : deep_##size(n + 1) + room[0]; \
  }

DEEP(8)
DEEP(100)
DEEP(1000)
DEEP(4000)

static void
set_timers(void)
{
  static struct etimer timers[9];
  for(unsigned i = 0; i < 9; i++) {
    etimer_set(&timers[i], 1000);
  }
}

static uint32_t
read_zero(void)
{
  return (uint32_t)zero + 7;
}

static void
fail(const char *how)
{
  printf("%s\n", how);
  if(strcmp(how, "null") == 0) {
    printf("%d\n", *nowhere);
  } else if(strcmp(how, "zero") == 0) {
    printf("%d\n", 5 / zero);
  } else if(strcmp(how, "exit") == 0) {
    exit(1);
  } else if(strcmp(how, "abort") == 0) {
    abort();
  } else if(strcmp(how, "assert") == 0) {
    assert(zero != 0);
  } else if(strcmp(how, "timers") == 0) {
    set_timers();
  } else if(strcmp(how, "partly") == 0) {
    printf("no line end");
    exit(1);
  } else if(strcmp(how, "value") == 0) {
    printf("%u\n", (unsigned)value_of(read_zero));
  } else {
    int size = atoi(how);
    printf("%d\n", size == 8 ? deep_8(0) : size == 100 ? deep_100(0) : size == 1000 ? deep_1000(0) : deep_4000(0));
  }
}

PROCESS_THREAD(careless, ev, data)
{
  PROCESS_BEGIN();
  printf("ready\n");
  while(1) {
    PROCESS_WAIT_EVENT_UNTIL(ev == serial_line_event_message);
    fail(data);
  }
  PROCESS_END();
}
