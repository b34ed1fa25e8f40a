/* Calls itself without end. */
#include "contiki.h"

PROCESS(faulty, "Faulty");
AUTOSTART_PROCESSES(&faulty);

static int
sum_from(int number)
{
  volatile char room[1000];
  room[0] = (char)number;
  return number == 0 ? room[0] : sum_from(number + 1) + room[0];
}

PROCESS_THREAD(faulty, ev, data)
{
  PROCESS_BEGIN();

  PROCESS_PAUSE();
  printf("%d\n", sum_from(1));

  PROCESS_END();
}
