/* Processes that aren't started with the program: they have their numbers by their lines, and on one line by their names. */
#include "contiki.h"

/* clang-format off */
PROCESS(beta, "Beta"); PROCESS(gamma_ray, "Gamma"); PROCESS(alpha, "Alpha");
/* clang-format on */
PROCESS(adder, "Adder");
PROCESS(starter, "Starter");
AUTOSTART_PROCESSES(&starter);

PROCESS_THREAD(starter, ev, data)
{
  PROCESS_BEGIN();

  process_start(&alpha, NULL);
  process_start(&beta, NULL);
  process_start(&gamma_ray, NULL);
  process_start(&adder, NULL);

  PROCESS_END();
}

PROCESS_THREAD(alpha, ev, data)
{
  PROCESS_BEGIN();

  printf("a\n");

  PROCESS_END();
}

PROCESS_THREAD(beta, ev, data)
{
  PROCESS_BEGIN();

  printf("b\n");

  PROCESS_END();
}

PROCESS_THREAD(gamma_ray, ev, data)
{
  PROCESS_BEGIN();

  printf("c\n");

  PROCESS_END();
}

PROCESS_THREAD(adder, ev, data)
{
  PROCESS_BEGIN();

  printf("d\n");

  PROCESS_END();
}
