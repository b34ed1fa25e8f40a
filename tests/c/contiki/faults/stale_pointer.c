/* Reads a managed block by a pointer from before another one was freed. */
#include "contiki.h"

#include <stdio.h>

PROCESS(faulty, "Faulty");
AUTOSTART_PROCESSES(&faulty);

PROCESS_THREAD(faulty, ev, data)
{
  static struct mmem front, back;
  char *text;

  PROCESS_BEGIN();

  mmem_alloc(&front, 10);
  mmem_alloc(&back, 10);
  text = MMEM_PTR(&back);
  text[0] = '\0';
  mmem_free(&front);
  printf("%s\n", text);

  PROCESS_END();
}
