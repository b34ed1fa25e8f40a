/* Headers by their bare names, as Contiki-NG finds them; text that stdio keeps, which comes out before each wait; no input. */
#include "contiki.h"

#include "etimer.h"
#include "leds.h"
#include "linkaddr.h"
#include "list.h"
#include "log.h"
#include "nullnet.h"
#include "random.h"
#include "serial-line.h"

PROCESS(names, "Names");
AUTOSTART_PROCESSES(&names);

PROCESS_THREAD(names, ev, data)
{
  static char kept[BUFSIZ];

  PROCESS_BEGIN();

  setvbuf(stdout, kept, _IOFBF, sizeof kept);
  printf("one\ntwo");
  if(getchar() != EOF) {
    printf("never\n");
  }
  PROCESS_PAUSE();
  printf(" and three\n");
  /* A line of more than 64 bytes. */
  printf("%070d\n", 3);

  PROCESS_END();
}
