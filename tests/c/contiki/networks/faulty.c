/* Mote 2 does what FAULT says, at its first line. */
#include "contiki.h"
#include "contiki-net.h"
#include "sys/node-id.h"
#include <stdlib.h>

PROCESS(faulty, "Faulty");
AUTOSTART_PROCESSES(&faulty);

CC_UNUSED static volatile int zero;

PROCESS_THREAD(faulty, ev, data)
{
  PROCESS_BEGIN();
  while(1) {
    PROCESS_WAIT_EVENT();
    printf("line of %u\n", node_id);
    if(node_id == 2) {
      printf("half");
      FAULT;
    }
  }
  PROCESS_END();
}
