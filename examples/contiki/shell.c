/* A shell on the serial line. One of its commands is a protothread, which the shell waits for. */
#include "contiki.h"
#include "dev/serial-line.h"

#include <stdio.h>
#include <stdlib.h>
#include <string.h>

PROCESS(shell, "Shell");
AUTOSTART_PROCESSES(&shell);

static struct etimer pause;
static int left;

static PT_THREAD(count_down(struct pt *pt))
{
  PT_BEGIN(pt);

  for(; left > 0; left--) {
    printf("%d ..\n", left);
    etimer_set(&pause, CLOCK_SECOND / 2);
    PT_WAIT_UNTIL(pt, etimer_expired(&pause));
  }
  printf("go\n");

  PT_END(pt);
}

PROCESS_THREAD(shell, ev, data)
{
  static struct pt counting;

  PROCESS_BEGIN();

  while(1) {
    PROCESS_WAIT_EVENT_UNTIL(ev == serial_line_event_message);
    if(strcmp(data, "help") == 0) {
      printf("help, echo TEXT, count N\n");
    } else if(strncmp(data, "echo ", 5) == 0) {
      puts((char *)data + 5);
    } else if(strncmp(data, "count ", 6) == 0) {
      left = atoi((char *)data + 6);
      PROCESS_PT_SPAWN(&counting, count_down(&counting));
    } else {
      printf("what is %s?\n", (char *)data);
    }
  }

  PROCESS_END();
}
