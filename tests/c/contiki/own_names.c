/* Functions and variables of names that the driver's parts, or Unix, have too: they are the program's. */
#include "contiki.h"

PROCESS(own, "Own");
AUTOSTART_PROCESSES(&own);

void stop(int signal);
void alarm(void);
int read(int place);
void write(const char *text);
void poll(void);
void open(void);

int processes, activation, lines_shown;

void
alarm(void)
{
  write("alarm");
}

void
stop(int signal)
{
  processes += signal;
  activation = lines_shown + processes;
}

int
read(int place)
{
  return place * 2;
}

void
write(const char *text)
{
  printf("%s\n", text);
}

void
poll(void)
{
  write("poll");
}

void
open(void)
{
  process_poll(&own);
}

PROCESS_THREAD(own, ev, data)
{
  PROCESS_POLLHANDLER(poll());
  PROCESS_BEGIN();

  open();
  PROCESS_WAIT_EVENT_UNTIL(ev == PROCESS_EVENT_POLL);
  alarm();
  stop(read(2));
  printf("%d\n", activation);

  PROCESS_END();
}
