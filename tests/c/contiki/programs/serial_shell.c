/* As libs/shell: a shell on the serial line, with commands of the program, one of which waits. */
#include "contiki.h"
#include "services/shell/serial-shell.h"

#include <stdlib.h>

PROCESS(commander, "Commander");
AUTOSTART_PROCESSES(&commander);

static PT_THREAD(add(struct pt *pt, shell_output_func output, char *args))
{
  char *next;
  int sum = 0;

  PT_BEGIN(pt);

  SHELL_ARGS_INIT(args, next);
  SHELL_ARGS_NEXT(args, next);
  while(args != NULL) {
    sum += atoi(args);
    SHELL_ARGS_NEXT(args, next);
  }
  SHELL_OUTPUT(output, "%d\n", sum);

  PT_END(pt);
}

static PT_THREAD(wait_a_second(struct pt *pt, shell_output_func output, CC_UNUSED char *args))
{
  static struct etimer timer;

  PT_BEGIN(pt);

  etimer_set(&timer, CLOCK_SECOND);
  PT_WAIT_UNTIL(pt, etimer_expired(&timer));
  SHELL_OUTPUT(output, "waited until %lu\n", clock_seconds());

  PT_END(pt);
}

static const struct shell_command_t commands[] = {
  {"add", add, "'> add N..': adds numbers"}, {"wait", wait_a_second, "'> wait': waits a second"}, {NULL, NULL, NULL}};
static struct shell_command_set_t set = {NULL, commands};

PROCESS_THREAD(commander, ev, data)
{
  PROCESS_BEGIN();

  serial_shell_init();
  shell_command_set_register(&set);
  while(1) {
    PROCESS_WAIT_EVENT_UNTIL(ev == serial_line_event_message);
    if(strcmp(data, "quit") == 0) {
      printf("%d ", shell_command_set_deregister(&set));
      printf("%d %d\n", shell_command_set_deregister(&set), shell_command_lookup("add") == NULL);
    }
  }

  PROCESS_END();
}
