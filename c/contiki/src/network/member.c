/* A program of a network: the command does what its driver calls. */
#include "network.h"

#include "dev/value.h"

#include <stdarg.h>

static const struct network_host *network;

bool
next_turn(struct toarmuts_turn *turn)
{
  return network->next_turn(turn);
}

uint32_t
answer_turn(const struct toarmuts_call *call)
{
  return network->answer_turn(call);
}

clock_time_t
clock_now(void)
{
  return network->clock_now();
}

uint64_t
shown_lines(void)
{
  return network->shown_lines();
}

void
flush_console(void)
{
  network->flush_console();
}

void
stop(const char *format, ...)
{
  char what[REPORT_ROOM];
  va_list arguments;
  va_start(arguments, format);
  vsnprintf(what, sizeof what, format, arguments);
  va_end(arguments);
  network->stop(what);
}

void
give_up(int status, const char *format, ...)
{
  char what[REPORT_ROOM];
  va_list arguments;
  va_start(arguments, format);
  vsnprintf(what, sizeof what, format, arguments);
  va_end(arguments);
  network->give_up(status, what);
}

/* value.h: a network has no record. */
uint32_t
value_of(uint32_t (*read)(void))
{
  return read();
}

/* A source that has a main is refused, as in a program of one mote. */
int
main(void)
{
  return 0;
}

static unsigned
join(const struct network_host *host, uint16_t number, clock_time_t longest_delay, const void *stack)
{
  network = host;
  stack_begin = stack;
  join_network(number, longest_delay);
  number_processes();
  return process_count;
}

/* The bounds of the static data, if the command `contiki` had the linker gather it. */
extern char __start_mote_data[] __attribute__((weak, visibility("hidden")));
extern char __stop_mote_data[] __attribute__((weak, visibility("hidden")));

__attribute__((visibility("default"))) const struct network_program NETWORK_PROGRAM = {
  join, run_activation, mote_call, &activation, __start_mote_data, __stop_mote_data,
};
