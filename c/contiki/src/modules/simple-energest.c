/* simple-energest.h. Times are in ticks of ENERGEST_SECOND, by the program's CLOCK_SECOND. */
#define ENERGEST_CONF_ON 1
#include "services/simple-energest/simple-energest.h"

#include "contiki.h"
#include "sys/energest.h"
#include "sys/log.h"

#define LOG_MODULE "Energest"
#define LOG_LEVEL LOG_LEVEL_INFO

enum { PERIOD_SECONDS = 60 };

PROCESS(simple_energest_process, "Simple Energest");

/* The times of the last summary, and their sum. */
static uint64_t last[ENERGEST_TYPE_MAX], last_total;

static uint64_t
time_of(unsigned type)
{
  return energest_clock_ticks(type) * ENERGEST_SECOND / contiki_clock_second;
}

/* Prints a part of the period. */
static void
report(const char *name, uint64_t part, uint64_t whole)
{
  LOG_INFO("%-12s: %10lu/%10lu (%lu permil)\n", name, (unsigned long)part, (unsigned long)whole,
           whole == 0 ? 0 : (unsigned long)(1000 * part / whole));
}

void
simple_energest_step(void)
{
  static unsigned count;
  uint64_t times[ENERGEST_TYPE_MAX], total = 0, whole;
  energest_flush();
  for(unsigned type = 0; type < ENERGEST_TYPE_MAX; type++) {
    uint64_t now = time_of(type);
    times[type] = now - last[type];
    last[type] = now;
    total += type <= ENERGEST_TYPE_DEEP_LPM ? now : 0;
  }
  whole = total - last_total;
  last_total = total;
  LOG_INFO("--- Period summary #%u (%lu seconds)\n", count++, (unsigned long)(whole / ENERGEST_SECOND));
  LOG_INFO("Total time  : %10lu\n", (unsigned long)whole);
  report("CPU", times[ENERGEST_TYPE_CPU], whole);
  report("LPM", times[ENERGEST_TYPE_LPM], whole);
  report("Deep LPM", times[ENERGEST_TYPE_DEEP_LPM], whole);
  report("Radio Tx", times[ENERGEST_TYPE_TRANSMIT], whole);
  report("Radio Rx", times[ENERGEST_TYPE_LISTEN], whole);
  report("Radio total", times[ENERGEST_TYPE_TRANSMIT] + times[ENERGEST_TYPE_LISTEN], whole);
}

void
simple_energest_init(void)
{
  process_start(&simple_energest_process, NULL);
}

PROCESS_THREAD(simple_energest_process, ev, data)
{
  static struct etimer timer;

  PROCESS_BEGIN();

  etimer_set(&timer, PERIOD_SECONDS * contiki_clock_second);
  while(1) {
    PROCESS_WAIT_EVENT_UNTIL(etimer_expired(&timer));
    etimer_reset(&timer);
    simple_energest_step();
  }

  PROCESS_END();
}
