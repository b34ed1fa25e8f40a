/* The clock. Only the script's ticks advance it: it stands still within an activation. */
#ifndef CLOCK_H_
#define CLOCK_H_

#include "contiki-conf.h"
#include "sys/cc.h"

/* A number that #if may use, too. */
#define CLOCK_SECOND ((CLOCK_CONF_SECOND) + 0UL)

/* The same for modules that are compiled once for all programs: the program's sources, which the linker sees first, define it. For the
 * driver only. */
#ifdef CONTIKI_MODULE
extern const clock_time_t contiki_clock_second;
#else
__attribute__((weak)) const clock_time_t contiki_clock_second = CLOCK_SECOND;
#endif

/* Whether a is before b. */
#define CLOCK_LT(a, b) ((long)((clock_time_t)(a) - (clock_time_t)(b)) < 0)

/* Ticks since the mote was booted. */
clock_time_t clock_time(void);

/* Whole seconds since then, by the CLOCK_SECOND of the program's project-conf.h. */
static inline unsigned long
clock_seconds(void)
{
  return clock_time() / CLOCK_SECOND;
}

CC_REFUSED("the clock runs already: leave this call out") void clock_init(void);
CC_REFUSED("the mote's clock is the script's") void clock_set_seconds(unsigned long seconds);
CC_REFUSED("the clock stands still within an activation, so nothing can be waited for there: use an etimer")
void clock_wait(clock_time_t t);
CC_REFUSED("the mote has no clock of microseconds: use an etimer") void clock_delay_usec(uint16_t dt);
CC_REFUSED("the mote has no clock of microseconds: use an etimer") void clock_delay(unsigned int delay);

#endif
