/*
 * At a line `now` prints the program's clock, in hundredths of a second, and what another timer of the board has, which runs free: MPS2's
 * counter of 100 Hz, the seconds of timer 2 of LM3S6965, or TIM5 of STM32F405. A timer wakes it each minute.
 */
#include "contiki.h"

#include "dev/value.h"

PROCESS(clock, "Clock");
AUTOSTART_PROCESSES(&clock);

#define REG(address) (*(volatile uint32_t *)(uintptr_t)(address))

enum { MPS2 = 1, LM3S6965, STM32F405 };

/* On Linux it isn't called: values are those of the record. */
static uint32_t
begin_counter(void)
{
  if(BOARD == LM3S6965) {
    REG(0x400fe104) |= 1 << 18;
    REG(0x40032000) = 1;
    REG(0x40032030) = 0xffffffff;
    REG(0x4003200c) = 1;
  } else if(BOARD == STM32F405) {
    REG(0x40023840) |= 8;
    REG(0x40000c28) = 9999;
    REG(0x40000c2c) = 0xffffffff;
    REG(0x40000c14) = 1;
    REG(0x40000c00) = 1;
  }
  return 0;
}

static uint32_t
read_counter(void)
{
  return BOARD == MPS2 ? REG(0x40028014) : BOARD == LM3S6965 ? REG(0x40032048) * 100 : REG(0x40000c24) / 1000;
}

PROCESS_THREAD(clock, ev, data)
{
  static struct etimer timer;

  PROCESS_BEGIN();

  value_of(begin_counter);
  etimer_set(&timer, 60 * CLOCK_SECOND);
  while(1) {
    PROCESS_WAIT_EVENT();
    if(ev == PROCESS_EVENT_TIMER) {
      etimer_reset(&timer);
    } else if(ev == serial_line_event_message && strcmp(data, "now") == 0) {
      unsigned long counter = value_of(read_counter);
      printf("%lu %lu\n", clock_time() * 100 / CLOCK_SECOND, counter);
    }
  }

  PROCESS_END();
}
