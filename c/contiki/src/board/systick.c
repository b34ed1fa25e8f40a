/* SysTick, by which most boards wake. */
#include "firmware.h"

#define REG(address) (*(volatile uint32_t *)(address))
#define SYSTICK_CONTROL REG(0xe000e010)
#define SYSTICK_RELOAD REG(0xe000e014)
#define SYSTICK_VALUE REG(0xe000e018)
enum { SYSTICK_MOST = 0xffffff };

/* It wakes once. */
void
systick_handler(void)
{
  SYSTICK_CONTROL = 0;
}

void
clock_wake(uint32_t counts, uint32_t hz, uint32_t source)
{
  uint64_t length = (uint64_t)counts * hz / board_hz + 1;
  SYSTICK_CONTROL = 0;
  SYSTICK_RELOAD = length > SYSTICK_MOST ? SYSTICK_MOST : (uint32_t)length;
  SYSTICK_VALUE = 0;
  SYSTICK_CONTROL = source | 3;
}
