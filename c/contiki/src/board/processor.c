/* The processor's instructions that C has no words for. */
#include "firmware.h"

/* Returns what restore_interrupts needs. */
uint32_t
disable_interrupts(void)
{
  uint32_t before;
  __asm__ volatile("mrs %0, primask\n cpsid i" : "=r"(before)::"memory");
  return before;
}

void
restore_interrupts(uint32_t before)
{
  __asm__ volatile("msr primask, %0" ::"r"(before) : "memory");
}

void
wait_for_interrupt(void)
{
  __asm__ volatile("dsb\n wfi" ::: "memory");
}
