/*
 * A board of your own: copy this file and template.ld, and fill in the part's registers. Here the ports are UARTs with a register for data,
 * one for their state and one for control, and a timer counts up, at 1 MHz.
 */
#include "board.h"

#define REG(address) (*(volatile uint32_t *)(address))
#define UART(port, offset) REG(0x40001000u + 0x1000u * (port) + (offset))
#define TIMER(offset) REG(0x40008000u + (offset))

enum { DATA = 0x0, STATE = 0x4, CONTROL = 0x8, HAS_BYTE = 1, HAS_ROOM = 2 };
enum { INTERRUPT_AT_BYTE = 1, INTERRUPT_AT_ROOM = 2, CONTROL_OF_TIMER = 0x0, COUNT = 0x4 };
enum { PROCESSOR_HZ = 16000000, OF_PROCESSOR = 4 };

/* How often a second the timer counts. */
const uint32_t board_hz = 1000000;

/* Sets the part's clocks, opens the UARTs with interrupts at reception, and starts the timer. NVIC: interrupts 0 to 2. */
void
board_open(void)
{
  for(unsigned port = 0; port < PORTS; port++) {
    UART(port, CONTROL) = INTERRUPT_AT_BYTE;
  }
  TIMER(CONTROL_OF_TIMER) = 1;
  REG(0xe000e100) = 7;
}

/* It must have 32 bits and never stop; a timer of 16 bits needs an interrupt that counts how often it began anew. */
uint32_t
board_count(void)
{
  return TIMER(COUNT);
}

/* SysTick serves each Cortex-M3 and M4. A part that turns it off while it sleeps needs another timer here. */
void
board_wake_after(uint32_t counts)
{
  clock_wake(counts, PROCESSOR_HZ, OF_PROCESSOR);
}

/* Called in interrupts, and where bytes are put. It must never wait. */
void
board_pump(enum port port)
{
  int byte;
  while((UART(port, STATE) & HAS_BYTE) != 0) {
    input_received(port, (uint8_t)UART(port, DATA));
  }
  while((UART(port, STATE) & HAS_ROOM) != 0 && (byte = output_next(port)) >= 0) {
    UART(port, DATA) = (uint32_t)byte;
  }
  UART(port, CONTROL) = INTERRUPT_AT_BYTE | (output_is_left(port) ? INTERRUPT_AT_ROOM : 0);
}

VECTORS_OF_PART = {handle_console, handle_radio, handle_record};
