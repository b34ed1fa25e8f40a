/*
 * Arm MPS2 with image AN385 (qemu: mps2-an385): Cortex-M3, 4 MB of flash, 16 MB of RAM. The UARTs are CMSDK's; its timer 0 counts, SysTick
 * wakes.
 */
#include "board.h"

#define REG(address) (*(volatile uint32_t *)(address))
#define UART(port, offset) REG(0x40004000u + 0x1000u * (port) + (offset))
#define TIMER(offset) REG(0x40000000u + (offset))

enum { DATA = 0x0, STATE = 0x4, CTRL = 0x8, INTERRUPT = 0xc, BAUD = 0x10, IS_FULL = 1, HAS_BYTE = 2 };
enum { ENABLED = 3, INTERRUPT_AT_SENT = 4, INTERRUPT_AT_RECEIVED = 8, BOTH = 3 };
enum { VALUE = 0x4, RELOAD = 0x8 };

const uint32_t board_hz = 25000000;

void
board_open(void)
{
  for(unsigned port = 0; port < PORTS; port++) {
    UART(port, BAUD) = 25000000 / 115200;
    UART(port, CTRL) = ENABLED | INTERRUPT_AT_SENT | INTERRUPT_AT_RECEIVED;
  }
  TIMER(RELOAD) = 0xffffffff;
  TIMER(VALUE) = 0xffffffff;
  TIMER(0) = 1;
  REG(0xe000e100) = 0x3f; /* NVIC: reception and sending of three UARTs */
}

uint32_t
board_count(void)
{
  return 0xffffffff - TIMER(VALUE);
}

/* By SysTick's reference clock of 1 MHz: so it sleeps for up to 16 seconds. */
void
board_wake_after(uint32_t counts)
{
  clock_wake(counts, 1000000, 0);
}

void
board_pump(enum port port)
{
  int byte;
  UART(port, INTERRUPT) = BOTH;
  while((UART(port, STATE) & HAS_BYTE) != 0) {
    input_received(port, (uint8_t)UART(port, DATA));
  }
  while((UART(port, STATE) & IS_FULL) == 0 && (byte = output_next(port)) >= 0) {
    UART(port, DATA) = (uint32_t)byte;
  }
}

VECTORS_OF_PART = {
  handle_console, handle_console, handle_radio, handle_radio, handle_record, handle_record,
};
