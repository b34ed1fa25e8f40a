/*
 * Stellaris LM3S6965 (qemu: lm3s6965evb): Cortex-M3, 256 KB of flash, 64 KB of RAM. Its three UARTs are PL011; timer 0 counts seconds,
 * SysTick the processor's clock within them, and timer 1 wakes.
 */
#include "board.h"

#define REG(address) (*(volatile uint32_t *)(address))
#define UART(port, offset) REG(0x4000c000u + 0x1000u * (port) + (offset))
#define TIMER(number, offset) REG(0x40030000u + 0x1000u * (number) + (offset))
#define SYSTICK(offset) REG(0xe000e010u + (offset))

enum { DR = 0x00, FR = 0x18, IBRD = 0x24, FBRD = 0x28, LCRH = 0x2c, CTL = 0x30, IM = 0x38, ICR = 0x44, RXFE = 1 << 4, TXFF = 1 << 5 };
enum { RECEIVED = 0x50, SENT = 0x20, BOTH = RECEIVED | SENT };
enum {
  CFG = 0x00,
  TAMR = 0x04,
  TIMER_CTL = 0x0c,
  IMR = 0x18,
  TIMER_ICR = 0x24,
  TAILR = 0x28,
  TAMATCHR = 0x30,
  TAR = 0x48,
  SECONDS = 1,
  ONE_SHOT = 1
};
enum { WRAP = 1 << 24, BEFORE = 1 << 20 };

/* As the clock is at reset in qemu. A real part sets RCC first. */
const uint32_t board_hz = 12500000;

void
board_open(void)
{
  REG(0x400fe104) |= 7 | 3 << 16; /* RCGC1: clocks of the UARTs and of timers 0 and 1 */
  for(unsigned port = 0; port < PORTS; port++) {
    UART(port, CTL) = 0;
    UART(port, IBRD) = 6; /* 115,200 baud */
    UART(port, FBRD) = 50;
    UART(port, LCRH) = 0x70; /* 8 bits, FIFO */
    UART(port, CTL) = 0x301;
    UART(port, IM) = BOTH;
  }
  SYSTICK(4) = WRAP - 1;
  SYSTICK(8) = 0;
  SYSTICK(0) = 5;
  TIMER(0, CFG) = SECONDS;
  TIMER(0, TAMATCHR) = 0xffffffff; /* up to which it counts */
  TIMER(0, TIMER_CTL) = 1;
  TIMER(1, CFG) = 0;
  TIMER(1, TAMR) = ONE_SHOT;
  TIMER(1, IMR) = 1;
  REG(0xe000e100) = 1u << 5 | 1u << 6 | 1u << 21; /* NVIC */
  REG(0xe000e104) = 1u << (33 - 32);
}

/* The seconds say how often SysTick, of 24 bits, began anew: it counts less than 2^24 in a second. Both began within BEFORE counts. */
uint32_t
board_count(void)
{
  uint32_t second, low;
  do {
    second = TIMER(0, TAR);
    low = WRAP - 1 - SYSTICK(8);
  } while(second != TIMER(0, TAR));
  second = second * board_hz - BEFORE;
  return second + ((low - second) & (WRAP - 1));
}

void
board_wake_after(uint32_t counts)
{
  TIMER(1, TIMER_CTL) = 0;
  TIMER(1, TIMER_ICR) = 1;
  TIMER(1, TAILR) = counts + 1;
  TIMER(1, TIMER_CTL) = 1;
}

void
board_pump(enum port port)
{
  int byte;
  UART(port, ICR) = BOTH;
  while((UART(port, FR) & RXFE) == 0) {
    input_received(port, (uint8_t)UART(port, DR));
  }
  while((UART(port, FR) & TXFF) == 0 && (byte = output_next(port)) >= 0) {
    UART(port, DR) = (uint32_t)byte;
  }
}

static void
handle_wake(void)
{
  TIMER(1, TIMER_ICR) = 1;
}

VECTORS_OF_PART = {
  [5] = handle_console,
  [6] = handle_radio,
  [33] = handle_record,
  [21] = handle_wake,
};
