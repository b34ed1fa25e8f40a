/* Netduino Plus 2, an STM32F405 (qemu: netduinoplus2): Cortex-M4, 1 MB of flash, 128 KB of RAM. USART1 to 3; TIM2 counts, SysTick wakes. */
#include "board.h"

#define REG(address) (*(volatile uint32_t *)(address))
#define TIM2(offset) REG(0x40000000u + (offset))

enum { SR = 0x0, DR = 0x4, BRR = 0x8, CR1 = 0xc, RXNE = 1 << 5, TXE = 1 << 7, ENABLED = 1 << 13 | 1 << 3 | 1 << 2 };
enum { TIM_CR1 = 0x0, EGR = 0x14, CNT = 0x24, PSC = 0x28, ARR = 0x2c };

static const uint32_t usart[PORTS] = {0x40011000, 0x40004400, 0x40004800};

/* TIM2's clock is 1 GHz in qemu, and divided by 1,000. On a real part it is 84 MHz at most. */
const uint32_t board_hz = 1000000;

void
board_open(void)
{
  REG(0x40023840) |= 3u << 17 | 1u; /* clocks of USART2 and 3, and of TIM2 */
  REG(0x40023844) |= 1u << 4;       /* of USART1 */
  for(unsigned port = 0; port < PORTS; port++) {
    REG(usart[port] + BRR) = 42000000 / 115200;
    REG(usart[port] + CR1) = ENABLED | RXNE;
  }
  TIM2(PSC) = 999;
  TIM2(ARR) = 0xffffffff;
  TIM2(EGR) = 1;
  TIM2(TIM_CR1) = 1;
  REG(0xe000e104) = 1u << 5 | 1u << 6 | 1u << 7; /* NVIC: interrupts 37 to 39 */
}

uint32_t
board_count(void)
{
  return TIM2(CNT);
}

/* HCLK / 8 */
void
board_wake_after(uint32_t counts)
{
  clock_wake(counts, 21000000, 0);
}

void
board_pump(enum port port)
{
  int byte;
  while((REG(usart[port] + SR) & RXNE) != 0) {
    input_received(port, (uint8_t)REG(usart[port] + DR));
  }
  while((REG(usart[port] + SR) & TXE) != 0 && (byte = output_next(port)) >= 0) {
    REG(usart[port] + DR) = (uint32_t)byte;
  }
  REG(usart[port] + CR1) = ENABLED | RXNE | (output_is_left(port) ? TXE : 0);
}

VECTORS_OF_PART = {
  [37] = handle_console,
  [38] = handle_radio,
  [39] = handle_record,
};
