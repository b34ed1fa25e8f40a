/*
 * What runs before main on the emulated boards of the Makefile: the vector table, the first instructions, and what newlib asks for.
 * Text and files go to the host by semihosting, so a real board without a debugger needs its own _write. No word of this is proved.
 */
#include "startup.h"

#include <errno.h>
#include <stdint.h>
#include <stdio.h>
#include <stdlib.h>
#include <string.h>

/* From board.ld. */
extern uint8_t data_start[], data_end[], data_image[], bss_start[], bss_end[], heap_start[], stack_low[], stack_top[];

extern int main(int count, char **words);
extern void initialise_monitor_handles(void);

enum { SYS_GET_CMDLINE = 0x15, SYS_EXIT_EXTENDED = 0x20, APPLICATION_EXIT = 0x20026, PAINT = 0x5a, WORDS = 16 };

static uint8_t *heap_end = heap_start;

static int
ask_host(int operation, const void *arguments)
{
  register int r0 __asm__("r0") = operation;
  register const void *r1 __asm__("r1") = arguments;
  __asm__ volatile("bkpt 0xab" : "+r"(r0) : "r"(r1) : "memory");
  return r0;
}

/* Ends the emulator with a status. */
void
_exit(int status)
{
  const uint32_t arguments[2] = {APPLICATION_EXIT, (uint32_t)status};
  ask_host(SYS_EXIT_EXTENDED, arguments);
  for(;;) {
  }
}

/* malloc's memory: from the end of the variables to the stack's lowest byte, and never into it. */
void *
_sbrk(ptrdiff_t more)
{
  uint8_t *before = heap_end;
  if(more > stack_low - heap_end) {
    errno = ENOMEM;
    return (void *)-1;
  }
  heap_end += more;
  return before;
}

size_t
board_heap_used(void)
{
  return (size_t)(heap_end - heap_start);
}

void
board_stack_paint(void)
{
  for(volatile uint8_t *p = stack_low; p < (uint8_t *)__builtin_frame_address(0) - 64; p++) {
    *p = PAINT;
  }
}

size_t
board_stack_used(void)
{
  const uint8_t *p = stack_low;
  while(p < stack_top && *p == PAINT) {
    p++;
  }
  return (size_t)(stack_top - p);
}

/* The handler of each fault, and of interrupts for which the program has none. */
static void
stop_at_fault(void)
{
  static const char text[] = "a fault, or an interrupt without a handler\n";
  fwrite(text, 1, sizeof text - 1, stderr);
  _exit(99);
}

__attribute__((weak)) void
systick_handler(void)
{
  stop_at_fault();
}

/* The arguments on the emulator's command line. */
static int
read_words(char **words)
{
  static char line[256];
  const uint32_t arguments[2] = {(uint32_t)(uintptr_t)line, sizeof line};
  int count = 0;
  if(ask_host(SYS_GET_CMDLINE, arguments) == 0) {
    for(char *word = strtok(line, " "); word != NULL && count < WORDS; word = strtok(NULL, " ")) {
      words[count++] = word;
    }
  }
  return count;
}

__attribute__((used)) static void
start(void)
{
  static char *words[WORDS + 1];
#ifdef __ARM_FP
  /* The floating-point unit is off at reset. */
  *(volatile uint32_t *)0xe000ed88 |= 0xfu << 20;
  __asm__ volatile("dsb\n isb");
#endif
  memcpy(data_start, data_image, (size_t)(data_end - data_start));
  memset(bss_start, 0, (size_t)(bss_end - bss_start));
  board_stack_paint();
  initialise_monitor_handles();
  exit(main(read_words(words), words));
}

__attribute__((naked, used)) void
reset(void)
{
  __asm__ volatile("ldr r0, =stack_top\n mov sp, r0\n bl start\n");
}

/* The initial stack pointer, then what each exception of the architecture runs. */
__attribute__((section(".vectors"), used)) static const void *const vectors[16] = {
  stack_top, reset, stop_at_fault, stop_at_fault, stop_at_fault, stop_at_fault, stop_at_fault, NULL,
  NULL,      NULL,  NULL,          stop_at_fault, stop_at_fault, NULL,          stop_at_fault, systick_handler,
};
