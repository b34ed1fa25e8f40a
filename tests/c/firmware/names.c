/* A program with names that the driver, the boards' files and the linker script have, too. */
#include "contiki.h"

PROCESS(only, "Only");
AUTOSTART_PROCESSES(&only);

#define NAME(name) \
  void name(void); \
  void name(void)  \
  {                \
    puts(#name);   \
  }

NAME(send_frame)
NAME(reset)
NAME(handle_radio)
NAME(input_received)
NAME(output_put)
NAME(clock_ticks)
NAME(guard_stack)
NAME(board_pump)
NAME(report_fault)
NAME(firmware)

int heap_start = 1, stack_top = 2, data_end = 3, bss_start = 4, board_hz = 5;

PROCESS_THREAD(only, ev, data)
{
  PROCESS_BEGIN();
  send_frame();
  reset();
  handle_radio();
  input_received();
  output_put();
  clock_ticks();
  guard_stack();
  board_pump();
  report_fault();
  firmware();
  printf("%d %d %d %d %d\n", heap_start, stack_top, data_end, bss_start, board_hz);
  PROCESS_END();
}
