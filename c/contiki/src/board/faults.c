/* How a run ends at a fault: the message that the simulator has, on the console and in the record, and then a reset, or a stop. */
#include "firmware.h"

#include "../record.h"

#include <stdarg.h>

#define REG(address) (*(volatile uint32_t *)(address))
#define FAULT_STATUS REG(0xe000ed28)
#define MEMORY_ADDRESS REG(0xe000ed34)
#define BUS_ADDRESS REG(0xe000ed38)
#define MPU_CONTROL REG(0xe000ed94)

enum { STACKING = 0x1010, MEMORY_ADDRESS_VALID = 0x80, DIVISION = 1 << 25, INSTRUCTION = 0x1ff << 16, GUARD_REACH = 8192 };
enum { EXCEPTION_NUMBER = 0x1ff, SYSTICK = 15, FIRST_INTERRUPT = 16 };

static struct report *report;

/* Writes a message as a line of the console, and as a comment of the record. What the rings have leaves before it. */
static void
write_report(void)
{
  output_put_at_once(CONSOLE, report->text, report->length);
  output_put_at_once(CONSOLE, "\n", 1);
  if(is_recording()) {
    output_put_at_once(RECORD, "# ", 2);
    output_put_at_once(RECORD, report->text, report->length);
    output_put_at_once(RECORD, "\n", 1);
  }
}

/* Says what happens where. */
static CC_NORETURN void
end_run(int status, const char *format, va_list arguments)
{
  size_t room;
  int length;
  disable_interrupts();
  report = take_report_room();
  add_place(report);
  room = REPORT_ROOM - report->length;
  length = vsnprintf(report->text + report->length, room, format, arguments);
  report->length += MIN((size_t)MAX(length, 0), room - 1);
  write_report();
  board_stop(status);
}

void
halt(void)
{
  disable_interrupts();
  report = take_report_room();
  add_halt(report);
  write_report();
  board_stop(STATUS_HALTED);
}

void
stop(const char *format, ...)
{
  va_list arguments;
  if(present_activation() != NULL) {
    flush_console();
  }
  va_start(arguments, format);
  end_run(STATUS_STOPPED, format, arguments);
}

void
give_up(int status, const char *format, ...)
{
  va_list arguments;
  va_start(arguments, format);
  end_run(status, format, arguments);
}

/* The C library's ways to end a program. */

void exit(int status) CC_NORETURN;
void abort(void) CC_NORETURN;
void _exit(int status) CC_NORETURN;
void __assert_func(const char *file, int line, const char *function, const char *what) CC_NORETURN;

void
exit(int status)
{
  (void)status;
  stop("the program called exit");
}

void
_exit(int status)
{
  exit(status);
}

void
abort(void)
{
  give_up(STATUS_STOPPED, "the program was aborted (SIGABRT)");
}

void
__assert_func(const char *file, int line, const char *function, const char *what)
{
  (void)function;
  stop("an assertion failed: %s:%d: %s", file, line, what);
}

/* Faults of the processor. */

static void
add_hex(uint32_t number)
{
  char digits[9] = "";
  size_t at = sizeof digits - 1;
  do {
    digits[--at] = "0123456789abcdef"[number & 15];
    number >>= 4;
  } while(number > 0);
  add_text(report, digits + at);
}

static const char *
name_of_fault(uint32_t status, uint32_t address)
{
  bool has_address = (status & MEMORY_ADDRESS_VALID) != 0;
  if((status & STACKING) != 0 || (has_address && address - ((uintptr_t)stack_low - GUARD_REACH) < GUARD_REACH)) {
    return "a crash: the stack is full, as by endless recursion (SIGSEGV)";
  }
  if((status & DIVISION) != 0) {
    return "a crash: a division by 0 (SIGFPE)";
  }
  return (status & INSTRUCTION) != 0 ? "a crash: an invalid instruction (SIGILL)" : "a crash: an invalid address (SIGSEGV)";
}

/* Says in which interrupt the processor was. */
static void
add_interrupt(uint32_t exception)
{
  if(exception == SYSTICK) {
    add_text(report, "in SysTick: ");
  } else if(exception != 0) {
    add_text(report, "in interrupt ");
    add_number(report, exception - FIRST_INTERRUPT);
    add_text(report, ": ");
  }
}

/* What the processor says of a fault. */
static void
report_registers(const uint32_t *frame, uint32_t exception, uint32_t status, uint32_t address)
{
  report->length = 0;
  add_text(report, "exception ");
  add_number(report, exception);
  add_text(report, ", status 0x");
  add_hex(status);
  add_text(report, ", address 0x");
  add_hex(address);
  if(frame != NULL) {
    add_text(report, ", at 0x");
    add_hex(frame[6]);
  }
  write_report();
}

/* The frame that the processor pushed: r0 to r3, r12, lr, pc, and the status. A second fault, while the first one is reported, has a
 * message for which nothing of the program is read. */
void
report_fault(const uint32_t *frame, uint32_t exception)
{
  static const char *first;
  static bool is_over;
  uint32_t status = FAULT_STATUS;
  uint32_t address = (status & MEMORY_ADDRESS_VALID) != 0 ? MEMORY_ADDRESS : BUS_ADDRESS;
  bool is_first = first == NULL;
  FAULT_STATUS = status; /* clears it, for a second one */
  MPU_CONTROL = 0;       /* from here on nothing is guarded */
  if(is_over) {
    board_stop(STATUS_STOPPED);
  }
  is_over = !is_first;
  report = take_report_room();
  if(is_first) {
    first = name_of_fault(status, address);
    add_place(report);
    add_interrupt((status & STACKING) != 0 ? 0 : frame[7] & EXCEPTION_NUMBER);
    add_text(report, first);
  } else {
    add_text(report, "contiki: ");
    add_text(report, first);
    add_text(report, ", and another one where that was reported");
  }
  write_report();
  report_registers((status & STACKING) != 0 ? NULL : frame, exception, status, address);
  board_stop(STATUS_STOPPED);
}
