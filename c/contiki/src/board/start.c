/*
 * What runs before the main loop: the vectors, two stacks, and their guards. The program and the mote are on one stack, interrupts and
 * faults on a small one of their own: so a full stack can be reported.
 */
#include "firmware.h"

extern uint8_t board_data_start[], board_data_end[], board_data_image[], board_bss_start[], board_bss_end[];
extern const uint8_t board_stack_low_open[];

const uint8_t *stack_low = board_stack_low_open;

#define REG(address) (*(volatile uint32_t *)(address))
#define CONFIGURATION REG(0xe000ed14)
#define FAULT_HANDLERS REG(0xe000ed24)
#define RESET REG(0xe000ed0c)
#define MPU_TYPE REG(0xe000ed90)
#define MPU_CONTROL REG(0xe000ed94)
#define MPU_NUMBER REG(0xe000ed98)
#define MPU_BASE REG(0xe000ed9c)
#define MPU_SIZE REG(0xe000eda0)

enum { NULL_GUARD = 8, PARTS_TO_LEAVE = 50 /* of a second: 20 milliseconds */ };
enum { SYS_EXIT_EXTENDED = 0x20, APPLICATION_EXIT = 0x20026 };

/* Asks the emulator, or a debugger: only with a script. */
long
ask_host(int operation, const void *arguments)
{
  register long r0 __asm__("r0") = operation;
  register const void *r1 __asm__("r1") = arguments;
  __asm__ volatile("bkpt 0xab" : "+r"(r0) : "r"(r1) : "memory");
  return r0;
}

/* The end of a run: that of a script ends the emulator, otherwise the board begins anew, or stops. */
void
board_stop(int status)
{
  if(board_settings.run_script != NULL) {
    const uint32_t arguments[2] = {APPLICATION_EXIT, (uint32_t)status};
    ask_host(SYS_EXIT_EXTENDED, arguments);
  } else if(!board_settings.stops_at_fault) {
    /* First the bytes leave that the ports themselves have. */
    for(uint32_t begin = board_count(); board_count() - begin < board_hz / PARTS_TO_LEAVE;) {
    }
    RESET = 0x05fa0004;
  }
  for(;;) {
    __asm__ volatile("wfi");
  }
}

/* Tables of functions name these, for the unwinding of stacks. Nothing unwinds one, so the C library's 4 KB for that aren't linked. */
void __aeabi_unwind_cpp_pr0(void);
void __aeabi_unwind_cpp_pr1(void);

void
__aeabi_unwind_cpp_pr0(void)
{
}

void
__aeabi_unwind_cpp_pr1(void)
{
}

/* A region of the MPU that nothing may be read from or written to. */
static void
guard(uint32_t region, const void *at, unsigned log2_of_size)
{
  MPU_NUMBER = region;
  MPU_BASE = (uint32_t)(uintptr_t)at;
  MPU_SIZE = 1u << 28 | (log2_of_size - 1) << 1 | 1;
}

/* Guards the bytes below the stack, and the address NULL, where the part has an MPU. */
void
guard_stack(const uint8_t *low, unsigned log2_of_size)
{
  stack_low = low;
  if(MPU_TYPE == 0) {
    return;
  }
  MPU_CONTROL = 0;
  guard(0, NULL, NULL_GUARD);
  guard(1, low - (1u << log2_of_size), log2_of_size);
  MPU_CONTROL = 5;
  __asm__ volatile("dsb\n isb");
}

__attribute__((used, noreturn)) static void
start(void)
{
  memcpy(board_data_start, board_data_image, (size_t)(board_data_end - board_data_start));
  memset(board_bss_start, 0, (size_t)(board_bss_end - board_bss_start));
  CONFIGURATION |= 0x11; /* a division by 0 is a fault; a handler may end while another one doesn't */
  FAULT_HANDLERS |= 7u << 16;
  guard_stack(board_stack_low_open, OPEN_GUARD);
  firmware();
  board_stop(0);
}

void board_reset(void);

__attribute__((naked, used)) void
board_reset(void)
{
  __asm__ volatile("ldr r0, =board_stack_top\n msr psp, r0\n movs r0, #2\n msr control, r0\n isb\n bl start\n");
}

/* A fault: the frame is on the stack that was in use. Of the handlers' stack the report uses what is below, or all where that is little. It
 * runs outside of any handler: there a further fault comes here again, where it would lock up the processor within one. */
__attribute__((naked, used)) static void
stop_at_fault(void)
{
  __asm__ volatile("cpsid i\n tst lr, #4\n ite eq\n mrseq r0, msp\n mrsne r0, psp\n mrs r1, ipsr\n"
                   " ldr r2, =board_handler_stack_top\n mrs r3, msp\n sub r3, r2, r3\n cmp r3, #192\n it hi\n movhi sp, r2\n"
                   " ldr r2, =report_fault\n bic r2, #1\n mov r3, #0x01000000\n push {r2, r3}\n push {r0-r3, r12, lr}\n"
                   " ldr lr, =0xfffffff9\n bx lr\n");
}

__attribute__((section(".vectors"), used)) static void (*const vectors[16])(void) = {
  (void (*)(void))board_handler_stack_top,
  board_reset,
  stop_at_fault,
  stop_at_fault,
  stop_at_fault,
  stop_at_fault,
  stop_at_fault,
  stop_at_fault,
  stop_at_fault,
  stop_at_fault,
  stop_at_fault,
  stop_at_fault,
  stop_at_fault,
  stop_at_fault,
  stop_at_fault,
  systick_handler,
};
