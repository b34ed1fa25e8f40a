/* What the driver's parts for boards share. */
#ifndef FIRMWARE_H_
#define FIRMWARE_H_

#include "../driver.h"
#include "board.h"

#pragma GCC visibility push(hidden)

/* The program's settings: the command `contiki` writes them, and compiles them as the program. */
struct board_settings {
  struct toarmuts_configuration sizes;
  uint16_t node;       /* its number in a network, or 0 */
  bool has_record;     /* the third port carries the record */
  bool stops_at_fault; /* instead of a reset */
  /* With a script in place of the ports, otherwise NULL: so the kernel's text is only linked with a script. */
  void (*run_script)(void);
  void (*show_script_line)(void);
};

extern const struct board_settings board_settings;

/* rings.c */
enum { PATIENCE = 2 }; /* the seconds for which a port that takes nothing is waited for */
enum { OUTPUT_ROOM = 256 };
void rings_open(void);
void rings_open_radio(void);
struct report *take_report_room(void);
bool input_is_waiting(void);
size_t input_take_line(uint8_t *bytes, size_t room);
size_t input_take_byte(enum port port, uint8_t *byte);
bool input_has_frame(void);
uint32_t input_lost(enum port port);
bool output_wait(enum port port, size_t room);
bool output_put(enum port port, const void *bytes, size_t length);
void output_put_at_once(enum port port, const void *bytes, size_t length);
bool output_is_awaited(enum port port, bool is_behind);
size_t output_used(enum port port);
size_t output_left(enum port port);
uint32_t output_lost(enum port port);

/* slip.c */
void radio_open(void);
size_t take_frame_bytes(uint8_t *bytes);
uint32_t bad_frames(void);
void send_frame(const uint8_t *bytes, size_t length);

/* clock.c: ticks, and the board's counts, since the start. */
uint64_t clock_ticks(void);
uint64_t clock_count(void);
void clock_sleep_until(uint64_t tick, bool (*is_waiting)(void));

/* processor.c */
uint32_t disable_interrupts(void);
void restore_interrupts(uint32_t before);
void wait_for_interrupt(void); /* also ends at one that is pending, while interrupts are disabled */

/* recorder.c */
bool record_has_ended(void);
void note_losses(void);

/* script.c */
extern bool shows_transcript;
void run_board_script(void);
void show_board_line(void);

/* allocator.c: where malloc's memory ends. */
void limit_heap(const uint8_t *limit);

/* start.c */
enum { OPEN_GUARD = 8 }; /* the guard below the stack while the mote is opened: the logarithm of its size */
extern const uint8_t *stack_low;
void guard_stack(const uint8_t *low, unsigned log2_of_size);
CC_NORETURN void board_stop(int status);
long ask_host(int operation, const void *arguments);

/* console.c */
void open_console(void);

/* main.c: the whole run. */
void firmware(void);

/* faults.c, and systick.c: what start.c has in the vectors. */
void report_fault(const uint32_t *frame, uint32_t exception);
void systick_handler(void);

#pragma GCC visibility pop

/* board.ld */
extern uint8_t board_heap_start[], board_stack_top[], board_handler_stack_low[], board_handler_stack_top[];

#endif
