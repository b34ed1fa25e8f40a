/*
 * A board: what the file of one has, and what the driver's parts for boards share. docs/firmware.md says how to write such a file, and
 * c/contiki/boards has some.
 */
#ifndef BOARD_H_
#define BOARD_H_

#include <stdbool.h>
#include <stddef.h>
#include <stdint.h>

#pragma GCC visibility push(hidden)

/* The ports: what is printed, and the serial line; frames, as SLIP; the record. */
enum port { CONSOLE, RADIO, RECORD, PORTS };

/* The file of a board has these. Interrupts are disabled where board_open, board_pump and board_wake_after are called. */

extern const uint32_t board_hz; /* how often a second board_count counts */

void board_open(void);                  /* once: opens the ports, with interrupts at reception, and starts the counter */
uint32_t board_count(void);             /* a counter that runs free, up to 2^32 - 1 and on from 0 */
void board_wake_after(uint32_t counts); /* has an interrupt follow, after so many counts, or sooner: clock_wake has SysTick for it */

/* Passes bytes on: those that the port has received, to input_received; those that output_next returns, to the port, while it has room.
 * The interrupt at room must be enabled if bytes are left. */
void board_pump(enum port port);

/* rings.c: calls for the file of a board. The record's port has no input: its bytes are ignored. */
void input_received(enum port port, uint8_t byte);
int output_next(enum port port); /* the next byte, or -1 */
bool output_is_left(enum port port);

/* systick.c: wakes by SysTick, which counts `hz` times a second; its source is 4 for the processor's clock, 0 for the reference. */
void clock_wake(uint32_t counts, uint32_t hz, uint32_t source);

/* rings.c: handlers of the ports' interrupts, which call board_pump. */
void handle_console(void);
void handle_radio(void);
void handle_record(void);

#pragma GCC visibility pop

/* The handlers of the part's interrupts. */
#define VECTORS_OF_PART __attribute__((section(".vectors.part"), used)) static void (*const vectors[])(void)

#endif
