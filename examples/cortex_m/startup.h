/* The functions of startup.c for a program. */
#ifndef STARTUP_H
#define STARTUP_H

#include <stddef.h>

/* A program with a timer's interrupt defines this. */
void systick_handler(void);

/* The most bytes of the stack that were in use since it was painted. There is no guard page: a program that uses more than board.ld
 * keeps for the stack writes over its variables. */
size_t board_stack_used(void);

/* Paints the unused part of the stack, as startup does before main. */
void board_stack_paint(void);

/* The bytes that malloc has allocated so far. */
size_t board_heap_used(void);

#endif
