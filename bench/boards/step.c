/*
 * The least program over the kernel: one application in C that waits, inputs by numbers, no text. What it takes of flash, heap and
 * stack is that of the kernel. Its word is a number of ticks. With OPEN_ALONE the stack that is told is that of toarmuts_open, WITH_LINES
 * also of a mote whose lines are asked for.
 */
#include "startup.h"
#include "toarmuts.h"

#include <stdlib.h>
#include <string.h>

int
main(int count, char **words)
{
#ifdef SMALLEST
  struct toarmuts_configuration sizes = {4, 20, 16, 0, 0, 0};
#else
  struct toarmuts_configuration sizes = TOARMUTS_DEFAULTS;
#endif
  static const struct toarmuts_call wait = {.kind = TOARMUTS_CALL_WAIT};
  static struct toarmuts_mote mote;
  static struct toarmuts_turn turn;
  uint32_t step, ticks = count > 1 ? (uint32_t)strtoul(words[1], NULL, 10) : 0;
#ifndef WITH_LINES
  sizes.quiet = 1;
#endif
  if(toarmuts_open(&sizes, 1, &mote) != TOARMUTS_DONE) {
    return 1;
  }
#ifndef OPEN_ALONE
  board_stack_paint();
#endif
  while(toarmuts_next(&mote, &step, &turn) == TOARMUTS_DONE) {
    if(step == TOARMUTS_TURN && toarmuts_submit(&mote, &wait) != TOARMUTS_DONE) {
      return 2;
    } else if(step == TOARMUTS_REST && ticks-- == 0) {
      return 0;
    } else if(step == TOARMUTS_REST && toarmuts_feed_input(&mote, TOARMUTS_TICK, 1, NULL, 0) != TOARMUTS_DONE) {
      return 3;
    }
  }
  return 4;
}
