/* Expiries of one application's timers, while others have timers armed that never run out: twelve for each of them.
 *
 * Its words are whether the timer that runs out is at the head, in the middle or at the tail of the list, how many others are armed,
 * a multiple of 12 up to 180, and a number of expiries, but at the head 8 at most. It prints how many bytes the quiet transcript has. */
#include "toarmuts.h"

#include <stdbool.h>
#include <stdio.h>
#include <stdlib.h>
#include <string.h>

/* The application whose timers run out. A timer that is armed anew is the head, so blink's is at each expiry; of eight that are armed
 * before all others, in the order in which they run out, the one that runs out is the tail. In the middle, half of the others are armed
 * before these eight. */
static const char at_head[] = "blink";
static const char behind_others[] = "calls timer-set 0 10, timer-set 1 20, timer-set 2 30, timer-set 3 40, timer-set 4 50, timer-set 5 60, "
                                    "timer-set 6 70, timer-set 7 80";

/* An application that arms all that it has: eight event timers and four callback timers. */
static const char arms_all[] = "calls timer-set 0 4000000000, timer-set 1 4000000000, timer-set 2 4000000000, timer-set 3 4000000000, "
                               "timer-set 4 4000000000, timer-set 5 4000000000, timer-set 6 4000000000, timer-set 7 4000000000, "
                               "callback-set 0 4000000000, callback-set 1 4000000000, callback-set 2 4000000000, callback-set 3 4000000000";

/* A line of the script is one expiry. The quiet transcript has one line of its turns with blink, otherwise none. */
static const char line[] = "tick 10\n";
enum { LINE = sizeof line - 1, MOST_SHOWN = 40, TIMERS = 12, MOST_APPLICATIONS = 16, MOST_BEHIND_OTHERS = 8 };

int
main(int argc, char **argv)
{
  struct toarmuts_configuration configuration = TOARMUTS_DEFAULTS;
  struct toarmuts_outcome outcome = {.length = 0};
  static char applications[sizeof behind_others + MOST_APPLICATIONS * sizeof arms_all];
  bool is_head = argc == 4 && strcmp(argv[1], "head") == 0, is_tail = argc == 4 && strcmp(argv[1], "tail") == 0;
  bool is_middle = argc == 4 && strcmp(argv[1], "middle") == 0;
  size_t others = argc == 4 ? strtoul(argv[2], NULL, 10) / TIMERS : 0;
  size_t expiries = argc == 4 ? strtoul(argv[3], NULL, 10) : 0;
  size_t before = is_middle ? others / 2 : 0;
  if((!is_head && !is_tail && !is_middle) || others >= MOST_APPLICATIONS || (!is_head && expiries > MOST_BEHIND_OTHERS)) {
    fprintf(stderr, "expiries head|middle|tail OTHERS EXPIRIES\n");
    return 64;
  }
  char *script = malloc(LINE * expiries + 1);
  uint8_t *transcript = malloc(MOST_SHOWN * (expiries + 1));
  if(script == NULL || transcript == NULL) {
    return 70;
  }
  for(size_t i = 0; i <= others; i++) {
    strcat(applications, i == 0 ? "" : "\n");
    strcat(applications, i != before ? arms_all : is_head ? at_head : behind_others);
  }
  for(size_t i = 0; i < expiries; i++) {
    memcpy(script + LINE * i, line, LINE);
  }
  configuration.quiet = 1;
  toarmuts_run(&configuration, (const uint8_t *)applications, strlen(applications), (const uint8_t *)script, LINE * expiries, transcript,
               MOST_SHOWN * (expiries + 1), &outcome);
  printf("%zu bytes\n", (size_t)outcome.length);
  free(transcript);
  free(script);
  return (int)outcome.status;
}
