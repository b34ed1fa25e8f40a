/* The facts of a program. This is compiled as its sources are; the command `contiki` has the hash of these. */
#include "facts.h"

#include "contiki.h"

const struct program_facts program_facts = {.sources = TOARMUTS_SOURCES, .ticks_a_second = CLOCK_SECOND};
