/* What is known of a program where it is compiled. */
#ifndef FACTS_H_
#define FACTS_H_

#include <stdint.h>

struct program_facts {
  uint64_t sources; /* a hash of its sources and options */
  uint32_t ticks_a_second;
};

/* facts.c has these, if the program is compiled for a record. */
extern const struct program_facts program_facts __attribute__((weak));

#endif
