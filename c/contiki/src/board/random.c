/*
 * rand, random and their seeds: the numbers of the GNU C library, so that a program has the same ones on Linux. Each number is the sum of
 * the 3rd and the 31st before it, without its lowest bit.
 */
#include <stdbool.h>
#include <stdint.h>
#include <stdlib.h>

enum { TERMS = 31, FACTOR = 16807, MODULUS = 2147483647, LEFT_OUT = 310, DISTANCE = 3 };

static uint32_t terms[TERMS];
static unsigned at;
static bool has_seed;

static uint32_t
next_term(void)
{
  uint32_t term = terms[at] + terms[(at + TERMS - DISTANCE) % TERMS];
  terms[at] = term;
  at = (at + 1) % TERMS;
  return term >> 1;
}

void
srand(unsigned seed)
{
  int32_t term = seed == 0 ? 1 : (int32_t)seed;
  for(unsigned i = 0; i < TERMS; i++) {
    terms[i] = (uint32_t)term;
    term = (int32_t)((int64_t)term * FACTOR % MODULUS);
    term += term < 0 ? MODULUS : 0;
  }
  at = DISTANCE;
  has_seed = true;
  for(unsigned i = 0; i < LEFT_OUT; i++) {
    next_term();
  }
}

int
rand(void)
{
  if(!has_seed) {
    srand(1);
  }
  return (int)next_term();
}

void
srandom(unsigned seed)
{
  srand(seed);
}

long
random(void)
{
  return rand();
}
