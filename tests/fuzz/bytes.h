/* The input of a fuzz target, byte by byte; after its end all bytes are 0. */
#ifndef BYTES_H
#define BYTES_H

#include <stdbool.h>
#include <stddef.h>
#include <stdint.h>
#include <stdlib.h>

static const uint8_t *input, *input_end;

/* Ends the run where a condition doesn't hold: libFuzzer reports the input. */
#define WANT(condition) \
  do {                  \
    if(!(condition)) {  \
      abort();          \
    }                   \
  } while(0)

static inline void
begin_input(const uint8_t *data, size_t size)
{
  input = data;
  input_end = data + size;
}

static inline bool
has_input(void)
{
  return input < input_end;
}

static inline uint8_t
take_byte(void)
{
  return has_input() ? *input++ : 0;
}

int LLVMFuzzerTestOneInput(const uint8_t *data, size_t size);

#endif
