/*
 * The record of a run, from which it can be run once more: the inputs in their order, as lines of a script, and comments that a replay
 * reads. docs/firmware.md describes it.
 */
#ifndef RECORD_H_
#define RECORD_H_

#include "driver.h"

#include "program/facts.h"

#pragma GCC visibility push(hidden)

/* What decides a run beside its inputs. */
struct record_head {
  struct program_facts facts;
  struct toarmuts_configuration sizes;
  uint32_t node; /* the mote's number in a network, or 0 */
  uint32_t long_bytes, pointer_bytes;
};

struct record_head head_of(const struct toarmuts_configuration *sizes, uint32_t node);
void record_head(const struct record_head *head);

/* A line of a script, without its end, before the mote has it: so the last line of a record is what the mote was given last. */
void record_line(const char *line, size_t length);
void record_input(uint32_t kind, uint32_t ticks, const uint8_t *bytes, size_t length);

/* A comment: words, a number, and further words. */
void record_note(const char *before, uint64_t number, const char *after);

/* At rest: how many lines the transcript has, and the sum. */
void record_check(void);

/* The sum of all inputs, as lines, of all calls and of all values so far. It begins with a record's first line, written or replayed. */
void begin_sum(void);
void sum_line(const char *line, size_t length);
uint32_t sum_so_far(void);

/* The host: whether a record is written, and where its bytes go; a line is complete before the next one begins. */
bool is_recording(void);
void put_record(const void *bytes, size_t length);

/* The host: takes the next value of a record that is replayed; false if none is replayed. */
bool take_value(uint32_t *value);

#pragma GCC visibility pop

#endif
