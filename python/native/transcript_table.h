/*
 * A transcript's table: for each line its kind, its offset, the clock, and the numbers that join replies to calls.
 */
#ifndef TRANSCRIPT_TABLE_H
#define TRANSCRIPT_TABLE_H

#include <stddef.h>
#include <stdint.h>

enum transcript_kind {
  TRANSCRIPT_TURN = 0,
  TRANSCRIPT_INPUT = 1,
  TRANSCRIPT_NOTE = 2,
  TRANSCRIPT_HALT = 3,
  TRANSCRIPT_BAD_LINE = 4,
  TRANSCRIPT_TOO_LONG = 5,
  TRANSCRIPT_NO_FORM = 6
};

/* A line. What has no meaning for its kind is 0. */
struct transcript_row {
  uint64_t begin;     /* the offset of its first byte */
  uint64_t clock;     /* the ticks since boot; of a tick: after it */
  uint64_t answer;    /* a turn: 1 + the row of the answer to its call; 0 where there is none */
  uint64_t asked;     /* a reply: 1 + the row of its call; 0 if there is none */
  uint32_t length;    /* without its line end */
  uint32_t content;   /* from begin on: a turn's stimulus, without its origin; an input's or a note's argument */
  uint32_t call;      /* a turn: from begin on, where its call's words begin */
  uint8_t kind;       /* enum transcript_kind */
  uint8_t detail;     /* a turn: enum toarmuts_origin; an input: tick 0, serial 1, frame 2; a note: lost 0, sent 1 */
  uint8_t process;    /* a turn */
  uint8_t event;      /* a turn that receives an event: its code */
  uint8_t reply;      /* an answer: enum toarmuts_reply */
  uint8_t refusal;    /* an answer: the number of its refusal, or 1 where a flag is true; a lost frame: why */
  uint8_t call_kind;  /* a turn: enum toarmuts_call_kind */
  uint8_t asked_kind; /* a reply: the kind of its call */
  uint32_t unused;
};

/* A call's word, its number of bytes, and the call's number. */
struct call_word {
  const char *word;
  uint8_t length;
  uint8_t kind;
};

/* The words of calls, in alphabetical order, and their number. */
extern const struct call_word call_words[];
extern const size_t call_words_count;

/* How many lines a text has; the last one needs no line end. */
size_t transcript_lines(const uint8_t *text, size_t length);

/*
 * Fills in a row for each line of a text, and returns their number. There must be room for a row
 * for each line. A malformed line has that kind.
 */
size_t transcript_table(const uint8_t *text, size_t length, struct transcript_row *rows);

#endif
