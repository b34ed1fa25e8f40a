/*
 * The table of a transcript (python/native/transcript_table.c) on spoilt and random texts: it touches nothing outside its text and
 * its rows, which the sanitizers see, and the rows lie in the text.
 */
#include "check.h"
#include "transcript_table.h"

#include <stdlib.h>
#include <string.h>

#define LONGEST 400

static const char *const samples[] = {
  "> tick 10\n4 synch 129 - -> timer-set 0 10\n4 answer done -> wait\n",
  "5 event 138 x6f6e -> print 6f6e\n5 answer refused 12 -> memb-read 0 1 2 3\nnote sent 00ff\nnote lost 12\n",
  "4 answer stats 1 2 3 4 5 -> clock\n4 answer wide 18446744073709551615 -> wait\nhalt\nbad line 7\ntoo long\n",
  "4 callback 3 -> packet-open\n4 poll 130 - -> exit\n4 answer flag true -> list-insert 0 1 2\n> serial 0a\n> frame 00",
};

static size_t
lines_of(const uint8_t *text, size_t length)
{
  size_t count = 0;

  for(size_t i = 0; i < length; i++) {
    count += text[i] == '\n';
  }
  return count + (length != 0 && text[length - 1] != '\n');
}

/* Whether the rows are those of the lines: one behind the other, and what they tell of lies in them. */
static int
are_rows(const struct transcript_row *rows, size_t count, size_t length)
{
  size_t next = 0;

  for(size_t i = 0; i < count; i++) {
    const struct transcript_row *row = &rows[i];

    if(row->begin != next || row->begin + row->length > length || row->content > row->length || row->call > row->length ||
       row->answer > count || row->asked > i || row->kind > TRANSCRIPT_NO_FORM || row->call_kind > 50) {
      return 0;
    }
    next = row->begin + row->length + 1;
  }
  return next == length || next == length + 1 || count == 0;
}

/* The text lies in a block of its own size, so that a byte behind it is noticed. */
static void
try_text(const uint8_t *bytes, size_t length)
{
  uint8_t *text = malloc(length != 0 ? length : 1);
  size_t lines = lines_of(bytes, length);
  struct transcript_row *rows = malloc((lines != 0 ? lines : 1) * sizeof *rows);

  if(text == NULL || rows == NULL) {
    abort();
  }
  memcpy(text, bytes, length);
  check("how many lines there are", transcript_lines(text, length) == lines);
  check("a text's rows", transcript_table(text, length, rows) == lines && are_rows(rows, lines, length));
  free(rows);
  free(text);
}

int
main(int argc, char **argv)
{
  long tries = argc > 1 ? atol(argv[1]) : 100000;
  uint8_t text[LONGEST];

  srand(1);
  for(size_t i = 0; i < sizeof samples / sizeof *samples; i++) {
    for(size_t length = 0; length <= strlen(samples[i]); length++) {
      try_text((const uint8_t *)samples[i], length);
    }
  }
  for(long i = 0; i < tries; i++) {
    const char *sample = samples[(size_t)rand() % (sizeof samples / sizeof *samples)];
    size_t length = strlen(sample);

    memcpy(text, sample, length);
    for(int spoilt = rand() % 4; spoilt > 0; spoilt--) {
      text[(size_t)rand() % length] = (uint8_t)(rand() % 3 == 0 ? rand() : "0123456789 ->\nx"[rand() % 15]);
    }
    try_text(text, length - (size_t)rand() % length);
  }
  return conclude();
}
