/*
 * A replay: the record of a run, on a board or here, is the script, and its comments have what the program read, and what its calls came
 * to. The first difference from that run ends the replay.
 */
#define _XOPEN_SOURCE 700
#include "linux.h"

#include "../record.h"

#include <stdlib.h>

static int record = -1;
static struct record_head head;
static uint64_t line_number, input_count, value_count, check_count;

/* Whether a line has this beginning. What follows it is left in `rest`. */
static bool
begins(const char *line, const char *words, const char **rest)
{
  size_t length = strlen(words);
  *rest = line + length;
  return strncmp(line, words, length) == 0;
}

static CC_NORETURN void
stop_at_bad_line(void)
{
  stop("line %" PRIu64 " of the record is malformed", line_number);
}

/* Removes what is before the last of these words. */
static void
begin_at(char *line, const char *words)
{
  const char *begin = line;
  for(const char *it = line; (it = strstr(it, words)) != NULL; it++) {
    begin = it;
  }
  memmove(line, begin, strlen(begin) + 1);
}

/* Reads the next whole line. A line at the end that was cut off isn't part of the run. A record may end within a line, and a board may
 * begin anew within one, as at a loss of power: that line is the first one of the next run. */
static bool
next_line(char *line)
{
  const char *text;
  size_t length;
  if(read_line(record, &text, &length) != READ_LINE || (!is_whole_line() && length <= LINE_LIMIT)) {
    return false;
  }
  memcpy(line, text, length);
  line[length] = '\0';
  line_number++;
  if(strlen(line) < length) {
    stop("line %" PRIu64 " of the record has a byte 0", line_number);
  }
  if(length > LINE_LIMIT) {
    stop_at_bad_line();
  }
  if(length > 0 && line[length - 1] == '\r') {
    stop("line %" PRIu64 " of the record ends with byte 13, as on Windows: save it with line ends of byte 10 alone", line_number);
  }
  begin_at(line, "# the record ends here");
  begin_at(line, "# record ");
  return true;
}

/* Reads a number below 2^32. Returns where it ends, or NULL if there is none. */
static const char *
read_number(const char *text, uint32_t *number)
{
  char *end;
  unsigned long long read = strtoull(text, &end, 10);
  *number = (uint32_t)read;
  return *text >= '0' && *text <= '9' && read <= UINT32_MAX ? end : NULL;
}

static bool
read_head(const char *line)
{
  uint32_t *const numbers[] = {&head.facts.ticks_a_second, &head.sizes.mmem, &head.sizes.heap, &head.sizes.header,
                               &head.sizes.quota,          &head.node,       &head.long_bytes, &head.pointer_bytes};
  static const char *const names[] = {" second ", " mmem ", " heap ", " header ", " quota ", " node ", " long ", " pointer "};
  const char *rest, *end;
  char *end_of_sources;
  if(!begins(line, "# record 1 sources ", &rest)) {
    return false;
  }
  head.facts.sources = strtoull(rest, &end_of_sources, 16);
  end = end_of_sources;
  for(unsigned i = 0; i < sizeof names / sizeof names[0]; i++) {
    if(!begins(end, names[i], &rest) || (end = read_number(rest, numbers[i])) == NULL) {
      return false;
    }
  }
  head.sizes.has_quota = head.sizes.quota != 0;
  return *end == '\0' && head.node <= UINT16_MAX;
}

/* Begins a replay: the record has the sizes and the number of the mote. Refuses a record that can't be this program's. */
struct record_head
open_replay(int file)
{
  char line[LINE_LIMIT + 2];
  record = file;
  begin_sum();
  read_without_limit();
  if(!next_line(line) || !read_head(line)) {
    give_up(STATUS_BAD_LINE, "this is no record: it doesn't begin with `# record 1 sources ..`");
  }
  if(head.facts.ticks_a_second != program_facts.ticks_a_second) {
    give_up(STATUS_BAD_WORDS, "the record doesn't fit: CLOCK_SECOND is %" PRIu32 " there, %" PRIu32 " in this program",
            head.facts.ticks_a_second, program_facts.ticks_a_second);
  }
  if(head.facts.sources != program_facts.sources) {
    fputs("contiki: the record is of other sources: this run may be another one\n", stderr);
  }
  return head;
}

/* Why two runs may differ, if a board's differs from this one. */
static const char *
reason(void)
{
  return head.facts.sources != program_facts.sources ? ": the sources aren't those of the record"
         : head.pointer_bytes != sizeof(void *)      ? ": does the program depend on the size of a pointer, of a long or of a struct?"
                                                     : ": was the record changed, or does the program depend on something else?";
}

/* At the end of the record, or where it was cut off. */
static CC_NORETURN void
end_replay(void)
{
  flush_transcript();
  fprintf(stderr, "contiki: replayed %" PRIu64 " inputs and %" PRIu64 " values; %" PRIu64 " checks agree\n", input_count, value_count,
          check_count);
  finish(STATUS_FINISHED);
}

/* What the record has at rest beside inputs. */
static void
take_comment(const char *line)
{
  const char *rest;
  if(begins(line, "# check ", &rest)) {
    char here[40];
    snprintf(here, sizeof here, "%" PRIu64 " %08" PRIx32, shown_lines(), sum_so_far());
    if(strcmp(here, rest) != 0) {
      stop("line %" PRIu64 " of the record: its run isn't this one (%s, here %s)%s", line_number, rest, here, reason());
    }
    check_count++;
  } else if(begins(line, "# value ", &rest)) {
    stop("line %" PRIu64 " of the record: its run read a value, which this one doesn't%s", line_number, reason());
  } else if(begins(line, "# record ", &rest)) {
    fprintf(stderr, "contiki: another run begins at line %" PRIu64 " of the record: replay it from a file of its own\n", line_number);
    end_replay();
  } else if(begins(line, "# contiki: ", &rest)) {
    flush_transcript();
    fprintf(stderr, "contiki: the record says: %s\n", rest);
  }
}

/* Passes the record's inputs. */
void
run_replay(void)
{
  char line[LINE_LIMIT + 2];
  run_to_rest();
  while(next_line(line)) {
    if(line[0] == '#') {
      take_comment(line);
      continue;
    }
    sum_line(line, strlen(line));
    if(feed_line(line, strlen(line)) != 0) {
      stop_at_bad_line();
    }
    input_count++;
    run_to_rest();
  }
  end_replay();
}

/* The number of a value: all that follows its words. */
static uint32_t
read_value(const char *text)
{
  uint32_t number;
  const char *end = read_number(text, &number);
  if(end == NULL || *end != '\0') {
    stop_at_bad_line();
  }
  return number;
}

/* The next value of the record. Notes of a board may be before it. */
bool
take_value(uint32_t *value)
{
  char line[LINE_LIMIT + 2];
  const char *rest;
  if(record < 0) {
    return false;
  }
  do {
    if(!next_line(line)) {
      fputs("contiki: the record ends where this run reads a value\n", stderr);
      end_replay();
    }
    if(begins(line, "# value ", &rest)) {
      *value = read_value(rest);
      value_count++;
      return true;
    }
    if(begins(line, "# record ", &rest)) {
      take_comment(line);
    }
  } while(line[0] == '#' && !begins(line, "# check ", &rest));
  stop("line %" PRIu64 " of the record: this run reads a value, which its run didn't%s", line_number, reason());
}
