/* The lines of the script. */
#include "linux.h"

#include <errno.h>

enum { SCRIPT_LIMIT = 16777216, PART = 65536 };

/* What was read of the script: the bytes from `at` to `end` are left. */
static char part[PART];
static size_t at, end;

/* How many bytes may be taken yet. */
static uint64_t allowance = SCRIPT_LIMIT;

/* For a record, which may be that of days. */
void
read_without_limit(void)
{
  allowance = UINT64_MAX;
}

/* Whether the last line had its end. */
static bool had_end;

bool
is_whole_line(void)
{
  return had_end;
}

/* Reads more of the script, after what is left of it; false at its end. The transcript so far is written before it waits for that. It isn't
 * inlined: otherwise each line would save the registers that this needs. */
static __attribute__((noinline)) bool
read_more(int script)
{
  static bool has_ended;
  ssize_t count = 0;
  memmove(part, part + at, end - at);
  end -= at;
  at = 0;
  if(has_ended) {
    return false;
  }
  flush_transcript();
  while((count = __read(script, part + end, sizeof part - end)) < 0 && errno == EINTR) {
  }
  if(count < 0) {
    give_up(STATUS_READ_FAILED, "read failed");
  }
  end += (size_t)count;
  has_ended = count == 0;
  return !has_ended;
}

/* Reads the next line, without its end, which is in place until the next one is read. Of a line that is too long it reads one byte too
 * many, so that the mote refuses it. */
enum reading
read_line(int script, const char **line, size_t *length)
{
  const char *line_end;
  size_t used;
  do {
    used = MIN(end - at, LINE_LIMIT + 1);
    line_end = memchr(part + at, '\n', used);
  } while(line_end == NULL && used <= LINE_LIMIT && used <= allowance && read_more(script));
  *line = part + at;
  *length = line_end == NULL ? used : (size_t)(line_end - *line);
  had_end = line_end != NULL;
  used = *length + had_end;
  if(used > allowance) {
    return READ_TOO_MUCH;
  }
  at += used;
  allowance -= used;
  return used > 0 ? READ_LINE : READ_END;
}

/* The run ends at a malformed line. */
void
end_at_bad_line(uint64_t number, const char *line, size_t length, const char *inputs)
{
  char text[40];
  bool is_marked = number == 1 && length >= 3 && memcmp(line, "\xef\xbb\xbf", 3) == 0;
  const char *why = is_marked                                ? "begins with a byte order mark: save it without one"
                    : length > 0 && line[length - 1] == '\r' ? "ends with byte 13, as on Windows: save it with line ends of byte 10 alone"
                                                             : NULL;
  snprintf(text, sizeof text, "bad line %" PRIu64 "\n", number);
  show_text(text);
  flush_transcript();
  if(why == NULL) {
    fprintf(stderr, "contiki: line %" PRIu64 " of the script is malformed: inputs are %s\n", number, inputs);
  } else {
    fprintf(stderr, "contiki: line %" PRIu64 " of the script %s\n", number, why);
  }
  finish(STATUS_BAD_LINE);
}
