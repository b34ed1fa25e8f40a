// What both programs in plain C share: text that is gathered, and written by and by.
#include <errno.h>
#include <inttypes.h>
#include <stdbool.h>
#include <stdint.h>
#include <stdio.h>
#include <stdlib.h>
#include <string.h>
#include <unistd.h>

enum { PIECE = 4096 };
enum { STATUS_BAD_LINE = 2, STATUS_HALTED, STATUS_TOO_LONG, STATUS_READ, STATUS_WRITE, STATUS_WORDS = 64 };

static void
fail(const char *why, int status)
{
  fprintf(stderr, "plain: %s\n", why);
  exit(status);
}

enum { LONGEST_LINES = 1024 }; // those of an input and its note, or of a turn and its note

static char out[PIECE + LONGEST_LINES];
static size_t out_length;

static void
flush(void)
{
  size_t done = 0;
  while(done < out_length) {
    ssize_t written = write(STDOUT_FILENO, out + done, out_length - done);
    if(written >= 0)
      done += (size_t)written;
    else if(errno != EINTR)
      fail("write failed", STATUS_WRITE);
  }
  out_length = 0;
}

static void
put(const void *bytes, size_t length)
{
  memcpy(out + out_length, bytes, length);
  out_length += length;
}

#define PUT(text) put(text, sizeof(text) - 1)

static void
make_room(void)
{
  if(out_length >= PIECE) flush();
}

// Writes a number to a place, and answers where it ends.
static char *
write_number(uint32_t number, char *to)
{
  char digits[10];
  size_t count = 0;
  do {
    digits[count++] = (char)('0' + number % 10);
    number /= 10;
  } while(number > 0);
  while(count > 0) *to++ = digits[--count];
  return to;
}

static void
put_number(uint32_t number)
{
  out_length = (size_t)(write_number(number, out + out_length) - out);
}

// The two digits of each byte, which main fills.
static char pairs[256][2];

static void
fill_pairs(void)
{
  static const char digits[] = "0123456789abcdef";
  for(unsigned byte = 0; byte < 256; byte++) {
    pairs[byte][0] = digits[byte / 16];
    pairs[byte][1] = digits[byte % 16];
  }
}

static void
put_hex(const uint8_t *bytes, size_t length)
{
  char *to = out + out_length;
  for(size_t i = 0; i < length; i++) memcpy(to + 2 * i, pairs[bytes[i]], 2);
  out_length += 2 * length;
}

// Bytes as a word, a dash where there are none.
static void
put_bytes(const uint8_t *bytes, size_t length)
{
  if(length == 0) PUT("-");
  put_hex(bytes, length);
}

// The last words of a line.

static void
end_with_number(uint32_t number)
{
  put_number(number);
  PUT("\n");
}

static void
end_with_bytes(const uint8_t *bytes, size_t length)
{
  put_bytes(bytes, length);
  PUT("\n");
}

// Words of a line.

// What follows the word that a line begins with.
static const char *
argument_of(const char *line, size_t *length, const char *word)
{
  size_t skipped = strlen(word);
  if(*length < skipped || memcmp(line, word, skipped) != 0) return NULL;
  *length -= skipped;
  return line + skipped;
}

static bool
read_number(const char *digits, size_t length, uint32_t *number)
{
  uint64_t value = 0;
  if(length == 0 || length > 10 || (length > 1 && digits[0] == '0')) return false;
  for(size_t i = 0; i < length; i++) {
    if(digits[i] < '0' || digits[i] > '9') return false;
    value = 10 * value + (uint64_t)(digits[i] - '0');
  }
  *number = (uint32_t)value;
  return value <= UINT32_MAX;
}

// The value of each hex digit and 1, 0 for all else.
static const uint8_t digit_values[256] = {
  ['0'] = 1,  ['1'] = 2,  ['2'] = 3,  ['3'] = 4,  ['4'] = 5,  ['5'] = 6,  ['6'] = 7,  ['7'] = 8,  ['8'] = 9,  ['9'] = 10, ['a'] = 11,
  ['b'] = 12, ['c'] = 13, ['d'] = 14, ['e'] = 15, ['f'] = 16, ['A'] = 11, ['B'] = 12, ['C'] = 13, ['D'] = 14, ['E'] = 15, ['F'] = 16,
};

// The number of bytes, 0 where they have no form.
static size_t
read_hex(const char *text, size_t length, size_t most, uint8_t *bytes)
{
  const uint8_t *digits = (const uint8_t *)text;
  if(length % 2 != 0 || length > 2 * most) return 0;
  for(size_t i = 0; i < length / 2; i++) {
    unsigned high = digit_values[digits[2 * i]], low = digit_values[digits[2 * i + 1]];
    if(high == 0 || low == 0) return 0;
    bytes[i] = (uint8_t)((high - 1) << 4 | (low - 1));
  }
  return length / 2;
}
