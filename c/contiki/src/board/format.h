/* The formats of stdio.h, as C11 has them: the same text on each host. */
#ifndef FORMAT_H_
#define FORMAT_H_

#include <stdarg.h>
#include <stdbool.h>
#include <stddef.h>

#pragma GCC visibility push(hidden)

/* Where text goes, and how many bytes went there. */
struct sink {
  void (*put)(struct sink *sink, const char *bytes, size_t length);
  size_t count;
};

/* A directive of a format, as `%-8.3f`. */
struct directive {
  bool is_left, is_alternate, is_padded_with_zeros;
  char sign; /* '+' or ' ' for a number that isn't negative, or 0 */
  bool has_precision;
  size_t width, precision;
  enum { OF_INT, OF_CHAR, OF_SHORT, OF_LONG, OF_LONG_LONG, OF_MAXIMUM, OF_SIZE, OF_DIFFERENCE, OF_LONG_DOUBLE } length;
  char kind;
};

/* Returns the number of bytes, or -1 for a wide character that isn't ASCII. */
int format(struct sink *sink, const char *text, va_list *arguments);

void put_text(struct sink *sink, const char *bytes, size_t length);
void put_times(struct sink *sink, char byte, size_t count);

/* What is before a number's digits: spaces, sign, prefix and zeros, where so many bytes follow. Returns the spaces after them. */
size_t put_front(struct sink *sink, const struct directive *directive, const char *prefix, size_t length);

/* floats.c */
void put_float(struct sink *sink, const struct directive *directive, double value);

#pragma GCC visibility pop

#endif
