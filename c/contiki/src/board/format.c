/*
 * Formats, without the C library: that of a board has a part of C11's, and its rounding may be another one. Texts are those of the GNU C
 * library on Linux, where a replay has them.
 */
#include "format.h"

#include <limits.h>
#include <stdint.h>
#include <string.h>
#include <wchar.h>

enum { DIGITS_ROOM = 24, ASCII = 128 };

void
put_text(struct sink *sink, const char *bytes, size_t length)
{
  sink->count += length;
  if(length > 0) {
    sink->put(sink, bytes, length);
  }
}

void
put_times(struct sink *sink, char byte, size_t count)
{
  while(count-- > 0) {
    put_text(sink, &byte, 1);
  }
}

size_t
put_front(struct sink *sink, const struct directive *directive, const char *prefix, size_t length)
{
  size_t whole = strlen(prefix) + length, left = directive->width > whole ? directive->width - whole : 0;
  bool has_zeros = directive->is_padded_with_zeros && !directive->is_left;
  put_times(sink, ' ', directive->is_left || has_zeros ? 0 : left);
  put_text(sink, prefix, strlen(prefix));
  put_times(sink, '0', has_zeros ? left : 0);
  return directive->is_left ? left : 0;
}

/* Reading a directive. */

static const char *
read_flags(const char *text, struct directive *directive)
{
  for(;; text++) {
    switch(*text) {
    case '-':
      directive->is_left = true;
      break;
    case '+':
      directive->sign = '+';
      break;
    case ' ':
      directive->sign = directive->sign == '+' ? '+' : ' ';
      break;
    case '#':
      directive->is_alternate = true;
      break;
    case '0':
      directive->is_padded_with_zeros = true;
      break;
    default:
      return text;
    }
  }
}

static const char *
read_number(const char *text, size_t *number)
{
  *number = 0;
  while(*text >= '0' && *text <= '9') {
    *number = 10 * *number + (size_t)(*text++ - '0');
  }
  return text;
}

/* A width, perhaps an argument: then a negative one has the flag `-`, too. */
static const char *
read_width(const char *text, struct directive *directive, va_list *arguments)
{
  int width;
  if(*text != '*') {
    return read_number(text, &directive->width);
  }
  width = va_arg(*arguments, int);
  directive->is_left |= width < 0;
  directive->width = width < 0 ? 0u - (unsigned)width : (unsigned)width;
  return text + 1;
}

/* A precision. As an argument it is none if it is negative. */
static const char *
read_precision(const char *text, struct directive *directive, va_list *arguments)
{
  int precision;
  if(*text != '.') {
    return text;
  }
  directive->has_precision = true;
  if(*++text != '*') {
    return read_number(text, &directive->precision);
  }
  precision = va_arg(*arguments, int);
  directive->has_precision = precision >= 0;
  directive->precision = precision >= 0 ? (size_t)precision : 0;
  return text + 1;
}

static const char *
read_length(const char *text, struct directive *directive)
{
  switch(*text) {
  case 'h':
    directive->length = text[1] == 'h' ? OF_CHAR : OF_SHORT;
    return text + (text[1] == 'h' ? 2 : 1);
  case 'l':
    directive->length = text[1] == 'l' ? OF_LONG_LONG : OF_LONG;
    return text + (text[1] == 'l' ? 2 : 1);
  case 'j':
    directive->length = OF_MAXIMUM;
    return text + 1;
  case 'z':
    directive->length = OF_SIZE;
    return text + 1;
  case 't':
    directive->length = OF_DIFFERENCE;
    return text + 1;
  case 'L':
    directive->length = OF_LONG_DOUBLE;
    return text + 1;
  default:
    directive->length = OF_INT;
    return text;
  }
}

/* Arguments. */

static intmax_t
take_signed(const struct directive *directive, va_list *arguments)
{
  switch(directive->length) {
  case OF_CHAR:
    return (signed char)va_arg(*arguments, int);
  case OF_SHORT:
    return (short)va_arg(*arguments, int);
  case OF_LONG:
    return va_arg(*arguments, long);
  case OF_LONG_LONG:
    return va_arg(*arguments, long long);
  case OF_MAXIMUM:
    return va_arg(*arguments, intmax_t);
  case OF_SIZE:
  case OF_DIFFERENCE:
    return va_arg(*arguments, ptrdiff_t);
  default:
    return va_arg(*arguments, int);
  }
}

static uintmax_t
take_unsigned(const struct directive *directive, va_list *arguments)
{
  switch(directive->length) {
  case OF_CHAR:
    return (unsigned char)va_arg(*arguments, unsigned);
  case OF_SHORT:
    return (unsigned short)va_arg(*arguments, unsigned);
  case OF_LONG:
    return va_arg(*arguments, unsigned long);
  case OF_LONG_LONG:
    return va_arg(*arguments, unsigned long long);
  case OF_MAXIMUM:
    return va_arg(*arguments, uintmax_t);
  case OF_SIZE:
  case OF_DIFFERENCE:
    return va_arg(*arguments, size_t);
  default:
    return va_arg(*arguments, unsigned);
  }
}

/* Numbers. */

/* Puts a number's digits after its prefix. A precision is the least number of digits, and then no zeros are padded. */
static void
put_digits(struct sink *sink, struct directive directive, const char *prefix, uintmax_t number, unsigned base)
{
  const char *set = directive.kind == 'X' ? "0123456789ABCDEF" : "0123456789abcdef";
  char digits[DIGITS_ROOM];
  size_t at = DIGITS_ROOM, count, zeros, after;
  for(; number > 0; number /= base) {
    digits[--at] = set[number % base];
  }
  count = DIGITS_ROOM - at;
  if(!directive.has_precision) {
    directive.precision = 1;
  }
  zeros = directive.precision > count ? directive.precision - count : 0;
  if(base == 8 && directive.is_alternate && zeros == 0) {
    zeros = 1;
  }
  directive.is_padded_with_zeros &= !directive.has_precision;
  after = put_front(sink, &directive, prefix, zeros + count);
  put_times(sink, '0', zeros);
  put_text(sink, digits + at, count);
  put_times(sink, ' ', after);
}

static void
put_signed(struct sink *sink, const struct directive *directive, intmax_t number)
{
  char prefix[2] = {number < 0 ? '-' : directive->sign, '\0'};
  put_digits(sink, *directive, prefix, number < 0 ? 0 - (uintmax_t)number : (uintmax_t)number, 10);
}

/* The base is 8 of `o`, 10 of `u`, 16 of `x` and `X`. */
static void
put_unsigned(struct sink *sink, const struct directive *directive, uintmax_t number)
{
  unsigned base = directive->kind == 'o' ? 8 : directive->kind == 'u' ? 10 : 16;
  const char *prefix = base != 16 || !directive->is_alternate || number == 0 ? "" : directive->kind == 'X' ? "0X" : "0x";
  put_digits(sink, *directive, prefix, number, base);
}

/* Texts. */

/* Puts bytes in a field. */
static void
put_field(struct sink *sink, struct directive directive, const char *bytes, size_t length)
{
  size_t after;
  directive.is_padded_with_zeros = false;
  after = put_front(sink, &directive, "", length);
  put_text(sink, bytes, length);
  put_times(sink, ' ', after);
}

static void
put_pointer(struct sink *sink, struct directive *directive, const void *pointer)
{
  if(pointer == NULL) {
    put_field(sink, *directive, "(nil)", 5);
    return;
  }
  directive->kind = 'x';
  directive->is_alternate = true;
  put_unsigned(sink, directive, (uintptr_t)pointer);
}

static void
put_string(struct sink *sink, const struct directive *directive, const char *text)
{
  size_t length = 0, most = directive->has_precision ? directive->precision : SIZE_MAX;
  if(text == NULL) {
    text = most < 6 ? "" : "(null)";
  }
  while(length < most && text[length] != '\0') {
    length++;
  }
  put_field(sink, *directive, text, length);
}

/* Puts wide characters, of which only those of ASCII have a byte here. */
static bool
put_wide(struct sink *sink, const struct directive *directive, const wchar_t *text, size_t most)
{
  size_t length = 0, after;
  struct directive field = *directive;
  while(length < most && (text[length] != 0 || directive->kind == 'c')) {
    if((unsigned long)text[length++] >= ASCII) {
      return false;
    }
  }
  field.is_padded_with_zeros = false;
  after = put_front(sink, &field, "", length);
  for(size_t i = 0; i < length; i++) {
    put_times(sink, (char)text[i], 1);
  }
  put_times(sink, ' ', after);
  return true;
}

static bool
put_characters(struct sink *sink, const struct directive *directive, va_list *arguments)
{
  if(directive->length == OF_LONG && directive->kind == 'c') {
    wchar_t wide = (wchar_t)va_arg(*arguments, wint_t);
    return put_wide(sink, directive, &wide, 1);
  }
  if(directive->length == OF_LONG) {
    return put_wide(sink, directive, va_arg(*arguments, const wchar_t *), directive->has_precision ? directive->precision : SIZE_MAX);
  }
  if(directive->kind == 'c') {
    char byte = (char)va_arg(*arguments, int);
    put_field(sink, *directive, &byte, 1);
  } else {
    put_string(sink, directive, va_arg(*arguments, const char *));
  }
  return true;
}

/* `%n`: stores the number of bytes so far. */
static void
store_count(const struct sink *sink, const struct directive *directive, void *place)
{
  switch(directive->length) {
  case OF_CHAR:
    *(signed char *)place = (signed char)sink->count;
    break;
  case OF_SHORT:
    *(short *)place = (short)sink->count;
    break;
  case OF_LONG:
    *(long *)place = (long)sink->count;
    break;
  case OF_LONG_LONG:
  case OF_MAXIMUM:
    *(long long *)place = (long long)sink->count;
    break;
  case OF_SIZE:
  case OF_DIFFERENCE:
    *(size_t *)place = sink->count;
    break;
  default:
    *(int *)place = (int)sink->count;
    break;
  }
}

/* Executes a directive; false for a wide character without a byte. */
static bool
put_directive(struct sink *sink, struct directive *directive, va_list *arguments)
{
  switch(directive->kind) {
  case 'd':
  case 'i':
    put_signed(sink, directive, take_signed(directive, arguments));
    return true;
  case 'o':
  case 'u':
  case 'x':
  case 'X':
    put_unsigned(sink, directive, take_unsigned(directive, arguments));
    return true;
  case 'c':
  case 's':
    return put_characters(sink, directive, arguments);
  case 'p':
    put_pointer(sink, directive, va_arg(*arguments, void *));
    return true;
  case 'n':
    store_count(sink, directive, va_arg(*arguments, void *));
    return true;
  case '%':
    put_text(sink, "%", 1);
    return true;
  default:
    put_float(sink, directive, directive->length == OF_LONG_DOUBLE ? (double)va_arg(*arguments, long double) : va_arg(*arguments, double));
    return true;
  }
}

int
format(struct sink *sink, const char *text, va_list *arguments)
{
  sink->count = 0;
  while(*text != '\0') {
    struct directive directive = {.sign = 0};
    size_t length = 0;
    while(text[length] != '\0' && text[length] != '%') {
      length++;
    }
    put_text(sink, text, length);
    text += length;
    if(*text == '\0') {
      break;
    }
    text = read_width(read_flags(text + 1, &directive), &directive, arguments);
    text = read_length(read_precision(text, &directive, arguments), &directive);
    directive.kind = *text;
    if(*text == '\0' || strchr("diouxXcspn%fFeEgGaA", *text) == NULL) {
      return -1;
    }
    if(!put_directive(sink, &directive, arguments)) {
      return -1;
    }
    text++;
  }
  return sink->count > INT_MAX ? -1 : (int)sink->count;
}
