/*
 * Numbers of type double in decimal and hexadecimal. A number is made exactly, as digits to the base 1,000,000,000, and then rounded once,
 * to the nearest, and in the middle to an even digit.
 */
#include "format.h"

#include <stdint.h>
#include <string.h>

/* 2^1023 has 309 digits; 2^-1074 has 1,074 after the point. One word before all others is for a carry. */
enum { WORD_DIGITS = 9, INTEGER_WORDS = 36, FRACTION_WORDS = 120, WORDS = INTEGER_WORDS + FRACTION_WORDS, SHIFT = 9 };
enum { MANTISSA_BITS = 52, BIAS = 1075, TEXT_ROOM = 8 };

#define BASE UINT32_C(1000000000)

/* Word i counts 10^(9 * (INTEGER_WORDS - 1 - i)). */
struct decimal {
  uint32_t words[WORDS];
  int end; /* from here on all words are 0 */
};

struct parts {
  uint64_t mantissa;
  int exponent; /* the value is mantissa * 2^exponent */
  bool is_negative, is_special;
};

static struct parts
parts_of(double value)
{
  uint64_t bits;
  int exponent;
  memcpy(&bits, &value, sizeof bits);
  exponent = (int)(bits >> MANTISSA_BITS & 0x7ff);
  return (struct parts){
    .mantissa = (bits & ((UINT64_C(1) << MANTISSA_BITS) - 1)) | (exponent == 0 ? 0 : UINT64_C(1) << MANTISSA_BITS),
    .exponent = (exponent == 0 ? 1 : exponent) - BIAS,
    .is_negative = bits >> 63 != 0,
    .is_special = exponent == 0x7ff,
  };
}

/* The exact digits. */

static void
multiply(struct decimal *decimal, unsigned shift)
{
  uint64_t carry = 0;
  for(int i = INTEGER_WORDS - 1; i >= 0; i--) {
    carry += (uint64_t)decimal->words[i] << shift;
    decimal->words[i] = (uint32_t)(carry % BASE);
    carry /= BASE;
  }
}

/* Halves it some times, at most SHIFT: 10^9 is a multiple of 2^9, so at most one word is added. */
static void
divide(struct decimal *decimal, unsigned shift)
{
  uint64_t rest = 0;
  for(int i = 0; i < decimal->end || rest != 0; i++) {
    uint64_t now = rest * BASE + decimal->words[i];
    decimal->words[i] = (uint32_t)(now >> shift);
    rest = now & ((1u << shift) - 1);
    if(i >= decimal->end) {
      decimal->end = i + 1;
    }
  }
}

static void
expand(struct decimal *decimal, const struct parts *parts)
{
  uint64_t left = parts->mantissa;
  memset(decimal, 0, sizeof *decimal);
  decimal->end = INTEGER_WORDS;
  for(int i = INTEGER_WORDS - 1; left > 0; i--, left /= BASE) {
    decimal->words[i] = (uint32_t)(left % BASE);
  }
  for(int to = parts->exponent; to > 0; to -= SHIFT) {
    multiply(decimal, to < SHIFT ? (unsigned)to : SHIFT);
  }
  for(int to = -parts->exponent; to > 0; to -= SHIFT) {
    divide(decimal, to < SHIFT ? (unsigned)to : SHIFT);
  }
}

/* Positions: a digit at position p counts 10^p. */

static uint32_t
power_of_ten(int exponent)
{
  uint32_t power = 1;
  while(exponent-- > 0) {
    power *= 10;
  }
  return power;
}

/* The word of a position; `*power` is what a digit there counts in it. */
static int
word_at(int position, uint32_t *power)
{
  int shifted = position + WORD_DIGITS * FRACTION_WORDS + WORD_DIGITS;
  *power = power_of_ten(shifted % WORD_DIGITS);
  return INTEGER_WORDS + FRACTION_WORDS - shifted / WORD_DIGITS;
}

static char
digit_at(const struct decimal *decimal, int position)
{
  uint32_t power;
  int word = word_at(position, &power);
  return (char)('0' + (position < -WORD_DIGITS * FRACTION_WORDS || word < 0 ? 0 : decimal->words[word] / power % 10));
}

/* The position of the first digit that isn't 0; 0 of the number 0. */
static int
first_position(const struct decimal *decimal)
{
  int word = 0, position;
  while(word < decimal->end && decimal->words[word] == 0) {
    word++;
  }
  if(word == decimal->end) {
    return 0;
  }
  position = WORD_DIGITS * (INTEGER_WORDS - 1 - word) + WORD_DIGITS - 1;
  while(digit_at(decimal, position) == '0') {
    position--;
  }
  return position;
}

static bool
has_words_from(const struct decimal *decimal, int word)
{
  while(word < decimal->end && decimal->words[word] == 0) {
    word++;
  }
  return word < decimal->end;
}

/* Removes what counts less than a position, and compares it with half a digit there: negative, 0, or positive. */
static int
cut_at(struct decimal *decimal, int word, uint32_t power)
{
  uint32_t rest = power > 1 ? decimal->words[word] % power : word + 1 < WORDS ? decimal->words[word + 1] : 0;
  uint32_t half = power > 1 ? power / 2 : BASE / 2;
  int later = word + (power > 1 ? 1 : 2);
  int compared = rest < half ? -1 : rest > half || has_words_from(decimal, later) ? 1 : 0;
  if(power > 1) {
    decimal->words[word] -= rest;
  }
  for(int i = word + 1; i < decimal->end; i++) {
    decimal->words[i] = 0;
  }
  return compared;
}

/* Rounds it to a position. */
static void
round_at(struct decimal *decimal, int position)
{
  uint32_t power;
  int word, compared;
  if(position < -WORD_DIGITS * FRACTION_WORDS) {
    return;
  }
  word = word_at(position, &power);
  compared = cut_at(decimal, word, power);
  if(compared > 0 || (compared == 0 && decimal->words[word] / power % 2 != 0)) {
    decimal->end = decimal->end <= word ? word + 1 : decimal->end;
    decimal->words[word] += power;
    for(; decimal->words[word] >= BASE; word--) {
      decimal->words[word] -= BASE;
      decimal->words[word - 1]++;
    }
  }
}

/* Texts. */

/* A number that is written with digits from a first position, a point after that at position 0, and an exponent. */
struct layout {
  int first, last; /* the positions of the first and the last digit */
  int point;       /* the position of the digit before the point */
  bool has_point;
  char exponent[TEXT_ROOM];
};

/* Writes the exponent of `e`, with at least two digits. */
static void
write_exponent(char *text, char letter, int exponent)
{
  int size = exponent < 0 ? -exponent : exponent;
  *text++ = letter;
  *text++ = exponent < 0 ? '-' : '+';
  if(size >= 100) {
    *text++ = (char)('0' + size / 100);
  }
  *text++ = (char)('0' + size / 10 % 10);
  *text++ = (char)('0' + size % 10);
  *text = '\0';
}

static void
put_layout(struct sink *sink, const struct directive *directive, const struct decimal *decimal, const char *prefix,
           const struct layout *layout)
{
  size_t length = (size_t)(layout->first - layout->last) + 1 + layout->has_point + strlen(layout->exponent);
  size_t after = put_front(sink, directive, prefix, length);
  for(int position = layout->first; position >= layout->last; position--) {
    put_times(sink, digit_at(decimal, position), 1);
    if(position == layout->point && layout->has_point) {
      put_text(sink, ".", 1);
    }
  }
  put_text(sink, layout->exponent, strlen(layout->exponent));
  put_times(sink, ' ', after);
}

/* Digits from the first one on, and an exponent. */
static struct layout
scientific(const struct directive *directive, int first, int precision)
{
  struct layout layout = {.first = first, .last = first - precision, .point = first, .has_point = precision > 0 || directive->is_alternate};
  write_exponent(layout.exponent, directive->kind == 'E' || directive->kind == 'G' ? 'E' : 'e', first);
  return layout;
}

static struct layout
fixed(const struct directive *directive, int first, int precision)
{
  return (struct layout){.first = first < 0 ? 0 : first, .last = -precision, .has_point = precision > 0 || directive->is_alternate};
}

/* `g`: of so many digits, the shorter form, without zeros at the end. */
static struct layout
general(const struct directive *directive, struct decimal *decimal, int precision)
{
  int digits = precision == 0 ? 1 : precision, first;
  struct layout layout;
  round_at(decimal, first_position(decimal) - digits + 1);
  first = first_position(decimal);
  layout = first < -4 || first >= digits ? scientific(directive, first, digits - 1) : fixed(directive, first, digits - 1 - first);
  if(!directive->is_alternate) {
    while(layout.last < layout.point && digit_at(decimal, layout.last) == '0') {
      layout.last++;
    }
    layout.has_point = layout.last < layout.point;
  }
  return layout;
}

static void
put_decimal(struct sink *sink, const struct directive *directive, const struct parts *parts, const char *prefix)
{
  struct decimal decimal;
  struct layout layout;
  int precision = directive->has_precision ? (int)directive->precision : 6;
  char kind = (char)(directive->kind | 0x20);
  expand(&decimal, parts);
  if(kind == 'g') {
    layout = general(directive, &decimal, precision);
  } else if(kind == 'e') {
    round_at(&decimal, first_position(&decimal) - precision);
    layout = scientific(directive, first_position(&decimal), precision);
  } else {
    round_at(&decimal, -precision);
    layout = fixed(directive, first_position(&decimal), precision);
  }
  put_layout(sink, directive, &decimal, prefix, &layout);
}

/* `a`: a digit, a point, 13 digits or as many as are asked for, without zeros at the end if none is asked for. */
static void
put_hexadecimal(struct sink *sink, const struct directive *directive, const struct parts *parts, const char *sign)
{
  bool is_upper = directive->kind == 'A';
  const char *set = is_upper ? "0123456789ABCDEF" : "0123456789abcdef";
  uint64_t mantissa = parts->mantissa;
  int exponent = mantissa == 0 ? 0 : parts->exponent + MANTISSA_BITS, size = exponent < 0 ? -exponent : exponent;
  size_t digits = MANTISSA_BITS / 4, shown = directive->has_precision ? directive->precision : digits, kept, after, at = 4;
  char prefix[4] = "", end[TEXT_ROOM] = {is_upper ? 'P' : 'p', exponent < 0 ? '-' : '+'}, numbers[5] = "";
  if(!directive->has_precision) {
    while(shown > 0 && (mantissa >> 4 * (digits - shown) & 15) == 0) {
      shown--;
    }
  } else if(shown < digits) {
    uint64_t unit = UINT64_C(1) << 4 * (digits - shown), rest = mantissa & (unit - 1);
    mantissa -= rest;
    mantissa += rest > unit / 2 || (rest == unit / 2 && (mantissa & unit) != 0) ? unit : 0;
  }
  for(; at == 4 || size > 0; size /= 10) {
    numbers[--at] = (char)('0' + size % 10);
  }
  strcat(end, numbers + at);
  strcat(strcat(prefix, sign), is_upper ? "0X" : "0x");
  kept = shown < digits ? shown : digits;
  after = put_front(sink, directive, prefix, 1 + (shown > 0 || directive->is_alternate) + shown + strlen(end));
  put_times(sink, set[mantissa >> MANTISSA_BITS], 1);
  put_text(sink, ".", shown > 0 || directive->is_alternate);
  for(size_t i = 0; i < kept; i++) {
    put_times(sink, set[mantissa >> 4 * (digits - 1 - i) & 15], 1);
  }
  put_times(sink, '0', shown - kept);
  put_text(sink, end, strlen(end));
  put_times(sink, ' ', after);
}

/* Infinity, and what is no number. */
static void
put_special(struct sink *sink, struct directive directive, const struct parts *parts, const char *sign)
{
  bool is_upper = directive.kind < 'a', is_infinite = parts->mantissa == UINT64_C(1) << MANTISSA_BITS;
  size_t after;
  directive.is_padded_with_zeros = false;
  after = put_front(sink, &directive, sign, 3);
  put_text(sink, is_infinite ? (is_upper ? "INF" : "inf") : is_upper ? "NAN" : "nan", 3);
  put_times(sink, ' ', after);
}

void
put_float(struct sink *sink, const struct directive *directive, double value)
{
  struct parts parts = parts_of(value);
  char sign[2] = {parts.is_negative ? '-' : directive->sign, '\0'};
  if(parts.is_special) {
    put_special(sink, *directive, &parts, sign);
  } else if((directive->kind | 0x20) == 'a') {
    put_hexadecimal(sink, directive, &parts, sign);
  } else {
    put_decimal(sink, directive, &parts, sign);
  }
}
