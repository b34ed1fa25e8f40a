/* The driver's own formats beside those of this machine's C library: random directives of C11, each with a random value. */
#include "format.h"

#include <inttypes.h>
#include <stdio.h>
#include <stdlib.h>
#include <string.h>
#include <wchar.h>

enum { ROOM = 4096, TEXT_ROOM = 64 };

static uint64_t state;

static uint64_t
draw(uint64_t below)
{
  state = state * 6364136223846793005u + 1442695040888963407u;
  return (state >> 33) % below;
}

/* The driver's. */

struct text {
  struct sink sink;
  char bytes[ROOM];
};

static void
put_into(struct sink *sink, const char *bytes, size_t length)
{
  struct text *text = (struct text *)sink;
  size_t at = sink->count - length;
  if(at + length < ROOM) {
    memcpy(text->bytes + at, bytes, length);
  }
}

static int
print_own(struct text *text, const char *directive, ...)
{
  va_list arguments;
  int count;
  text->sink.put = put_into;
  va_start(arguments, directive);
  count = format(&text->sink, directive, &arguments);
  va_end(arguments);
  text->bytes[count < 0 || count >= ROOM ? 0 : count] = '\0';
  return count;
}

/* A directive, and what it takes. */

static char directive[TEXT_ROOM];
static int stars[2];
static unsigned star_count;

static void
add(const char *text)
{
  strcat(directive, text);
}

static void
add_number_or_star(unsigned most)
{
  if(draw(4) == 0) {
    stars[star_count++] = (int)draw(most) - (draw(5) == 0 ? (int)most / 2 : 0);
    add("*");
  } else {
    sprintf(directive + strlen(directive), "%u", (unsigned)draw(most));
  }
}

static void
draw_directive(const char *flags, const char *length, char kind)
{
  char last[2] = {kind, '\0'};
  strcpy(directive, draw(2) == 0 ? "a%" : "%");
  star_count = 0;
  for(; *flags != '\0'; flags++) {
    if(draw(4) == 0) {
      char flag[2] = {*flags, '\0'};
      add(flag);
    }
  }
  if(draw(2) == 0) {
    add_number_or_star(draw(20) == 0 ? 300 : 30);
    if(directive[strlen(directive) - 1] == '0' && strlen(directive) < 4) {
      add("7"); /* a width isn't 0 alone, which would be a flag once more */
    }
  }
  if(kind != 'c' && kind != 'p' && draw(2) == 0) {
    add(".");
    if(draw(8) != 0) {
      add_number_or_star(draw(20) == 0 ? 1200 : 25);
    }
  }
  add(length);
  add(last);
  add(draw(2) == 0 ? "z%%" : "");
}

static unsigned long tried, different;

/* Prints with both, and compares. */
#define PRINT(value)                                                                                               \
  do {                                                                                                             \
    static struct text own;                                                                                        \
    static char other[ROOM];                                                                                       \
    int count, wanted;                                                                                             \
    if(star_count == 0) {                                                                                          \
      count = print_own(&own, directive, value);                                                                   \
      wanted = snprintf(other, sizeof other, directive, value);                                                    \
    } else if(star_count == 1) {                                                                                   \
      count = print_own(&own, directive, stars[0], value);                                                         \
      wanted = snprintf(other, sizeof other, directive, stars[0], value);                                          \
    } else {                                                                                                       \
      count = print_own(&own, directive, stars[0], stars[1], value);                                               \
      wanted = snprintf(other, sizeof other, directive, stars[0], stars[1], value);                                \
    }                                                                                                              \
    tried++;                                                                                                       \
    if(count != wanted || (wanted >= 0 && strcmp(own.bytes, other) != 0)) {                                        \
      if(different++ < 20) {                                                                                       \
        printf("%s (%d, %d): %d %s, not %d %s\n", directive, stars[0], stars[1], count, own.bytes, wanted, other); \
      }                                                                                                            \
    }                                                                                                              \
  } while(0)

static uint64_t
draw_number(void)
{
  uint64_t bits = draw(UINT64_C(1) << 31) << 33 ^ draw(UINT64_C(1) << 31) << 10 ^ draw(1024);
  uint64_t number = bits >> draw(64);
  return draw(4) == 0 ? 0 - number : draw(10) == 0 ? 0 : number;
}

static void
try_integer(void)
{
  static const char kinds[] = "dioxXu";
  char kind = kinds[draw(6)];
  const char *flags = kind == 'd' || kind == 'i' ? "-0+ " : kind == 'u' ? "-0" : "-0#";
  uint64_t number = draw_number();
  switch(draw(8)) {
  case 0:
    draw_directive(flags, "hh", kind);
    PRINT((int)number);
    break;
  case 1:
    draw_directive(flags, "h", kind);
    PRINT((int)number);
    break;
  case 2:
    draw_directive(flags, "l", kind);
    PRINT((long)number);
    break;
  case 3:
    draw_directive(flags, "ll", kind);
    PRINT((long long)number);
    break;
  case 4:
    draw_directive(flags, "j", kind);
    PRINT((intmax_t)number);
    break;
  case 5:
    draw_directive(flags, "z", kind);
    PRINT((size_t)number);
    break;
  case 6:
    draw_directive(flags, "t", kind);
    PRINT((ptrdiff_t)number);
    break;
  default:
    draw_directive(flags, "", kind);
    PRINT((int)number);
    break;
  }
}

/* Of all kinds: any bits, few digits, the middle between two, integers. */
static double
draw_double(void)
{
  uint64_t bits = draw_number() ^ draw_number() << 13;
  double value;
  switch(draw(6)) {
  case 0:
    memcpy(&value, &bits, sizeof value);
    return value;
  case 1:
    return ((double)draw(2000000) - 1000000) / 1000;
  case 2:
    return ((double)draw(4001) - 2000) / (double)(1 << draw(12));
  case 3:
    return (double)draw(1000000) * 5 / 100;
  case 4:
    return (double)draw_number();
  default:
    snprintf(directive, sizeof directive, "%ue%d", (unsigned)draw(100000), (int)draw(640) - 330);
    return strtod(directive, NULL);
  }
}

static void
try_float(void)
{
  static const char kinds[] = "fFeEgGaA";
  double value = draw_double();
  char kind = kinds[draw(8)];
  if(draw(8) == 0 && kind != 'a' && kind != 'A') {
    draw_directive("-0+ #", "L", kind);
    PRINT((long double)value);
  } else {
    draw_directive("-0+ #", draw(4) == 0 ? "l" : "", kind);
    PRINT(value);
  }
}

static void
try_text(void)
{
  static const char *const texts[] = {"", "x", "hello", "a longer text with spaces", NULL};
  static const wchar_t *const wide[] = {L"", L"x", L"hello", L"\u00e9"};
  int letter = 'a' + (int)draw(26);
  wint_t wide_letter = draw(5) == 0 ? 0xe9 : (wint_t)letter;
  const wchar_t *wide_text = wide[draw(4)];
  const char *text = texts[draw(5)];
  void *pointer = (void *)(uintptr_t)draw_number();
  switch(draw(6)) {
  case 0:
    draw_directive("-", "", 'c');
    PRINT(letter);
    break;
  case 1:
    draw_directive("-", "l", 'c');
    PRINT(wide_letter);
    break;
  case 2:
    draw_directive("-", "l", 's');
    PRINT(wide_text);
    break;
  case 3:
    draw_directive("-", "", 'p');
    PRINT(pointer);
    break;
  default:
    draw_directive("-", "", 's');
    PRINT(text);
    break;
  }
}

/* `%n`, and several directives in one format. */
static unsigned
try_others(void)
{
  static struct text own;
  long long a = 0;
  signed char b = 0;
  int count = print_own(&own, "%d %n%s%hhn %c%% %5.1f", 12, (int *)&stars[0], "ab", &b, 'c', 2.25);
  unsigned holds = count == 14 && strcmp(own.bytes, "12 ab c%   2.2") == 0 && stars[0] == 3 && b == 5;
  count = print_own(&own, "%lld%lln", -1LL, &a);
  return holds + (count == 2 && a == 2) + (print_own(&own, "%y", 1) == -1);
}

int
main(int count, char **words)
{
  unsigned long most = count > 1 ? strtoul(words[1], NULL, 10) : 1000000;
  unsigned others = try_others();
  while(tried < most) {
    switch(draw(5)) {
    case 0:
    case 1:
      try_integer();
      break;
    case 2:
      try_text();
      break;
    default:
      try_float();
      break;
    }
  }
  tried += 3;
  different += 3 - others;
  printf("%lu of %lu checks hold\n", tried - different, tried);
  return different == 0 ? 0 : 1;
}
