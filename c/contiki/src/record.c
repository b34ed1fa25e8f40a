/* The lines of a record. They are built without the C library, since a board has little room. */
#include "record.h"

#include "dev/value.h"

/* A hash by Fowler, Noll and Vo, FNV-1a, of 32 bits: a sum that shows that two runs differ, and no more. */
#define SUM_BEGIN UINT32_C(0x811c9dc5)
#define SUM_FACTOR UINT32_C(0x01000193)

enum { LINE_ROOM = 640 };

static uint32_t sum = SUM_BEGIN;

/* Whether a record is written or replayed: otherwise nobody reads the sum. */
static bool is_summing;

void
begin_sum(void)
{
  is_summing = true;
}

static void
sum_byte(uint32_t byte)
{
  sum = (sum ^ (byte & 0xff)) * SUM_FACTOR;
}

static void
sum_number(uint32_t number)
{
  for(unsigned shift = 0; shift < 32; shift += 8) {
    sum_byte(number >> shift);
  }
}

void
sum_line(const char *line, size_t length)
{
  for(size_t i = 0; i < length; i++) {
    sum_byte((uint8_t)line[i]);
  }
}

struct line {
  char text[LINE_ROOM];
  size_t length;
};

static void
add_byte(struct line *line, char byte)
{
  if(line->length < LINE_ROOM) {
    line->text[line->length++] = byte;
  }
}

static void
add_words(struct line *line, const char *words)
{
  while(*words != '\0') {
    add_byte(line, *words++);
  }
}

static void
add_decimal(struct line *line, uint64_t number)
{
  char digits[21] = "";
  size_t at = sizeof digits - 1;
  do {
    digits[--at] = (char)('0' + number % 10);
    number /= 10;
  } while(number > 0);
  add_words(line, digits + at);
}

/* The low digits of a number, in hexadecimal. */
static void
add_hex(struct line *line, uint64_t number, unsigned digits)
{
  while(digits-- > 0) {
    add_byte(line, "0123456789abcdef"[number >> 4 * digits & 15]);
  }
}

/* Only the bytes that are added are written: most runs have no record. */
static void
begin_line(struct line *line, const char *words)
{
  line->length = 0;
  add_words(line, words);
}

static void
put_line(struct line *line)
{
  add_byte(line, '\n');
  put_record(line->text, line->length);
}

struct record_head
head_of(const struct toarmuts_configuration *sizes, uint32_t node)
{
  return (struct record_head){
    .facts = program_facts, .sizes = *sizes, .node = node, .long_bytes = sizeof(long), .pointer_bytes = sizeof(void *)};
}

static void
add_fact(struct line *line, const char *name, uint32_t number)
{
  add_words(line, name);
  add_decimal(line, number);
}

void
record_head(const struct record_head *head)
{
  struct line line;
  begin_sum();
  begin_line(&line, "# record 1 sources ");
  add_hex(&line, head->facts.sources, 16);
  add_fact(&line, " second ", head->facts.ticks_a_second);
  add_fact(&line, " mmem ", head->sizes.mmem);
  add_fact(&line, " heap ", head->sizes.heap);
  add_fact(&line, " header ", head->sizes.header);
  add_fact(&line, " quota ", head->sizes.has_quota ? head->sizes.quota : 0);
  add_fact(&line, " node ", head->node);
  add_fact(&line, " long ", head->long_bytes);
  add_fact(&line, " pointer ", head->pointer_bytes);
  put_line(&line);
}

void
record_line(const char *text, size_t length)
{
  sum_line(text, length);
  put_record(text, length);
  put_record("\n", 1);
}

void
record_input(uint32_t kind, uint32_t ticks, const uint8_t *bytes, size_t length)
{
  struct line line;
  if(!is_recording()) {
    return;
  }
  begin_line(&line, kind == TOARMUTS_TICK ? "tick " : kind == TOARMUTS_SERIAL ? "serial " : "frame ");
  if(kind == TOARMUTS_TICK) {
    add_decimal(&line, ticks);
  }
  for(size_t i = 0; i < length; i++) {
    add_hex(&line, bytes[i], 2);
  }
  sum_line(line.text, line.length);
  put_line(&line);
}

void
record_note(const char *before, uint64_t number, const char *after)
{
  struct line line;
  if(is_recording()) {
    begin_line(&line, "# ");
    add_words(&line, before);
    add_decimal(&line, number);
    add_words(&line, after);
    put_line(&line);
  }
}

void
record_check(void)
{
  struct line line;
  if(is_recording()) {
    begin_line(&line, "# check ");
    add_decimal(&line, shown_lines());
    add_byte(&line, ' ');
    add_hex(&line, sum, 8);
    put_line(&line);
  }
}

/* Adds a call to the sum. */
void
sum_call(const struct toarmuts_call *call)
{
  if(!is_summing) {
    return;
  }
  sum_byte(call->kind);
  for(unsigned i = 0; i < sizeof call->numbers / sizeof call->numbers[0]; i++) {
    sum_number(call->numbers[i]);
  }
  sum_byte(call->payload);
  sum_number(call->number);
  sum_number(call->length);
  for(uint32_t i = 0; i < call->length; i++) {
    sum_byte(call->bytes[i]);
  }
}

uint32_t
sum_so_far(void)
{
  return sum;
}

/* value.h */
uint32_t
value_of(uint32_t (*read)(void))
{
  uint32_t value;
  if(activation == NULL) {
    stop("value_of is called outside of any process");
  }
  if(!take_value(&value)) {
    value = read();
  }
  sum_number(value);
  record_note("value ", value, "");
  return value;
}
