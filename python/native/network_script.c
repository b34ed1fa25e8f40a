/*
 * The lines of a network's script that are inputs.
 */
#include "network_script.h"

#include <string.h>

#include "toarmuts.h"

/* A part of a line that is still to be read. */
struct rest {
  const uint8_t *at;
  const uint8_t *end;
};

/* Whether a word comes next; then it is read. */
static bool
take_word(struct rest *rest, const char *word)
{
  size_t length = strlen(word);

  if((size_t)(rest->end - rest->at) < length || memcmp(rest->at, word, length) != 0) {
    return false;
  }
  rest->at += length;
  return true;
}

/* Whether a number up to 2^32 - 1 without leading zeros comes next; then it is read. */
static bool
take_number(struct rest *rest, uint32_t *number)
{
  const uint8_t *first = rest->at;
  uint64_t value = 0;

  while(rest->at < rest->end && *rest->at >= '0' && *rest->at <= '9') {
    value = 10 * value + (uint64_t)(*rest->at - '0');
    if(value > UINT32_MAX || (rest->at > first && *first == '0')) {
      return false;
    }
    rest->at++;
  }
  *number = (uint32_t)value;
  return rest->at > first;
}

/* The value of a hex digit; 16 where it is none. */
static unsigned
hex_value(uint8_t digit)
{
  if(digit >= '0' && digit <= '9') {
    return digit - '0';
  }
  if(digit >= 'a' && digit <= 'f') {
    return digit - 'a' + 10U;
  }
  return digit >= 'A' && digit <= 'F' ? digit - 'A' + 10U : 16;
}

/* Whether the rest is hex of 1 to this number of bytes; then it is read. */
static bool
take_bytes(struct rest *rest, size_t most, struct network_input *input)
{
  size_t digits = (size_t)(rest->end - rest->at);

  if(digits == 0 || digits % 2 != 0 || digits / 2 > most) {
    return false;
  }
  for(input->length = 0; rest->at < rest->end; rest->at += 2) {
    unsigned high = hex_value(rest->at[0]), low = hex_value(rest->at[1]);

    if(high > 15 || low > 15) {
      return false;
    }
    input->bytes[input->length++] = (uint8_t)(16 * high + low);
  }
  return true;
}

/* Whether the rest is `N serial HEX` or `N frame HEX`; then it is read. */
static bool
take_input(struct rest *rest, struct network_input *input)
{
  if(!take_number(rest, &input->mote) || input->mote == 0) {
    return false;
  }
  if(take_word(rest, " serial ")) {
    input->kind = TOARMUTS_SERIAL;
    return take_bytes(rest, MOST_OF_SERIAL, input);
  }
  input->kind = TOARMUTS_FRAME;
  return take_word(rest, " frame ") && take_bytes(rest, MOST_OF_A_FRAME, input);
}

enum network_line
read_network_line(const uint8_t *line, size_t length, struct network_input *input)
{
  struct rest rest = {line, line + length};

  if(length > MOST_OF_A_SCRIPT_LINE) {
    return NETWORK_LINE_MALFORMED;
  }
  if(length == 0 || line[0] == '#') {
    return NETWORK_LINE_NOTHING;
  }
  if(take_word(&rest, "tick ")) {
    return take_number(&rest, &input->ticks) && rest.at == rest.end ? NETWORK_LINE_TICK : NETWORK_LINE_MALFORMED;
  }
  return take_input(&rest, input) ? NETWORK_LINE_BYTES : NETWORK_LINE_MALFORMED;
}
