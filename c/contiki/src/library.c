/*
 * The parts of Contiki-NG's library that don't use the mote: assert.h, random.h, crc16.h, leds.h, node-id.h. All names are weak: a program
 * may have its own copies of these modules.
 */
#include "driver.h"

#include "dev/leds.h"
#include "lib/assert.h"
#include "lib/crc16.h"
#include "sys/node-id.h"

#pragma weak node_id
#pragma weak _xassert
#pragma weak random_init
#pragma weak random_rand
#pragma weak crc16_add
#pragma weak crc16_data
#pragma weak leds_init
#pragma weak leds_on
#pragma weak leds_off
#pragma weak leds_toggle
#pragma weak leds_set
#pragma weak leds_get
#pragma weak leds_single_on
#pragma weak leds_single_off
#pragma weak leds_single_toggle

process_event_t serial_line_event_message = TOARMUTS_EVENT_SERIAL_LINE;

uint16_t node_id = 1;

/* assert.h: prints what Contiki-NG prints, and ends the program. */
void
_xassert(const char *file, int lineno)
{
  printf("Assertion failed: file %s, line %d.\n", file, lineno);
  stop("an assertion failed: %s:%d", file, lineno);
}

/* random.h: a linear congruential generator. Its upper bits are returned. */

static uint64_t random_state = 1;

void
random_init(unsigned short seed)
{
  random_state = seed;
}

unsigned short
random_rand(void)
{
  random_state = random_state * 6364136223846793005u + 1442695040888963407u;
  return (unsigned short)(random_state >> 48);
}

/* crc16.h: bit by bit, the low one first. */

unsigned short
crc16_add(unsigned char b, unsigned short crc)
{
  crc ^= b;
  for(int bit = 0; bit < 8; bit++) {
    crc = (unsigned short)((crc & 1) != 0 ? (crc >> 1) ^ 0x8408 : crc >> 1);
  }
  return crc;
}

unsigned short
crc16_data(const unsigned char *data, int datalen, unsigned short acc)
{
  for(int i = 0; i < datalen; i++) {
    acc = crc16_add(data[i], acc);
  }
  return acc;
}

/* leds.h: bits that nobody sees. */

static leds_mask_t lit;

void
leds_init(void)
{
}

void
leds_on(leds_mask_t leds)
{
  lit |= leds & LEDS_ALL;
}

void
leds_off(leds_mask_t leds)
{
  lit &= (leds_mask_t)~leds;
}

void
leds_toggle(leds_mask_t leds)
{
  lit ^= leds & LEDS_ALL;
}

void
leds_set(leds_mask_t leds)
{
  lit = leds & LEDS_ALL;
}

leds_mask_t
leds_get(void)
{
  return lit;
}

void
leds_single_on(leds_num_t led)
{
  leds_on((leds_mask_t)(1u << led));
}

void
leds_single_off(leds_num_t led)
{
  leds_off((leds_mask_t)(1u << led));
}

void
leds_single_toggle(leds_num_t led)
{
  leds_toggle((leds_mask_t)(1u << led));
}
