/* LEDs, which nobody sees: a program sets and reads them. */
#ifndef LEDS_H_
#define LEDS_H_

#include <stdint.h>

#include "sys/cc.h"

typedef uint8_t leds_num_t;
typedef uint8_t leds_mask_t;

#define LEDS_GREEN 1
#define LEDS_YELLOW 2
#define LEDS_RED 4
#define LEDS_BLUE 8
#define LEDS_ALL 15

/* Numbers, and the mask of one. */
#define LEDS_COUNT 4
#define LEDS_LED1 0
#define LEDS_LED2 1
#define LEDS_LED3 2
#define LEDS_LED4 3
#define LEDS_NUM_TO_MASK(led) ((leds_mask_t)(1u << (led)))
#define LEDS_NUM_GREEN 0
#define LEDS_NUM_YELLOW 1
#define LEDS_NUM_RED 2
#define LEDS_NUM_BLUE 3

void leds_init(void);
void leds_on(leds_mask_t leds);
void leds_off(leds_mask_t leds);
void leds_toggle(leds_mask_t leds);
void leds_set(leds_mask_t leds);
leds_mask_t leds_get(void);
void leds_single_on(leds_num_t led);
void leds_single_off(leds_num_t led);
void leds_single_toggle(leds_num_t led);

/* Names of the old Contiki. */
CC_REFUSED("it has another name: use leds_toggle") void leds_invert(leds_mask_t leds);
CC_REFUSED("nobody sees it: leave this call out") void leds_blink(void);

#endif
