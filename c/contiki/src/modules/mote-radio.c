/* The radio of netstack.h. A program that names it has this module, and the driver then looks whether it is on. */
#define ENERGEST_CONF_ON 1
#include "net/netstack.h"
#include "sys/energest.h"

#include <stdbool.h>

extern bool mote_radio_is_on;
bool mote_radio_is_on = true;

/* energest.h is another module, which the program may not have. */
#pragma weak energest_turn

static int
turn(bool is_on)
{
  mote_radio_is_on = is_on;
  if(energest_turn != NULL) {
    energest_turn(ENERGEST_TYPE_LISTEN, is_on);
  }
  return 1;
}

static int
on(void)
{
  return turn(true);
}

static int
off(void)
{
  return turn(false);
}

const struct radio_driver mote_radio_driver = {on, off};
