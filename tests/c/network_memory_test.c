/* The memory of networks that are asked step by step, from calls of this program's own: each call of open and link that takes memory is
 * refused once and changes nothing, no other call takes any, and all of it is given back. */
#include "refusing_memory.h"
#include "steps.h"

enum { MOTES = 3, LINKS = 40 };

static const struct toarmuts_network_sizes sizes = {8, LINKS, 100000};
static struct toarmuts_network network;

/* Opens the network; where memory is refused, as often as it takes. */
static void
open_at_last(void)
{
  static const struct toarmuts_network_mote motes[MOTES] = {{TOARMUTS_DEFAULTS, 1}, {TOARMUTS_DEFAULTS, 2}, {TOARMUTS_DEFAULTS, 0}};
  uint32_t status = TOARMUTS_OUT_OF_MEMORY;
  bool given_back = true, still_closed = true;
  for(granted = 0; status == TOARMUTS_OUT_OF_MEMORY && granted < 1000; granted++) {
    asked = 0;
    status = toarmuts_network_open(&sizes, motes, MOTES, &network);
    given_back = given_back && (status == TOARMUTS_DONE || out == 0);
    still_closed = still_closed && (status == TOARMUTS_DONE || (!network.is_open && toarmuts_network_close(&network) == TOARMUTS_CLOSED));
  }
  check("some memory is needed", granted > MOTES);
  check("a refused open gives all back", given_back);
  check("a refused open leaves the network closed", still_closed);
  check("open where nothing is refused", status == TOARMUTS_DONE && out > 0);
}

/* Adds links to and fro. Each that asks for memory is refused once. */
static void
link_at_last(void)
{
  bool holds = true;
  long refused = 0;
  for(uint32_t i = 0; i < LINKS; i++) {
    struct toarmuts_link link = {1 + i % MOTES, 1 + (i + 1) % MOTES, 1 + i, TOARMUTS_LOSS_EVERY, 5, 0};
    long before = out;
    asked = granted = 0;
    uint32_t status = toarmuts_network_link(&network, &link);
    if(status == TOARMUTS_OUT_OF_MEMORY) {
      refused++;
      holds = holds && out == before;
      granted = 1;
      asked = 0;
      status = toarmuts_network_link(&network, &link);
    }
    holds = holds && status == TOARMUTS_DONE;
  }
  check("a refused link can be added again", holds && refused >= MOTES);
}

/* Many random turns on the open network. */
static void
take_turns(long count)
{
  static const uint8_t bytes[] = {'a', '\n', 7};
  struct toarmuts_happening happening;
  struct toarmuts_turn turn;
  uint8_t line[660];
  uint64_t length;
  while(count-- > 0 && toarmuts_network_next(&network, &happening, &turn) == TOARMUTS_DONE &&
        happening.step != TOARMUTS_NETWORK_EXHAUSTED) {
    if(happening.step == TOARMUTS_NETWORK_TURN) {
      struct toarmuts_call call = random_call();
      struct toarmuts_application application = any_application();
      if(random_below(2) == 0 || toarmuts_network_submit_bundled(&network, &application) != TOARMUTS_DONE) {
        toarmuts_network_submit(&network, &call);
      }
    } else if(happening.step == TOARMUTS_NETWORK_REST && random_below(2) == 0) {
      toarmuts_network_tick(&network, random_below(9));
    } else if(happening.step == TOARMUTS_NETWORK_REST) {
      toarmuts_network_feed(&network, 1 + random_below(MOTES), 1 + random_below(2), bytes, sizeof bytes);
    }
    toarmuts_network_line(&network, line, sizeof line, &length);
  }
}

/* A size that is bad is reported where no memory is granted, also of the last mote. */
static void
refuse_sizes_first(void)
{
  struct toarmuts_network_mote motes[MOTES] = {{TOARMUTS_DEFAULTS, 1}, {TOARMUTS_DEFAULTS, 2}, {TOARMUTS_DEFAULTS, 17}};
  asked = granted = 0;
  check("too many applications come first", toarmuts_network_open(&sizes, motes, MOTES, &network) == TOARMUTS_BAD_SIZES && asked == 0);
  motes[MOTES - 1].applications = UINT32_MAX;
  check("the most applications", toarmuts_network_open(&sizes, motes, MOTES, &network) == TOARMUTS_BAD_SIZES && asked == 0);
  motes[MOTES - 1].applications = 16;
  motes[0].configuration.heap = 16;
  check("a bad heap comes first", toarmuts_network_open(&sizes, motes, MOTES, &network) == TOARMUTS_BAD_SIZES && asked == 0);
  motes[0].configuration.heap = 20;
  check("memory, where all sizes are good",
        toarmuts_network_open(&sizes, motes, MOTES, &network) == TOARMUTS_OUT_OF_MEMORY && asked > 0 && !network.is_open);
}

int
main(void)
{
  refuse_sizes_first();
  open_at_last();
  link_at_last();
  asked = granted = 0;
  take_turns(100000);
  check("no memory is taken once the links are there", asked == 0);
  check("close gives all back", toarmuts_network_close(&network) == TOARMUTS_DONE && out == 0);
  return conclude();
}
