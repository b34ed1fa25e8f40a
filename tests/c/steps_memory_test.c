/* The memory of motes that are asked step by step, from calls of this program's own: each call that takes memory is refused once,
 * none takes any once a mote is open, and all of it is given back. */
#include "refusing_memory.h"
#include "steps.h"

/* Many random turns on an open mote, whose inputs are ticks, lines and frames. */
static void
take_turns(struct toarmuts_mote *mote, long count)
{
  static const char *const inputs[] = {"tick 3", "serial 61620a", "frame 010203"};
  struct toarmuts_turn turn;
  uint8_t line[640];
  uint64_t length;
  uint32_t step;
  while(count-- > 0 && toarmuts_next(mote, &step, &turn) == TOARMUTS_DONE && step != TOARMUTS_STEP_HALTED) {
    if(step == TOARMUTS_TURN) {
      struct toarmuts_call call = random_call();
      struct toarmuts_application application = any_application();
      if(random_below(2) == 0 || toarmuts_submit_bundled(mote, &application) != TOARMUTS_DONE) {
        toarmuts_submit(mote, &call);
      }
    } else if(step == TOARMUTS_REST) {
      const char *input = inputs[random_below(3)];
      toarmuts_feed(mote, (const uint8_t *)input, strlen(input));
    }
    toarmuts_line(mote, line, sizeof line, &length);
  }
}

int
main(void)
{
  struct toarmuts_configuration sizes = TOARMUTS_DEFAULTS;
  struct toarmuts_mote mote = {0};
  struct toarmuts_configuration bad_sizes = {6, 4096, 16, 0, 0, 0};
  uint32_t status = TOARMUTS_OUT_OF_MEMORY;
  bool given_back = true, still_closed = true;
  check("bad sizes come first", toarmuts_open(&bad_sizes, 6, &mote) == TOARMUTS_BAD_SIZES);
  for(granted = 0; status == TOARMUTS_OUT_OF_MEMORY && granted < 1000; granted++) {
    asked = 0;
    status = toarmuts_open(&sizes, 6, &mote);
    given_back = given_back && (status == TOARMUTS_DONE || out == 0);
    still_closed = still_closed && (status == TOARMUTS_DONE || (!mote.is_open && toarmuts_close(&mote) == TOARMUTS_CLOSED));
  }
  check("some memory is needed", granted > 2);
  check("a refused open gives all back", given_back);
  check("a refused open leaves the mote closed", still_closed);
  check("open where nothing is refused", status == TOARMUTS_DONE && out > 0);
  asked = granted = 0;
  take_turns(&mote, 100000);
  check("no memory is taken once it is open", asked == 0);
  check("close gives all back", toarmuts_close(&mote) == TOARMUTS_DONE && out == 0);
  return conclude();
}
