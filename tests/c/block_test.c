/* Motes in blocks of this program's own: a block that is too small is refused, and nothing outside a block is written. */
#include "steps.h"
#include "toarmuts_block.h"

enum { ROOM = 1 << 17, MARGIN = 64, APPLICATIONS = 3, PARTS = 100 };

static uint8_t first_bytes[ROOM + 2 * MARGIN] __attribute__((aligned(16))), second_bytes[ROOM + 2 * MARGIN] __attribute__((aligned(16)));
static const struct toarmuts_configuration sizes = TOARMUTS_DEFAULTS, quiet = {4096, 4096, 16, 0, 0, 1};

static void
mark(uint8_t *bytes)
{
  memset(bytes, 0xa5, ROOM + 2 * MARGIN);
}

/* Whether only these bytes of a room were written. */
static bool
is_marked_outside(const uint8_t *bytes, size_t from, size_t length)
{
  for(size_t i = 0; i < ROOM + 2 * MARGIN; i++) {
    if((i < from || i >= from + length) && bytes[i] != 0xa5) {
      return false;
    }
  }
  return true;
}

/* Opens a mote in these bytes of a room, and closes it again. */
static uint32_t
try_room(size_t from, size_t length, const struct toarmuts_configuration *configuration)
{
  struct toarmuts_mote mote = {0};
  uint32_t status;
  bool is_closed;
  mark(first_bytes);
  status = toarmuts_open_in(first_bytes + from, length, configuration, APPLICATIONS, &mote);
  is_closed = toarmuts_close(&mote) == (status == TOARMUTS_DONE ? TOARMUTS_DONE : TOARMUTS_CLOSED);
  check("a refused open leaves the mote closed", is_closed);
  check("nothing outside of the block is written", is_marked_outside(first_bytes, from, length));
  return status;
}

static void
check_sizes(void)
{
  const struct toarmuts_configuration bad_sizes = {6, 4096, 16, 0, 0, 0}, large = {65536, 4096, 16, 0, 0, 0};
  struct toarmuts_mote mote = {0};
  size_t used;
  check("bad sizes come first", try_room(MARGIN, 0, &bad_sizes) == TOARMUTS_BAD_SIZES);
  check("no block, no memory", toarmuts_open(&sizes, APPLICATIONS, &mote) == TOARMUTS_OUT_OF_MEMORY);
  check("NULL of no bytes is no block", toarmuts_open_in(NULL, 0, &sizes, APPLICATIONS, &mote) == TOARMUTS_OUT_OF_MEMORY);
  check("there is room", try_room(MARGIN, ROOM, &sizes) == TOARMUTS_DONE);
  used = toarmuts_block_used();
  check("the blocks of both memories are in it", used >= sizes.mmem + sizes.heap);
  check("as much is enough", try_room(MARGIN, used, &sizes) == TOARMUTS_DONE && toarmuts_block_used() == used);
  for(size_t part = 0; part < PARTS; part++) {
    check("less isn't", try_room(MARGIN, used * part / PARTS, &sizes) == TOARMUTS_OUT_OF_MEMORY);
    check("nor is a little less", try_room(MARGIN, used - 1 - part, &sizes) == TOARMUTS_OUT_OF_MEMORY);
  }
  check("a refusal doesn't count", toarmuts_block_used() == used);
  for(size_t gap = 1; gap < 16; gap++) {
    check("an address between costs the bytes up to the next multiple", try_room(MARGIN + gap, used + 16 - gap, &sizes) == TOARMUTS_DONE);
    check("and no fewer", try_room(MARGIN + gap, used + 15 - gap, &sizes) == TOARMUTS_OUT_OF_MEMORY);
  }
  check("a larger memory", try_room(MARGIN, ROOM, &large) == TOARMUTS_DONE && toarmuts_block_used() - used == large.mmem - sizes.mmem);
  check("a quiet mote has no room for a line", try_room(MARGIN, ROOM, &quiet) == TOARMUTS_DONE && used - toarmuts_block_used() > 640);
  check("there is no block after it", toarmuts_open(&sizes, APPLICATIONS, &mote) == TOARMUTS_OUT_OF_MEMORY);
}

/* The next step of a mote, with a call or an input where it waits for one. */
static uint32_t
step_of(struct toarmuts_mote *mote, const struct toarmuts_call *call, const char *input, uint8_t *line, uint64_t *length)
{
  struct toarmuts_turn turn;
  uint32_t step = TOARMUTS_STEP_HALTED;
  toarmuts_next(mote, &step, &turn);
  if(step == TOARMUTS_TURN) {
    toarmuts_submit(mote, call);
  } else if(step == TOARMUTS_REST) {
    toarmuts_feed(mote, (const uint8_t *)input, strlen(input));
  }
  *length = 0;
  toarmuts_line(mote, line, 640, length);
  return step;
}

/* Two motes with the same calls, each in its block, have the same lines, also where one is quiet. */
static void
check_two(void)
{
  static const char *const inputs[] = {"tick 3", "serial 61620a", "frame 010203"};
  struct toarmuts_mote first = {0}, second = {0};
  uint8_t lines[2][640];
  uint64_t lengths[2];
  size_t used;
  bool same = true;
  mark(first_bytes);
  mark(second_bytes);
  check("the first one", toarmuts_open_in(first_bytes + MARGIN, ROOM, &sizes, APPLICATIONS, &first) == TOARMUTS_DONE);
  used = toarmuts_block_used();
  check("the second one", toarmuts_open_in(second_bytes + MARGIN, used, &quiet, APPLICATIONS, &second) == TOARMUTS_DONE);
  for(long i = 0; i < 100000 && same; i++) {
    struct toarmuts_call call = random_call();
    const char *input = inputs[random_below(3)];
    uint32_t step = step_of(&first, &call, input, lines[0], &lengths[0]);
    same = step == step_of(&second, &call, input, lines[1], &lengths[1]) && lengths[0] == lengths[1] &&
           memcmp(lines[0], lines[1], lengths[0]) == 0;
  }
  check("the same lines", same);
  check("outside of their blocks nothing is written",
        is_marked_outside(first_bytes, MARGIN, used) && is_marked_outside(second_bytes, MARGIN, used));
  check("both are closed", toarmuts_close(&first) == TOARMUTS_DONE && toarmuts_close(&second) == TOARMUTS_DONE);
  check("and a block is used again", toarmuts_open_in(second_bytes + MARGIN, used, &sizes, APPLICATIONS, &first) == TOARMUTS_DONE);
  check("which is closed, too", toarmuts_close(&first) == TOARMUTS_DONE);
}

int
main(void)
{
  check_sizes();
  check_two();
  return conclude();
}
