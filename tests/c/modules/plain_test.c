/*
 * The modules in C alone, as unit tests with no mote: lists of each kind and ring indices, each by random calls beside a plain array.
 * What a list is asked is checked after every call.
 */
#include "lib/circular-list.h"
#include "lib/dbl-circ-list.h"
#include "lib/dbl-list.h"
#include "lib/list.h"
#include "lib/queue.h"
#include "lib/ringbufindex.h"
#include "lib/stack.h"
#include "services/unit-test/unit-test.h"

#include <string.h>

enum { ITEMS = 6, CALLS = 20000 };

struct item {
  struct item *next;
  struct item *previous;
  double number;
};

static struct item items[ITEMS];

/* The items that a list has, in their order. */
static struct item *model[ITEMS];
static unsigned count;

static uint32_t
random_below(uint32_t bound)
{
  static uint32_t state = 1;
  state ^= state << 13;
  state ^= state >> 17;
  state ^= state << 5;
  return state % bound;
}

/* The place of an item in the model, or count. */
static unsigned
place_of(const struct item *item)
{
  unsigned i = 0;
  while(i < count && model[i] != item) {
    i++;
  }
  return i;
}

static void
model_remove(const struct item *item)
{
  unsigned place = place_of(item);
  if(place < count) {
    count--;
    memmove(model + place, model + place + 1, (count - place) * sizeof model[0]);
  }
}

static void
model_put(unsigned place, struct item *item)
{
  memmove(model + place + 1, model + place, (count - place) * sizeof model[0]);
  model[place] = item;
  count++;
}

/* Whether the links of the items are those of the model; round where the last one leads to the first. */
static bool
has_links(bool is_round, bool is_double)
{
  for(unsigned i = 0; i < count; i++) {
    const struct item *next = i + 1 < count ? model[i + 1] : is_round ? model[0] : NULL;
    const struct item *previous = i > 0 ? model[i - 1] : is_round ? model[count - 1] : NULL;
    if(model[i]->next != next || (is_double && model[i]->previous != previous)) {
      return false;
    }
  }
  return true;
}

CIRCULAR_LIST(circular);

/* The model has the head first. */
UNIT_TEST_REGISTER(circular_list, "Circular list");
UNIT_TEST(circular_list)
{
  UNIT_TEST_BEGIN();

  circular_list_init(circular);
  count = 0;
  for(unsigned i = 0; i < CALLS; i++) {
    struct item *item = &items[random_below(ITEMS)];
    unsigned place = place_of(item);
    bool is_added = random_below(2) == 0;
    if(is_added) {
      circular_list_add(circular, item);
    } else {
      circular_list_remove(circular, item);
    }
    if(place < count) {
      /* The one before it is the head then. */
      struct item *head = model[(place + count - 1) % count];
      model_remove(item);
      while(count > 0 && model[0] != head) {
        struct item *first = model[0];
        model_remove(first);
        model_put(count, first);
      }
    }
    if(is_added) {
      model_put(count > 0 ? 1 : 0, item);
    }
    UNIT_TEST_ASSERT(has_links(true, false));
    UNIT_TEST_ASSERT(circular_list_length(circular) == count && circular_list_is_empty(circular) == (count == 0));
    UNIT_TEST_ASSERT(circular_list_tail(circular) == (count > 0 ? model[count - 1] : NULL));
  }
  circular_list_add(circular, NULL);
  UNIT_TEST_ASSERT(circular_list_length(circular) == count);

  UNIT_TEST_END();
}

DBL_LIST(doubly);
DBL_CIRC_LIST(round_list);

enum call { ADD_HEAD, ADD_TAIL, ADD_AFTER, ADD_BEFORE, REMOVE, CALL_KINDS };

/* The same call on the model: an item is taken out first. */
static void
model_call(enum call call, struct item *existing, struct item *item)
{
  bool is_beside = call == ADD_AFTER || call == ADD_BEFORE;
  if(is_beside && existing == item) {
    return;
  }
  model_remove(item);
  if(call == ADD_HEAD) {
    model_put(0, item);
  } else if(call == ADD_TAIL) {
    model_put(count, item);
  } else if(is_beside) {
    model_put(place_of(existing) + (call == ADD_AFTER), item);
  }
}

static void
doubly_call(enum call call, struct item *existing, struct item *item)
{
  switch(call) {
  case ADD_HEAD:
    dbl_list_add_head(doubly, item);
    break;
  case ADD_TAIL:
    dbl_list_add_tail(doubly, item);
    break;
  case ADD_AFTER:
    dbl_list_add_after(doubly, existing, item);
    break;
  case ADD_BEFORE:
    dbl_list_add_before(doubly, existing, item);
    break;
  default:
    dbl_list_remove(doubly, item);
    break;
  }
}

static void
round_call(enum call call, struct item *existing, struct item *item)
{
  switch(call) {
  case ADD_HEAD:
    dbl_circ_list_add_head(round_list, item);
    break;
  case ADD_TAIL:
    dbl_circ_list_add_tail(round_list, item);
    break;
  case ADD_AFTER:
    dbl_circ_list_add_after(round_list, existing, item);
    break;
  case ADD_BEFORE:
    dbl_circ_list_add_before(round_list, existing, item);
    break;
  default:
    dbl_circ_list_remove(round_list, item);
    break;
  }
}

/* A random call, of one item beside another one where the list has one. */
static enum call
draw_call(struct item **existing, struct item **item)
{
  enum call call = (enum call)random_below(CALL_KINDS);
  *item = &items[random_below(ITEMS)];
  *existing = count > 0 ? model[random_below(count)] : NULL;
  return *existing == NULL && (call == ADD_AFTER || call == ADD_BEFORE) ? ADD_HEAD : call;
}

UNIT_TEST_REGISTER(double_list, "Double list");
UNIT_TEST(double_list)
{
  struct item *existing, *item;

  UNIT_TEST_BEGIN();

  dbl_list_init(doubly);
  memset(items, 0, sizeof items);
  count = 0;
  for(unsigned i = 0; i < CALLS; i++) {
    enum call call = draw_call(&existing, &item);
    doubly_call(call, existing, item);
    model_call(call, existing, item);
    UNIT_TEST_ASSERT(has_links(false, true));
    UNIT_TEST_ASSERT(place_of(item) < count || (item->next == NULL && item->previous == NULL));
    UNIT_TEST_ASSERT(dbl_list_length(doubly) == count && dbl_list_is_empty(doubly) == (count == 0));
    UNIT_TEST_ASSERT(dbl_list_head(doubly) == (count > 0 ? model[0] : NULL));
    UNIT_TEST_ASSERT(dbl_list_tail(doubly) == (count > 0 ? model[count - 1] : NULL));
  }
  dbl_list_add_head(doubly, NULL);
  dbl_list_add_tail(doubly, NULL);
  dbl_list_add_after(doubly, NULL, &items[0]);
  dbl_list_add_before(doubly, &items[0], NULL);
  UNIT_TEST_ASSERT(dbl_list_length(doubly) == count && has_links(false, true));

  UNIT_TEST_END();
}

UNIT_TEST_REGISTER(double_circular_list, "Double circular list");
UNIT_TEST(double_circular_list)
{
  struct item *existing, *item;

  UNIT_TEST_BEGIN();

  dbl_circ_list_init(round_list);
  memset(items, 0, sizeof items);
  count = 0;
  for(unsigned i = 0; i < CALLS; i++) {
    enum call call = draw_call(&existing, &item);
    round_call(call, existing, item);
    model_call(call, existing, item);
    UNIT_TEST_ASSERT(has_links(true, true));
    UNIT_TEST_ASSERT(place_of(item) < count || (item->next == NULL && item->previous == NULL));
    UNIT_TEST_ASSERT(dbl_circ_list_length(round_list) == count && dbl_circ_list_is_empty(round_list) == (count == 0));
    UNIT_TEST_ASSERT(dbl_circ_list_head(round_list) == (count > 0 ? model[0] : NULL));
    UNIT_TEST_ASSERT(dbl_circ_list_tail(round_list) == (count > 0 ? model[count - 1] : NULL));
  }
  dbl_circ_list_add_head(round_list, NULL);
  dbl_circ_list_add_tail(round_list, NULL);
  dbl_circ_list_add_after(round_list, NULL, &items[0]);
  dbl_circ_list_add_before(round_list, &items[0], NULL);
  UNIT_TEST_ASSERT(dbl_circ_list_length(round_list) == count && has_links(true, true));

  UNIT_TEST_END();
}

UNIT_TEST_REGISTER(ring_indices, "Ring indices");
UNIT_TEST(ring_indices)
{
  struct ringbufindex ring;
  unsigned put = 0, taken = 0;

  UNIT_TEST_BEGIN();

  for(unsigned size = 1; size <= 128; size *= 2) {
    ringbufindex_init(&ring, (uint8_t)size);
    put = taken = 0;
    for(unsigned i = 0; i < CALLS / 8; i++) {
      bool is_full = put - taken == size - 1, is_empty = put == taken;
      UNIT_TEST_ASSERT(ringbufindex_size(&ring) == (int)size && ringbufindex_elements(&ring) == (int)(put - taken));
      UNIT_TEST_ASSERT((ringbufindex_full(&ring) != 0) == is_full && (ringbufindex_empty(&ring) != 0) == is_empty);
      UNIT_TEST_ASSERT(ringbufindex_peek_put(&ring) == (is_full ? -1 : (int)(put % size)));
      UNIT_TEST_ASSERT(ringbufindex_peek_get(&ring) == (is_empty ? -1 : (int)(taken % size)));
      if(random_below(2) == 0) {
        UNIT_TEST_ASSERT(ringbufindex_put(&ring) == !is_full);
        put += !is_full;
      } else {
        UNIT_TEST_ASSERT(ringbufindex_get(&ring) == (is_empty ? -1 : (int)(taken % size)));
        taken += !is_empty;
      }
    }
  }

  UNIT_TEST_END();
}

QUEUE(waiting);
STACK(pile);

UNIT_TEST_REGISTER(queue_and_stack, "Queue and stack");
UNIT_TEST(queue_and_stack)
{
  UNIT_TEST_BEGIN();

  queue_init(waiting);
  queue_enqueue(waiting, &items[0]);
  queue_enqueue(waiting, &items[1]);
  UNIT_TEST_ASSERT(queue_peek(waiting) == &items[0] && !queue_is_empty(waiting));
  UNIT_TEST_ASSERT(queue_dequeue(waiting) == &items[0] && queue_dequeue(waiting) == &items[1]);
  UNIT_TEST_ASSERT(queue_is_empty(waiting) && queue_dequeue(waiting) == NULL);
  stack_init(pile);
  stack_push(pile, &items[0]);
  stack_push(pile, &items[1]);
  UNIT_TEST_ASSERT(stack_peek(pile) == &items[1] && !stack_is_empty(pile));
  UNIT_TEST_ASSERT(stack_pop(pile) == &items[1] && stack_pop(pile) == &items[0]);
  UNIT_TEST_ASSERT(stack_is_empty(pile) && stack_pop(pile) == NULL);

  UNIT_TEST_END();
}

int
main(void)
{
  UNIT_TEST_RUN(circular_list);
  UNIT_TEST_RUN(double_list);
  UNIT_TEST_RUN(double_circular_list);
  UNIT_TEST_RUN(ring_indices);
  UNIT_TEST_RUN(queue_and_stack);
  return unit_test_failures() > 0;
}
