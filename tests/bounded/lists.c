/*
 * Each kind of list beside an array: from each state of at most four items, each call with each pair of arguments, NULL among them. The
 * order of the array and the links of the items must agree after it. A list of four items has no other states.
 */
#include "lib/circular-list.h"
#include "lib/dbl-circ-list.h"
#include "lib/dbl-list.h"
#include "lib/list.h"

#include "../c/check.h"

#include <string.h>

enum { MOST = 4, ITEMS = 6, NONE = ITEMS };

struct item {
  struct item *next, *previous;
};

static struct item items[ITEMS];

/* The items of a list, in their order. The first one is the head. */
static int order[ITEMS], count;

static void *
item_of(int number)
{
  return number == NONE ? NULL : &items[number];
}

static int
index_of(int number)
{
  int i = 0;
  while(i < count && order[i] != number) {
    i++;
  }
  return i;
}

static bool
has(int number)
{
  return index_of(number) < count;
}

static void
take_out(int number)
{
  int i = index_of(number);
  if(i < count) {
    count--;
    memmove(order + i, order + i + 1, (size_t)(count - i) * sizeof *order);
  }
}

static void
put_at(int i, int number)
{
  memmove(order + i + 1, order + i, (size_t)(count - i) * sizeof *order);
  order[i] = number;
  count++;
}

static void
move_to_front(int number)
{
  if(number != NONE) {
    take_out(number);
    put_at(0, number);
  }
}

static void
move_to_end(int number)
{
  if(number != NONE) {
    take_out(number);
    put_at(count, number);
  }
}

/* An item is put after another one, or before it. With NULL, or beside itself, nothing happens. */
static void
move_beside(int there, int number, int after)
{
  if(there != NONE && number != NONE && there != number) {
    take_out(number);
    put_at(index_of(there) + after, number);
  }
}

/* The last item of the array becomes the first one. */
static void
turn(void)
{
  int last = order[count - 1];
  count--;
  put_at(0, last);
}

/* list.h */
LIST(plain);

static bool
call_list(int call, int x, int y)
{
  void *first = count == 0 ? NULL : item_of(order[0]), *last = count == 0 ? NULL : item_of(order[count - 1]);
  switch(call) {
  case 0:
    list_add(plain, item_of(x));
    move_to_end(x);
    return true;
  case 1:
    list_push(plain, item_of(x));
    move_to_front(x);
    return true;
  case 2:
    take_out(count == 0 ? NONE : order[0]);
    return list_pop(plain) == first;
  case 3:
    take_out(count == 0 ? NONE : order[count - 1]);
    return list_chop(plain) == last;
  case 4:
    list_remove(plain, item_of(x));
    take_out(x);
    return true;
  case 5:
    /* After no item means at the front. The item after which another one is put must be in the list. */
    if(x != NONE && !has(x)) {
      return true;
    }
    list_insert(plain, item_of(x), item_of(y));
    if(x == NONE) {
      move_to_front(y);
    } else {
      move_beside(x, y, 1);
    }
    return true;
  default:
    return list_contains(plain, item_of(x)) == has(x);
  }
}

static bool
is_list(void)
{
  const void *here = list_head(plain);
  bool is_same = list_length(plain) == count && list_tail(plain) == (count == 0 ? NULL : item_of(order[count - 1]));
  for(int i = 0; i < count; i++) {
    is_same = is_same && here == item_of(order[i]);
    here = list_item_next(here);
  }
  return is_same && here == NULL;
}

static void
make_list(int number)
{
  list_add(plain, item_of(number));
  move_to_end(number);
}

/* circular-list.h: an item is added after the head. Where one is removed, the item before it is the head. */
CIRCULAR_LIST(ring);

/* Takes an item out; the one before it becomes the head. */
static void
take_out_of_ring(int number)
{
  int i = index_of(number);
  if(i == count) {
    return;
  }
  int head = order[(i + count - 1) % count];
  take_out(number);
  while(count > 0 && order[0] != head) {
    turn();
  }
}

static bool
call_circular(int call, int x, int y)
{
  (void)y;
  if(call == 0) {
    circular_list_add(ring, item_of(x));
    if(x != NONE) {
      take_out_of_ring(x);
      put_at(count > 0 ? 1 : 0, x);
    }
  } else {
    circular_list_remove(ring, item_of(x));
    take_out_of_ring(x);
  }
  return true;
}

static bool
is_circular(void)
{
  const struct item *here = *ring;
  bool is_same = circular_list_length(ring) == (unsigned long)count && circular_list_is_empty(ring) == (count == 0) &&
                 circular_list_tail(ring) == (count == 0 ? NULL : item_of(order[count - 1]));
  for(int i = 0; i < count; i++) {
    is_same = is_same && here == item_of(order[i]);
    here = here->next;
  }
  return is_same && here == *ring;
}

static void
make_circular(int number)
{
  call_circular(0, number, NONE);
}

/* dbl-list.h */
DBL_LIST(both_ways);

static bool
call_double(int call, int x, int y)
{
  /* The item beside which another one is put must be in the list. */
  if((call == 2 || call == 3) && x != NONE && !has(x)) {
    return true;
  }
  switch(call) {
  case 0:
    dbl_list_add_head(both_ways, item_of(x));
    move_to_front(x);
    return true;
  case 1:
    dbl_list_add_tail(both_ways, item_of(x));
    move_to_end(x);
    return true;
  case 2:
    dbl_list_add_after(both_ways, item_of(x), item_of(y));
    move_beside(x, y, 1);
    return true;
  case 3:
    dbl_list_add_before(both_ways, item_of(x), item_of(y));
    move_beside(x, y, 0);
    return true;
  default:
    dbl_list_remove(both_ways, item_of(x));
    take_out(x);
    return x == NONE || (items[x].next == NULL && items[x].previous == NULL);
  }
}

static bool
is_double(void)
{
  const struct item *here = dbl_list_head(both_ways), *before = NULL;
  bool is_same = dbl_list_length(both_ways) == (unsigned long)count && dbl_list_is_empty(both_ways) == (count == 0);
  for(int i = 0; i < count; i++) {
    is_same = is_same && here == item_of(order[i]) && here->previous == before;
    before = here;
    here = here->next;
  }
  return is_same && here == NULL && dbl_list_tail(both_ways) == before;
}

static void
make_double(int number)
{
  call_double(1, number, NONE);
}

/* dbl-circ-list.h */
DBL_CIRC_LIST(circle);

static bool
call_double_circular(int call, int x, int y)
{
  if((call == 2 || call == 3) && x != NONE && !has(x)) {
    return true;
  }
  switch(call) {
  case 0:
    dbl_circ_list_add_head(circle, item_of(x));
    move_to_front(x);
    return true;
  case 1:
    dbl_circ_list_add_tail(circle, item_of(x));
    move_to_end(x);
    return true;
  case 2:
    dbl_circ_list_add_after(circle, item_of(x), item_of(y));
    move_beside(x, y, 1);
    return true;
  case 3:
    dbl_circ_list_add_before(circle, item_of(x), item_of(y));
    move_beside(x, y, 0);
    return true;
  default:
    dbl_circ_list_remove(circle, item_of(x));
    take_out(x);
    return x == NONE || (items[x].next == NULL && items[x].previous == NULL);
  }
}

static bool
is_double_circular(void)
{
  const struct item *here = dbl_circ_list_head(circle), *before = dbl_circ_list_tail(circle);
  bool is_same = dbl_circ_list_length(circle) == (unsigned long)count && dbl_circ_list_is_empty(circle) == (count == 0);
  for(int i = 0; i < count; i++) {
    is_same = is_same && here == item_of(order[i]) && here->previous == before;
    before = here;
    here = here->next;
  }
  return is_same && here == dbl_circ_list_head(circle) && before == dbl_circ_list_tail(circle);
}

static void
make_double_circular(int number)
{
  call_double_circular(1, number, NONE);
}

/* All kinds. */

static const struct kind {
  const char *name;
  int calls;
  bool (*call)(int call, int x, int y); /* whether its result is right; the array changes too */
  bool (*is_same)(void);
  void (*append)(int number);
} kinds[] = {
  {"list.h", 7, call_list, is_list, make_list},
  {"circular-list.h", 2, call_circular, is_circular, make_circular},
  {"dbl-list.h", 5, call_double, is_double, make_double},
  {"dbl-circ-list.h", 5, call_double_circular, is_double_circular, make_double_circular},
};

static unsigned long states, calls;

/* Makes all lists anew, and the one of this kind with these items. A circular list adds each after the head, so these come from the last
 * one on. */
static void
make_state(const struct kind *kind, const int *numbers, int length)
{
  memset(items, 0, sizeof items);
  list_init(plain);
  circular_list_init(ring);
  dbl_list_init(both_ways);
  dbl_circ_list_init(circle);
  count = 0;
  for(int i = 0; i < length; i++) {
    kind->append(kind->append == make_circular && i > 0 ? numbers[length - i] : numbers[i]);
  }
}

/* Each call with each pair of arguments, from this state. */
static bool
are_calls_right(const struct kind *kind, const int *numbers, int length)
{
  bool are_right = true;
  states++;
  for(int i = 0; i < kind->calls * (ITEMS + 1) * (ITEMS + 1) && are_right; i++) {
    make_state(kind, numbers, length);
    are_right = kind->is_same() && memcmp(order, numbers, (size_t)length * sizeof *order) == 0;
    are_right = are_right && kind->call(i % kind->calls, i / kind->calls % (ITEMS + 1), i / kind->calls / (ITEMS + 1)) && kind->is_same();
    calls++;
  }
  return are_right;
}

/* Each state that begins with these items. */
static bool
are_states_right(const struct kind *kind, int *numbers, int length)
{
  bool are_right = are_calls_right(kind, numbers, length);
  for(int number = 0; number < MOST && length < MOST && are_right; number++) {
    bool is_new = true;
    for(int i = 0; i < length; i++) {
      is_new = is_new && numbers[i] != number;
    }
    if(is_new) {
      numbers[length] = number;
      are_right = are_states_right(kind, numbers, length + 1);
    }
  }
  return are_right;
}

int
main(void)
{
  for(size_t i = 0; i < sizeof kinds / sizeof *kinds; i++) {
    int numbers[MOST];
    check(kinds[i].name, are_states_right(&kinds[i], numbers, 0));
  }
  check("65 states of each kind", states == 65 * sizeof kinds / sizeof *kinds);
  printf("%lu calls\n", calls);
  return conclude();
}
