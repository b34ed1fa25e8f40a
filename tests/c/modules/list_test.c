/* Lists: worked calls, and a million random calls beside a plain array of the items in their order. */
#include "lib/list.h"

#include "check.h"

#include <string.h>

enum { ITEMS = 12 };

struct item {
  struct item *next;
  double number;
};

struct owner {
  int number;
  LIST_STRUCT(items);
};

LIST(items);
static struct item all[ITEMS];
static struct item *model[ITEMS];
static size_t count;

static void
check_worked_calls(void)
{
  struct owner owner;
  memset(&owner, 7, sizeof owner);
  LIST_STRUCT_INIT(&owner, items);
  check("empty", list_head(owner.items) == NULL && list_tail(owner.items) == NULL && list_length(owner.items) == 0);
  check("nothing to take", list_pop(owner.items) == NULL && list_chop(owner.items) == NULL && list_item_next(NULL) == NULL);
  list_add(owner.items, &all[0]);
  list_push(owner.items, &all[1]);
  list_insert(owner.items, &all[1], &all[2]);
  check("in their order", list_head(owner.items) == &all[1] && list_item_next(&all[1]) == &all[2] && list_tail(owner.items) == &all[0]);
  list_add(owner.items, &all[1]);
  check("once", list_length(owner.items) == 3 && list_tail(owner.items) == &all[1]);
  list_copy(items, owner.items);
  check("copied", list_head(items) == &all[2] && list_contains(items, &all[0]) && !list_contains(items, &all[3]));
  list_remove(owner.items, &all[3]);
  list_remove(owner.items, NULL);
  list_add(owner.items, NULL);
  list_push(owner.items, NULL);
  list_insert(owner.items, &all[2], NULL);
  list_insert(owner.items, &all[2], &all[2]);
  check("no item, and one behind itself", list_length(owner.items) == 3 && list_item_next(&all[2]) == &all[0]);
  list_remove(owner.items, &all[2]);
  check("a walk may take out", list_head(owner.items) == &all[0] && list_item_next(&all[2]) == &all[0]);
  list_insert(owner.items, NULL, &all[3]);
  check("in front", list_pop(owner.items) == &all[3] && list_chop(owner.items) == &all[1]);
  list_init(owner.items);
  list_copy(items, owner.items);
  check("none is left", list_head(items) == NULL);
}

static size_t
place_of(const struct item *item)
{
  size_t i = 0;
  while(i < count && model[i] != item) {
    i++;
  }
  return i;
}

static void
take_out(const struct item *item)
{
  size_t i = place_of(item);
  if(i < count) {
    count--;
    memmove(&model[i], &model[i + 1], (count - i) * sizeof *model);
  }
}

static void
put_in(size_t place, struct item *item)
{
  memmove(&model[place + 1], &model[place], (count - place) * sizeof *model);
  model[place] = item;
  count++;
}

static bool
is_as_in_model(void)
{
  struct item *item = &all[next_random() % ITEMS], *before = &all[next_random() % ITEMS];
  struct item *first = count > 0 ? model[0] : NULL, *last = count > 0 ? model[count - 1] : NULL;
  switch(next_random() % 6) {
  case 0:
    list_add(items, item);
    take_out(item);
    put_in(count, item);
    return true;
  case 1:
    list_push(items, item);
    take_out(item);
    put_in(0, item);
    return true;
  case 2:
    list_remove(items, item);
    take_out(item);
    return true;
  case 3:
    take_out(first);
    return list_pop(items) == first;
  case 4:
    take_out(last);
    return list_chop(items) == last;
  default:
    if(before != item && place_of(before) < count) {
      list_insert(items, before, item);
      take_out(item);
      put_in(place_of(before) + 1, item);
    }
    return true;
  }
}

static bool
has_the_items(void)
{
  struct item *item = list_head(items);
  for(size_t i = 0; i < count; i++, item = list_item_next(item)) {
    if(item != model[i] || !list_contains(items, item)) {
      return false;
    }
  }
  return item == NULL && list_length(items) == (int)count && list_tail(items) == (count > 0 ? model[count - 1] : NULL);
}

static void
check_random_calls(void)
{
  bool holds = true;
  list_init(items);
  for(int i = 0; i < RANDOM_CALLS && holds; i++) {
    holds = is_as_in_model() && has_the_items();
  }
  check("random calls", holds);
}

int
main(void)
{
  check_worked_calls();
  check_random_calls();
  return conclude();
}
