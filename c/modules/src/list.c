/*
 * list.h in plain C, tested and not proved. An item's link is its first bytes, which are read and written as bytes: an item has a
 * type of its own, so a pointer may not be read through another struct's type.
 */
#include "lib/list.h"

#include <string.h>

void *
list_item_next(const void *item)
{
  void *next = NULL;
  if(item != NULL) {
    memcpy(&next, item, sizeof next);
  }
  return next;
}

static void
link_to(void *item, void *next)
{
  memcpy(item, &next, sizeof next);
}

void
list_init(list_t list)
{
  *list = NULL;
}

void *
list_head(const_list_t list)
{
  return *list;
}

void *
list_tail(const_list_t list)
{
  void *last = *list, *next;
  while((next = list_item_next(last)) != NULL) {
    last = next;
  }
  return last;
}

void *
list_pop(list_t list)
{
  void *first = *list;
  *list = list_item_next(first);
  return first;
}

void
list_push(list_t list, void *item)
{
  if(item == NULL) {
    return;
  }
  list_remove(list, item);
  link_to(item, *list);
  *list = item;
}

void
list_add(list_t list, void *item)
{
  if(item == NULL) {
    return;
  }
  list_remove(list, item);
  link_to(item, NULL);
  void *last = list_tail(list);
  if(last == NULL) {
    *list = item;
  } else {
    link_to(last, item);
  }
}

void *
list_chop(list_t list)
{
  void *last = list_tail(list);
  list_remove(list, last);
  return last;
}

void
list_remove(list_t list, const void *item)
{
  if(*list == item) {
    *list = list_item_next(item);
    return;
  }
  for(void *before = *list; before != NULL; before = list_item_next(before)) {
    if(list_item_next(before) == item) {
      link_to(before, list_item_next(item));
      return;
    }
  }
}

int
list_length(const_list_t list)
{
  int length = 0;
  for(const void *item = *list; item != NULL; item = list_item_next(item)) {
    length++;
  }
  return length;
}

void
list_copy(list_t dest, const_list_t src)
{
  *dest = *src;
}

void
list_insert(list_t list, void *previtem, void *newitem)
{
  if(previtem == NULL || newitem == NULL || previtem == newitem) {
    if(previtem == NULL) {
      list_push(list, newitem);
    }
    return;
  }
  list_remove(list, newitem);
  link_to(newitem, list_item_next(previtem));
  link_to(previtem, newitem);
}

bool
list_contains(const_list_t list, const void *item)
{
  for(const void *here = *list; here != NULL; here = list_item_next(here)) {
    if(here == item) {
      return true;
    }
  }
  return false;
}
