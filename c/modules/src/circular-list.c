/* circular-list.h in plain C, tested and not proved. An item's link is its first bytes, read and written as those of list.c. */
#include "lib/circular-list.h"

#include <string.h>

static void *
next_of(const void *item)
{
  void *next;
  memcpy(&next, item, sizeof next);
  return next;
}

static void
link_to(void *item, void *next)
{
  memcpy(item, &next, sizeof next);
}

/* The item whose link leads to this one, which the list has or not: then NULL. */
static void *
before(const_circular_list_t cl, const void *item)
{
  void *here = *cl;
  if(here == NULL) {
    return NULL;
  }
  do {
    if(next_of(here) == item) {
      return here;
    }
    here = next_of(here);
  } while(here != *cl);
  return NULL;
}

void
circular_list_init(circular_list_t cl)
{
  *cl = NULL;
}

void *
circular_list_tail(const_circular_list_t cl)
{
  return before(cl, *cl);
}

void
circular_list_remove(circular_list_t cl, const void *element)
{
  void *previous = before(cl, element);
  if(previous != NULL) {
    link_to(previous, next_of(element));
    *cl = previous == element ? NULL : previous;
  }
}

void
circular_list_add(circular_list_t cl, void *element)
{
  if(element == NULL) {
    return;
  }
  circular_list_remove(cl, element);
  if(*cl == NULL) {
    *cl = element;
    link_to(element, element);
  } else {
    link_to(element, next_of(*cl));
    link_to(*cl, element);
  }
}

unsigned long
circular_list_length(const_circular_list_t cl)
{
  unsigned long length = 0;
  const void *here = *cl;
  if(here != NULL) {
    do {
      length++;
      here = next_of(here);
    } while(here != *cl);
  }
  return length;
}

bool
circular_list_is_empty(const_circular_list_t cl)
{
  return *cl == NULL;
}
