/* dbl-list.h in plain C, tested and not proved. An item's links are its first bytes, read and written as those of list.c. */
#include "lib/dbl-list.h"

#include <string.h>

struct links {
  void *next;
  void *previous;
};

static struct links
links_of(const void *item)
{
  struct links links;
  memcpy(&links, item, sizeof links);
  return links;
}

static void
set_links(void *item, void *next, void *previous)
{
  struct links links = {next, previous};
  memcpy(item, &links, sizeof links);
}

/* Has two items follow each other; either may be none: then the other one is the list's first or last one. */
static void
join(dbl_list_t dll, void *left, void *right)
{
  if(left != NULL) {
    set_links(left, right, links_of(left).previous);
  } else {
    *dll = right;
  }
  if(right != NULL) {
    set_links(right, links_of(right).next, left);
  }
}

/* The list's own pointer to an item that it has; NULL for another one. */
static void *
find(const_dbl_list_t dll, const void *element)
{
  void *here = *dll;
  while(here != NULL && here != element) {
    here = links_of(here).next;
  }
  return here;
}

/* Puts an item that is in no list between two that follow each other. */
static void
put_between(dbl_list_t dll, void *left, void *element, void *right)
{
  set_links(element, NULL, NULL);
  join(dll, left, element);
  join(dll, element, right);
}

void
dbl_list_init(dbl_list_t dll)
{
  *dll = NULL;
}

void *
dbl_list_head(const_dbl_list_t dll)
{
  return *dll;
}

void *
dbl_list_tail(const_dbl_list_t dll)
{
  void *last = *dll;
  while(last != NULL && links_of(last).next != NULL) {
    last = links_of(last).next;
  }
  return last;
}

void
dbl_list_remove(dbl_list_t dll, const void *element)
{
  void *own = find(dll, element);
  if(own != NULL) {
    struct links links = links_of(own);
    join(dll, links.previous, links.next);
    set_links(own, NULL, NULL);
  }
}

void
dbl_list_add_head(dbl_list_t dll, void *element)
{
  if(element != NULL) {
    dbl_list_remove(dll, element);
    put_between(dll, NULL, element, *dll);
  }
}

void
dbl_list_add_tail(dbl_list_t dll, void *element)
{
  if(element != NULL) {
    dbl_list_remove(dll, element);
    put_between(dll, dbl_list_tail(dll), element, NULL);
  }
}

void
dbl_list_add_after(dbl_list_t dll, void *existing, void *element)
{
  if(existing != NULL && element != NULL && existing != element) {
    dbl_list_remove(dll, element);
    put_between(dll, existing, element, links_of(existing).next);
  }
}

void
dbl_list_add_before(dbl_list_t dll, void *existing, void *element)
{
  if(existing != NULL && element != NULL && existing != element) {
    dbl_list_remove(dll, element);
    put_between(dll, links_of(existing).previous, element, existing);
  }
}

unsigned long
dbl_list_length(const_dbl_list_t dll)
{
  unsigned long length = 0;
  for(const void *here = *dll; here != NULL; here = links_of(here).next) {
    length++;
  }
  return length;
}

bool
dbl_list_is_empty(const_dbl_list_t dll)
{
  return *dll == NULL;
}
