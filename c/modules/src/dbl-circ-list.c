/* dbl-circ-list.h in plain C, tested and not proved. An item's links are its first bytes, read and written as those of list.c. */
#include "lib/dbl-circ-list.h"

#include <string.h>

struct links {
  void *next;
  void *previous;
};

static struct links
links_of(const void *item)
{
  struct links links;
  memcpy(&links, item, sizeof links);
  return links;
}

static void
set_links(void *item, void *next, void *previous)
{
  struct links links = {next, previous};
  memcpy(item, &links, sizeof links);
}

/* Has two items follow each other. They may be one. */
static void
join(void *left, void *right)
{
  set_links(left, right, links_of(left).previous);
  set_links(right, links_of(right).next, left);
}

/* The list's own pointer to an item that it has; NULL for another one. */
static void *
find(const_dbl_circ_list_t dll, const void *element)
{
  void *here = *dll;
  if(here == NULL) {
    return NULL;
  }
  do {
    if(here == element) {
      return here;
    }
    here = links_of(here).next;
  } while(here != *dll);
  return NULL;
}

/* Puts an item that is in no list before another one; into an empty list where that is NULL. */
static void
put_before(dbl_circ_list_t dll, void *element, void *right)
{
  if(right == NULL) {
    set_links(element, element, element);
    *dll = element;
  } else {
    void *left = links_of(right).previous;
    join(left, element);
    join(element, right);
  }
}

void
dbl_circ_list_init(dbl_circ_list_t dll)
{
  *dll = NULL;
}

void *
dbl_circ_list_head(const_dbl_circ_list_t dll)
{
  return *dll;
}

void *
dbl_circ_list_tail(const_dbl_circ_list_t dll)
{
  return *dll == NULL ? NULL : links_of(*dll).previous;
}

void
dbl_circ_list_remove(dbl_circ_list_t dll, const void *element)
{
  void *own = find(dll, element);
  if(own != NULL) {
    struct links links = links_of(own);
    join(links.previous, links.next);
    if(*dll == own) {
      *dll = links.next == own ? NULL : links.next;
    }
    set_links(own, NULL, NULL);
  }
}

void
dbl_circ_list_add_head(dbl_circ_list_t dll, void *element)
{
  if(element != NULL) {
    dbl_circ_list_add_tail(dll, element);
    *dll = element;
  }
}

void
dbl_circ_list_add_tail(dbl_circ_list_t dll, void *element)
{
  if(element != NULL) {
    dbl_circ_list_remove(dll, element);
    put_before(dll, element, *dll);
  }
}

void
dbl_circ_list_add_after(dbl_circ_list_t dll, void *existing, void *element)
{
  if(existing != NULL && element != NULL && existing != element) {
    dbl_circ_list_remove(dll, element);
    put_before(dll, element, links_of(existing).next);
  }
}

void
dbl_circ_list_add_before(dbl_circ_list_t dll, void *existing, void *element)
{
  if(existing != NULL && element != NULL && existing != element) {
    dbl_circ_list_remove(dll, element);
    put_before(dll, element, existing);
    if(*dll == existing) {
      *dll = element;
    }
  }
}

unsigned long
dbl_circ_list_length(const_dbl_circ_list_t dll)
{
  unsigned long length = 0;
  const void *here = *dll;
  if(here != NULL) {
    do {
      length++;
      here = links_of(here).next;
    } while(here != *dll);
  }
  return length;
}

bool
dbl_circ_list_is_empty(const_dbl_circ_list_t dll)
{
  return *dll == NULL;
}
