/* What follows the stand-ins: the plainest code there is, over malloc. */
#include "lib/heapmem.h"
#include "lib/list.h"
#include "lib/memb.h"
#include "lib/mmem.h"
#include "lib/ringbuf.h"

#include <stdlib.h>
#include <string.h>

void
memb_init(struct memb *m)
{
  memset(m->used, 0, m->num * sizeof *m->used);
  memset(m->mem, 0, (size_t)m->num * m->size);
}

void *
memb_alloc(struct memb *m)
{
  for(int i = 0; i < m->num; i++) {
    if(!m->used[i]) {
      m->used[i] = true;
      return (char *)m->mem + i * m->size;
    }
  }
  return NULL;
}

int
memb_free(struct memb *m, void *ptr)
{
  for(int i = 0; i < m->num; i++) {
    if(ptr == (char *)m->mem + i * m->size) {
      m->used[i] = false;
      return 0;
    }
  }
  return -1;
}

int
memb_inmemb(struct memb *m, void *ptr)
{
  return (char *)ptr >= (char *)m->mem && (char *)ptr < (char *)m->mem + m->num * m->size;
}

size_t
memb_numfree(struct memb *m)
{
  size_t count = 0;
  for(int i = 0; i < m->num; i++) {
    count += !m->used[i];
  }
  return count;
}

static unsigned left = 4096;

void
mmem_init(void)
{
  left = 4096;
}

int
mmem_alloc(struct mmem *m, unsigned int size)
{
  if(size > left) {
    return 0;
  }
  left -= size;
  m->size = size;
  m->ptr = calloc(1, size);
  return 1;
}

void
mmem_free(struct mmem *m)
{
  left += m->size;
  free(m->ptr);
}

void *
heapmem_alloc(size_t size)
{
  return size > 65536 ? NULL : malloc(size);
}

void *
heapmem_calloc(size_t nmemb, size_t size)
{
  return size != 0 && nmemb > 65536 / size ? NULL : calloc(nmemb, size);
}

void *
heapmem_realloc(void *ptr, size_t size)
{
  return size > 65536 ? NULL : realloc(ptr, size);
}

bool
heapmem_free(void *ptr)
{
  free(ptr);
  return ptr != NULL;
}

void
ringbuf_init(struct ringbuf *r, uint8_t *data, uint8_t size)
{
  r->data = data;
  r->mask = (uint8_t)(size - 1);
  r->put_ptr = r->get_ptr = 0;
}

int
ringbuf_put(struct ringbuf *r, uint8_t c)
{
  if(ringbuf_elements(r) == r->mask) {
    return 0;
  }
  r->data[r->put_ptr] = c;
  r->put_ptr = (r->put_ptr + 1) & r->mask;
  return 1;
}

int
ringbuf_get(struct ringbuf *r)
{
  int byte = -1;
  if(ringbuf_elements(r) > 0) {
    byte = r->data[r->get_ptr];
    r->get_ptr = (r->get_ptr + 1) & r->mask;
  }
  return byte;
}

int
ringbuf_size(struct ringbuf *r)
{
  return r->mask + 1;
}

int
ringbuf_elements(struct ringbuf *r)
{
  return (r->put_ptr - r->get_ptr) & r->mask;
}

struct node {
  struct node *next;
};

void
list_init(list_t list)
{
  *list = NULL;
}

void *
list_head(list_t list)
{
  return *list;
}

void *
list_item_next(void *item)
{
  return item == NULL ? NULL : ((struct node *)item)->next;
}

void *
list_pop(list_t list)
{
  void *first = *list;
  *list = list_item_next(first);
  return first;
}

void
list_remove(list_t list, void *item)
{
  struct node **link = (struct node **)list;
  while(*link != NULL && *link != item) {
    link = &(*link)->next;
  }
  if(*link != NULL) {
    *link = (*link)->next;
  }
}

void
list_add(list_t list, void *item)
{
  struct node **link = (struct node **)list;
  list_remove(list, item);
  while(*link != NULL) {
    link = &(*link)->next;
  }
  *link = item;
  ((struct node *)item)->next = NULL;
}

int
list_length(list_t list)
{
  int length = 0;
  for(void *item = *list; item != NULL; item = list_item_next(item)) {
    length++;
  }
  return length;
}
