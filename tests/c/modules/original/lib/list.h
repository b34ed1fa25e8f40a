/* Plain stand-ins with the signatures of Contiki-NG's list.h, as far as the source uses them. */
#ifndef ORIGINAL_LIST_H
#define ORIGINAL_LIST_H

#include <stddef.h>

typedef void **list_t;

#define LIST(name)                  \
  static void *name##_first = NULL; \
  static list_t name = (list_t)&name##_first

void list_init(list_t list);
void *list_head(list_t list);
void *list_pop(list_t list);
void list_add(list_t list, void *item);
void list_remove(list_t list, void *item);
int list_length(list_t list);
void *list_item_next(void *item);

#endif
