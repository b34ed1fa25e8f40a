/*
 * Circular lists through the first pointer of the caller's structs: circular-list.h of Contiki-NG, in plain C. It is tested, and not
 * proved.
 *
 * The list's pointer is to any one of its items, its head. The last item's link leads back to it. Duties of the caller: those of
 * lib/list.h.
 */
#ifndef CIRCULAR_LIST_H_
#define CIRCULAR_LIST_H_

#include "../toarmuts/common.h"

TOARMUTS_BEGIN

typedef void **circular_list_t;
typedef void *const *const_circular_list_t;

/* Declares a list with no items. */
#define CIRCULAR_LIST(name)                 \
  static void *name##_circular_list = NULL; \
  static circular_list_t name = &name##_circular_list

/* Removes all items. */
void circular_list_init(circular_list_t cl);

/* The item whose link leads to the head; NULL where there is none. */
void *circular_list_tail(const_circular_list_t cl);

/* Removes an item, if the list has it. The head is then the item before it. */
void circular_list_remove(circular_list_t cl, const void *element);

/* Puts an item after the head. If the list had it, it is removed first. NULL is ignored. */
void circular_list_add(circular_list_t cl, void *element);

/* The number of items. */
unsigned long circular_list_length(const_circular_list_t cl);

bool circular_list_is_empty(const_circular_list_t cl);

TOARMUTS_END

#endif
