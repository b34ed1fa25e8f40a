/*
 * Lists through the first pointer of the caller's structs: list.h of Contiki-NG, in plain C. It is tested, and not proved. For
 * x86-64, aarch64 and Cortex-M. Applications that run on the mote have this header, too.
 *
 * Duties of the caller: a list is not NULL; an item may be, and is ignored. The first bytes of an item are a pointer that only these
 * calls write while the item is in a list. An item is in at most one list, and doesn't move. One thread uses a list. Each call needs
 * less than 1 KB of stack.
 */
#ifndef LIST_H_
#define LIST_H_

#include "../toarmuts/common.h"

TOARMUTS_BEGIN

typedef void **list_t;
typedef void *const *const_list_t;

#define LIST_CONCAT2(one, other) one##other
#define LIST_CONCAT(one, other) LIST_CONCAT2(one, other)

/* Declares a list with no items. */
#define LIST(name)                              \
  static void *LIST_CONCAT(name, _list) = NULL; \
  static list_t name = &LIST_CONCAT(name, _list)

/* Declares a list inside a struct, which LIST_STRUCT_INIT initialises. */
#define LIST_STRUCT(name)         \
  void *LIST_CONCAT(name, _list); \
  list_t name

#define LIST_STRUCT_INIT(struct_ptr, name)                          \
  do {                                                              \
    (struct_ptr)->name = &((struct_ptr)->LIST_CONCAT(name, _list)); \
    list_init((struct_ptr)->name);                                  \
  } while(0)

/* Removes all items. */
void list_init(list_t list);

/* The first item, and the last one; NULL where there is none. */
void *list_head(const_list_t list);
void *list_tail(const_list_t list);

/* Removes the first item, or the last one, and returns it; NULL if there is none. */
void *list_pop(list_t list);
void *list_chop(list_t list);

/* Makes an item the first one, or the last one. If the list had it, it is removed first. */
void list_push(list_t list, void *item);
void list_add(list_t list, void *item);

/* Removes an item, if the list has it. It still links to the item after it, so a loop over the list may remove items. */
void list_remove(list_t list, const void *item);

/* The number of items. */
int list_length(const_list_t list);

/* Makes a list the same as another one. Both then share the items. */
void list_copy(list_t dest, const_list_t src);

/* Puts an item after another one, or first if that is NULL. If the list had it, it is removed first. */
void list_insert(list_t list, void *previtem, void *newitem);

/* The item after this one; NULL where there is none, or the item is NULL. */
void *list_item_next(const void *item);

/* Whether the list has an item. */
bool list_contains(const_list_t list, const void *item);

TOARMUTS_END

#endif
