/*
 * Lists through the first two pointers of the caller's structs, to the next item and to the one before:
 * dbl-list.h of Contiki-NG, in plain C. It is tested, and not proved.
 *
 * The first item has none before it, and the last one none after it. Duties of the caller: those of lib/list.h, for both pointers.
 */
#ifndef DBL_LIST_H_
#define DBL_LIST_H_

#include "../toarmuts/common.h"

TOARMUTS_BEGIN

typedef void **dbl_list_t;
typedef void *const *const_dbl_list_t;

/* Declares a list with no items. */
#define DBL_LIST(name)                 \
  static void *name##_dbl_list = NULL; \
  static dbl_list_t name = &name##_dbl_list

/* Removes all items. */
void dbl_list_init(dbl_list_t dll);

/* The first item, and the last one; NULL where there is none. */
void *dbl_list_head(const_dbl_list_t dll);
void *dbl_list_tail(const_dbl_list_t dll);

/* Removes an item, if the list has it. Its pointers are then NULL. */
void dbl_list_remove(dbl_list_t dll, const void *element);

/* Makes an item the first one, or the last one. If the list had it, it is removed first. NULL is ignored. */
void dbl_list_add_head(dbl_list_t dll, void *element);
void dbl_list_add_tail(dbl_list_t dll, void *element);

/* Puts an item after another one of the list, or before it. Nothing changes if either is NULL. */
void dbl_list_add_after(dbl_list_t dll, void *existing, void *element);
void dbl_list_add_before(dbl_list_t dll, void *existing, void *element);

/* The number of items. */
unsigned long dbl_list_length(const_dbl_list_t dll);

bool dbl_list_is_empty(const_dbl_list_t dll);

TOARMUTS_END

#endif
