/* Plain stand-ins with the signatures of Contiki-NG's heapmem.h. */
#ifndef ORIGINAL_HEAPMEM_H
#define ORIGINAL_HEAPMEM_H

#include <stdbool.h>
#include <stddef.h>

void *heapmem_alloc(size_t size);
void *heapmem_calloc(size_t nmemb, size_t size);
void *heapmem_realloc(void *ptr, size_t size);
bool heapmem_free(void *ptr);

#endif
