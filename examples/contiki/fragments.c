/* Managed memory: a block fits if enough bytes are free in all, since the others slide together. */
#include "contiki.h"
#include "lib/mmem.h"

#include <stdio.h>
#include <string.h>

PROCESS(fragments, "Fragments");
AUTOSTART_PROCESSES(&fragments);

static struct mmem letters, numbers, words, report;

PROCESS_THREAD(fragments, ev, data)
{
  PROCESS_BEGIN();

  mmem_alloc(&letters, 2000);
  mmem_alloc(&numbers, 1000);
  mmem_alloc(&words, 1000);
  strcpy(MMEM_PTR(&letters), "abc");
  strcpy(MMEM_PTR(&words), "bread and butter");
  if(!mmem_alloc(&report, 1096)) {
    printf("no room for 1096 bytes\n");
    mmem_free(&numbers);
  }
  if(mmem_alloc(&report, 1096)) {
    /* 1000 bytes were free before the words, and 96 after them. */
    printf("room for 1096 bytes\n");
  }
  printf("%s, %s\n", (char *)MMEM_PTR(&letters), (char *)MMEM_PTR(&words));
  mmem_free(&report);

  PROCESS_END();
}
