/* As the example of the manual for mmem: a block is allocated, used, and freed, while another one moves. */
#include "contiki.h"
#include "lib/mmem.h"

#include <stdio.h>

struct my_struct {
  int a;
};

static struct mmem first, mmem;

PROCESS(example_process, "Managed memory");
AUTOSTART_PROCESSES(&example_process);

PROCESS_THREAD(example_process, ev, data)
{
  struct my_struct *my_data_ptr;

  PROCESS_BEGIN();

  mmem_init();
  if(mmem_alloc(&first, 4000) == 0) {
    printf("memory allocation failed\n");
  }
  if(mmem_alloc(&mmem, sizeof(struct my_struct)) == 0) {
    printf("memory allocation failed\n");
  } else {
    printf("memory allocation succeeded\n");
    my_data_ptr = (struct my_struct *)MMEM_PTR(&mmem);
    my_data_ptr->a = 0xaa;
  }
  mmem_free(&first);
  my_data_ptr = (struct my_struct *)MMEM_PTR(&mmem);
  printf("0x%x\n", my_data_ptr->a);
  if(mmem_alloc(&first, 4093) == 0) {
    printf("memory allocation failed\n");
  }
  mmem_free(&mmem);
  printf("%d\n", mmem_alloc(&first, 4096) != 0);

  PROCESS_END();
}
