/* mmem.h beside the model of its test. The memory has 256 bytes. */
#include "module.h"

#include "../c/modules/mmem_test.c"

int
LLVMFuzzerTestOneInput(const uint8_t *data, size_t size)
{
  begin_input(data, size);
  mmem_init();
  memset(model, 0, sizeof model);
  while(has_input()) {
    WANT(is_as_in_model() && has_the_bytes());
  }
  return 0;
}
