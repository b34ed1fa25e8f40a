/* memb.h beside the model of its test: 40 blocks. */
#include "module.h"

#include "../c/modules/memb_test.c"

int
LLVMFuzzerTestOneInput(const uint8_t *data, size_t size)
{
  bool used[40] = {false};
  begin_input(data, size);
  memb_init(&many);
  while(has_input()) {
    size_t unused = 0;
    WANT(is_as_in_model(used));
    for(unsigned i = 0; i < 40; i++) {
      unused += !used[i];
    }
    WANT(memb_numfree(&many) == unused);
  }
  return 0;
}
