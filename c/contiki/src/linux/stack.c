/* The stack of the program on its host. */
#define _XOPEN_SOURCE 700
#include "../driver.h"
#include "sys/stack-check.h"

#include <sys/resource.h>

enum { STACK_REACH = 1 << 26 };

/* Whether this address is on the stack of main. Below it is a wide gap, so no other memory is so near. */
bool
is_on_stack(const void *place)
{
  return (uintptr_t)stack_begin - (uintptr_t)place < STACK_REACH;
}

int32_t
stack_check_get_reserved_size(void)
{
  struct rlimit limit;
  return getrlimit(RLIMIT_STACK, &limit) == 0 && limit.rlim_cur < INT32_MAX ? (int32_t)limit.rlim_cur : INT32_MAX;
}
