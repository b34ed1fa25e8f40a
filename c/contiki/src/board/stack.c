/* The stack of the program on a board. */
#include "firmware.h"

#include "sys/stack-check.h"

bool
is_on_stack(const void *place)
{
  return (const uint8_t *)place >= stack_low && (const uint8_t *)place < board_stack_top;
}

int32_t
stack_check_get_reserved_size(void)
{
  return (int32_t)(board_stack_top - stack_low);
}
