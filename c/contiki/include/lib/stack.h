/* Stacks: those of the memory modules. */
#include "lib/list.h"

#include "../../../modules/include/lib/stack.h"
