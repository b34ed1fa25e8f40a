#include "lib/stack.h"
