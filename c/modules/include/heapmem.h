#include "lib/heapmem.h"
