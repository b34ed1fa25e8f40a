/* Indices of a ring: plain C, not proved. Header and source are those of the memory modules. */
#include "../../../modules/include/lib/ringbufindex.h"
