/* Doubly linked lists: plain C, not proved. Header and source are those of the memory modules. */
#include "../../../modules/include/lib/dbl-list.h"
