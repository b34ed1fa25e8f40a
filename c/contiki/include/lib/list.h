/* Lists of structures whose first member is a pointer, which links them: plain C, not proved. Header and source are those of the
 * memory modules. */
#include "sys/cc.h"

#include "../../../modules/include/lib/list.h"
