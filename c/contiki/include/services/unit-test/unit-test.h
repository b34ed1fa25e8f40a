/* Unit tests, whose times are the mote's. The macros are those of the memory modules. */
#include "contiki.h"

#include "../../../../modules/include/services/unit-test/unit-test.h"
