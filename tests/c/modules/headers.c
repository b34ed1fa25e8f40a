/* Uses every macro of the headers once, as C or as C++: it is only compiled, by both compilers and with all their warnings. */
#include "circular-list.h"
#include "dbl-circ-list.h"
#include "dbl-list.h"
#include "heapmem.h"
#include "list.h"
#include "memb.h"
#include "mmem.h"
#include "queue.h"
#include "ringbuf.h"
#include "ringbufindex.h"
#include "stack.h"
#include "unit-test.h"

#include "lib/circular-list.h"
#include "lib/dbl-circ-list.h"
#include "lib/dbl-list.h"
#include "lib/heapmem.h"
#include "lib/list.h"
#include "lib/memb.h"
#include "lib/mmem.h"
#include "lib/queue.h"
#include "lib/ringbuf.h"
#include "lib/ringbufindex.h"
#include "lib/stack.h"
#include "services/unit-test/unit-test.h"
#include "toarmuts/managed.h"

struct connection {
  struct connection *next;
  int port;
};

struct owner {
  int number;
  LIST_STRUCT(connections);
};

MEMB(connections, struct connection, 3);
MEMB(most, char, 65535);
TOARMUTS_MANAGED(five, 5, 1);
LIST(all);
CIRCULAR_LIST(circular);
DBL_LIST(doubly);
DBL_CIRC_LIST(both);
QUEUE(waiting);
STACK(pile);

UNIT_TEST_REGISTER(empty, "Empty lists");

UNIT_TEST(empty)
{
  UNIT_TEST_BEGIN();

  UNIT_TEST_ASSERT(circular_list_is_empty(circular) && dbl_list_is_empty(doubly) && dbl_circ_list_is_empty(both));
  if(queue_is_empty(waiting) && stack_is_empty(pile)) {
    UNIT_TEST_SUCCEED();
  }
  UNIT_TEST_FAIL();

  UNIT_TEST_END();
}

int use_all(struct owner *owner);

int
use_all(struct owner *owner)
{
  struct mmem block;
  heapmem_zone_t zone = HEAPMEM_ZONE_GENERAL;
  UNIT_TEST_RUN(empty);
  LIST_STRUCT_INIT(owner, connections);
  list_add(all, memb_alloc(&connections));
  if(mmem_alloc(&block, 5) == 0 || MMEM_PTR(&block) == NULL || zone == HEAPMEM_ZONE_INVALID) {
    return 1;
  }
  return UNIT_TEST_PASSED(empty) && memb_alloc(&most) != NULL && toarmuts_managed_available(&five) == TOARMUTS_ALIGNED(5);
}
