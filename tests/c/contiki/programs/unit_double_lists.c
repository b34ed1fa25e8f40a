/* As the tests of circular-list, dbl-list and dbl-circ-list. */
#include "contiki.h"
#include "lib/circular-list.h"
#include "lib/dbl-list.h"
#include "lib/dbl-circ-list.h"
#include "services/unit-test/unit-test.h"

#include <stdio.h>
#include <string.h>

typedef struct test_struct {
  struct test_struct *next;
  struct test_struct *previous;
  uint8_t value;
} test_struct_t;

static test_struct_t elements[3];

CIRCULAR_LIST(circ_list);
DBL_LIST(dbl_list);
DBL_CIRC_LIST(dbl_circ_list);

PROCESS(test_process, "Unit tests");
AUTOSTART_PROCESSES(&test_process);

UNIT_TEST_REGISTER(test_circular_list, "Circular, singly-linked list");

UNIT_TEST(test_circular_list)
{
  UNIT_TEST_BEGIN();

  memset(elements, 0, sizeof(elements));
  circular_list_init(circ_list);
  UNIT_TEST_ASSERT(circular_list_is_empty(circ_list));
  UNIT_TEST_ASSERT(circular_list_tail(circ_list) == NULL);
  UNIT_TEST_ASSERT(circular_list_length(circ_list) == 0);

  circular_list_add(circ_list, &elements[0]);
  UNIT_TEST_ASSERT(!circular_list_is_empty(circ_list));
  UNIT_TEST_ASSERT(elements[0].next == &elements[0]);
  UNIT_TEST_ASSERT(circular_list_tail(circ_list) == &elements[0]);

  circular_list_add(circ_list, &elements[1]);
  UNIT_TEST_ASSERT(elements[0].next == &elements[1]);
  UNIT_TEST_ASSERT(elements[1].next == &elements[0]);

  circular_list_add(circ_list, &elements[2]);
  circular_list_add(circ_list, &elements[2]);
  UNIT_TEST_ASSERT(circular_list_length(circ_list) == 3);
  UNIT_TEST_ASSERT(elements[0].next->next->next == &elements[0]);

  circular_list_remove(circ_list, &elements[1]);
  UNIT_TEST_ASSERT(circular_list_length(circ_list) == 2);
  UNIT_TEST_ASSERT(elements[0].next == &elements[2]);
  UNIT_TEST_ASSERT(elements[2].next == &elements[0]);
  circular_list_remove(circ_list, &elements[1]);
  circular_list_remove(circ_list, &elements[0]);
  UNIT_TEST_ASSERT(elements[2].next == &elements[2]);
  circular_list_remove(circ_list, &elements[2]);
  UNIT_TEST_ASSERT(circular_list_is_empty(circ_list));

  UNIT_TEST_END();
}

UNIT_TEST_REGISTER(test_dbl_list, "Doubly-linked list");

UNIT_TEST(test_dbl_list)
{
  UNIT_TEST_BEGIN();

  memset(elements, 0, sizeof(elements));
  dbl_list_init(dbl_list);
  UNIT_TEST_ASSERT(dbl_list_is_empty(dbl_list));
  UNIT_TEST_ASSERT(dbl_list_head(dbl_list) == NULL && dbl_list_tail(dbl_list) == NULL);
  UNIT_TEST_ASSERT(dbl_list_length(dbl_list) == 0);

  dbl_list_add_head(dbl_list, &elements[1]);
  UNIT_TEST_ASSERT(elements[1].next == NULL && elements[1].previous == NULL);
  dbl_list_add_tail(dbl_list, &elements[2]);
  dbl_list_add_head(dbl_list, &elements[0]);
  UNIT_TEST_ASSERT(dbl_list_length(dbl_list) == 3);
  UNIT_TEST_ASSERT(dbl_list_head(dbl_list) == &elements[0]);
  UNIT_TEST_ASSERT(dbl_list_tail(dbl_list) == &elements[2]);
  UNIT_TEST_ASSERT(elements[0].next == &elements[1] && elements[0].previous == NULL);
  UNIT_TEST_ASSERT(elements[1].next == &elements[2] && elements[1].previous == &elements[0]);
  UNIT_TEST_ASSERT(elements[2].next == NULL && elements[2].previous == &elements[1]);

  dbl_list_remove(dbl_list, &elements[1]);
  UNIT_TEST_ASSERT(elements[0].next == &elements[2] && elements[2].previous == &elements[0]);
  dbl_list_add_after(dbl_list, &elements[2], &elements[1]);
  UNIT_TEST_ASSERT(dbl_list_tail(dbl_list) == &elements[1]);
  dbl_list_add_before(dbl_list, &elements[0], &elements[1]);
  UNIT_TEST_ASSERT(dbl_list_head(dbl_list) == &elements[1]);
  UNIT_TEST_ASSERT(dbl_list_tail(dbl_list) == &elements[2]);
  UNIT_TEST_ASSERT(dbl_list_length(dbl_list) == 3);
  dbl_list_remove(dbl_list, &elements[0]);
  dbl_list_remove(dbl_list, &elements[1]);
  dbl_list_remove(dbl_list, &elements[2]);
  UNIT_TEST_ASSERT(dbl_list_is_empty(dbl_list));

  UNIT_TEST_END();
}

UNIT_TEST_REGISTER(test_dbl_circ_list, "Doubly-linked, circular list");

UNIT_TEST(test_dbl_circ_list)
{
  UNIT_TEST_BEGIN();

  memset(elements, 0, sizeof(elements));
  dbl_circ_list_init(dbl_circ_list);
  UNIT_TEST_ASSERT(dbl_circ_list_is_empty(dbl_circ_list));
  UNIT_TEST_ASSERT(dbl_circ_list_head(dbl_circ_list) == NULL && dbl_circ_list_tail(dbl_circ_list) == NULL);
  UNIT_TEST_ASSERT(dbl_circ_list_length(dbl_circ_list) == 0);

  dbl_circ_list_add_tail(dbl_circ_list, &elements[1]);
  UNIT_TEST_ASSERT(elements[1].next == &elements[1] && elements[1].previous == &elements[1]);
  dbl_circ_list_add_tail(dbl_circ_list, &elements[2]);
  dbl_circ_list_add_head(dbl_circ_list, &elements[0]);
  UNIT_TEST_ASSERT(dbl_circ_list_length(dbl_circ_list) == 3);
  UNIT_TEST_ASSERT(dbl_circ_list_head(dbl_circ_list) == &elements[0]);
  UNIT_TEST_ASSERT(dbl_circ_list_tail(dbl_circ_list) == &elements[2]);
  UNIT_TEST_ASSERT(elements[0].previous == &elements[2] && elements[2].next == &elements[0]);

  dbl_circ_list_remove(dbl_circ_list, &elements[0]);
  UNIT_TEST_ASSERT(dbl_circ_list_head(dbl_circ_list) == &elements[1]);
  dbl_circ_list_add_after(dbl_circ_list, &elements[1], &elements[0]);
  UNIT_TEST_ASSERT(elements[1].next == &elements[0] && elements[0].next == &elements[2]);
  UNIT_TEST_ASSERT(dbl_circ_list_tail(dbl_circ_list) == &elements[2]);
  dbl_circ_list_add_before(dbl_circ_list, &elements[1], &elements[0]);
  UNIT_TEST_ASSERT(dbl_circ_list_head(dbl_circ_list) == &elements[0]);
  UNIT_TEST_ASSERT(elements[0].previous == &elements[2] && elements[1].previous == &elements[0]);
  dbl_circ_list_remove(dbl_circ_list, &elements[2]);
  dbl_circ_list_remove(dbl_circ_list, &elements[1]);
  UNIT_TEST_ASSERT(elements[0].next == &elements[0] && elements[0].previous == &elements[0]);
  dbl_circ_list_remove(dbl_circ_list, &elements[0]);
  UNIT_TEST_ASSERT(dbl_circ_list_is_empty(dbl_circ_list));

  UNIT_TEST_END();
}

PROCESS_THREAD(test_process, ev, data)
{
  PROCESS_BEGIN();

  printf("Run unit-test\n");
  printf("---\n");

  UNIT_TEST_RUN(test_circular_list);
  UNIT_TEST_RUN(test_dbl_list);
  UNIT_TEST_RUN(test_dbl_circ_list);

  printf("=check-me= DONE\n");

  PROCESS_END();
}
