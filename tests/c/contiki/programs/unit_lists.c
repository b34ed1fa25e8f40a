/* As the tests of list, stack and queue. */
#include "contiki.h"
#include "lib/list.h"
#include "lib/stack.h"
#include "lib/queue.h"
#include "services/unit-test/unit-test.h"

#include <stdio.h>
#include <string.h>

struct element {
  struct element *next;
  int value;
};

LIST(test_list);
STACK(test_stack);
QUEUE(test_queue);

static struct element elements[4];

PROCESS(test_process, "Unit tests");
AUTOSTART_PROCESSES(&test_process);

UNIT_TEST_REGISTER(list_push_add, "List: push and add");

UNIT_TEST(list_push_add)
{
  UNIT_TEST_BEGIN();

  list_init(test_list);
  UNIT_TEST_ASSERT(list_head(test_list) == NULL);
  UNIT_TEST_ASSERT(list_tail(test_list) == NULL);
  UNIT_TEST_ASSERT(list_length(test_list) == 0);
  list_push(test_list, &elements[0]);
  list_push(test_list, &elements[1]);
  list_add(test_list, &elements[2]);
  UNIT_TEST_ASSERT(list_head(test_list) == &elements[1]);
  UNIT_TEST_ASSERT(list_tail(test_list) == &elements[2]);
  UNIT_TEST_ASSERT(list_item_next(&elements[1]) == &elements[0]);
  UNIT_TEST_ASSERT(list_length(test_list) == 3);
  /* An item is in a list once. */
  list_add(test_list, &elements[1]);
  UNIT_TEST_ASSERT(list_length(test_list) == 3);
  UNIT_TEST_ASSERT(list_head(test_list) == &elements[0]);
  UNIT_TEST_ASSERT(list_tail(test_list) == &elements[1]);

  UNIT_TEST_END();
}

UNIT_TEST_REGISTER(list_remove_insert, "List: remove, insert, chop, pop");

UNIT_TEST(list_remove_insert)
{
  LIST(copy);

  UNIT_TEST_BEGIN();

  list_insert(test_list, &elements[0], &elements[3]);
  UNIT_TEST_ASSERT(elements[0].next == &elements[3]);
  UNIT_TEST_ASSERT(elements[3].next == &elements[2]);
  UNIT_TEST_ASSERT(list_contains(test_list, &elements[3]));
  list_remove(test_list, &elements[3]);
  UNIT_TEST_ASSERT(!list_contains(test_list, &elements[3]));
  list_insert(test_list, NULL, &elements[3]);
  UNIT_TEST_ASSERT(list_head(test_list) == &elements[3]);
  list_copy(copy, test_list);
  UNIT_TEST_ASSERT(list_head(copy) == &elements[3]);
  UNIT_TEST_ASSERT(list_chop(test_list) == &elements[1]);
  UNIT_TEST_ASSERT(list_pop(test_list) == &elements[3]);
  UNIT_TEST_ASSERT(list_length(test_list) == 2);

  UNIT_TEST_END();
}

UNIT_TEST_REGISTER(stack_order, "Stack: last in, first out");

UNIT_TEST(stack_order)
{
  UNIT_TEST_BEGIN();

  stack_init(test_stack);
  UNIT_TEST_ASSERT(stack_is_empty(test_stack));
  UNIT_TEST_ASSERT(stack_peek(test_stack) == NULL);
  UNIT_TEST_ASSERT(stack_pop(test_stack) == NULL);
  stack_push(test_stack, &elements[0]);
  stack_push(test_stack, &elements[1]);
  UNIT_TEST_ASSERT(stack_peek(test_stack) == &elements[1]);
  UNIT_TEST_ASSERT(stack_pop(test_stack) == &elements[1]);
  UNIT_TEST_ASSERT(stack_pop(test_stack) == &elements[0]);
  UNIT_TEST_ASSERT(stack_is_empty(test_stack));

  UNIT_TEST_END();
}

UNIT_TEST_REGISTER(queue_order, "Queue: first in, first out");

UNIT_TEST(queue_order)
{
  UNIT_TEST_BEGIN();

  queue_init(test_queue);
  UNIT_TEST_ASSERT(queue_is_empty(test_queue));
  UNIT_TEST_ASSERT(queue_peek(test_queue) == NULL);
  UNIT_TEST_ASSERT(queue_dequeue(test_queue) == NULL);
  queue_enqueue(test_queue, &elements[0]);
  queue_enqueue(test_queue, &elements[1]);
  UNIT_TEST_ASSERT(queue_peek(test_queue) == &elements[0]);
  UNIT_TEST_ASSERT(queue_dequeue(test_queue) == &elements[0]);
  UNIT_TEST_ASSERT(queue_dequeue(test_queue) == &elements[1]);
  UNIT_TEST_ASSERT(queue_is_empty(test_queue));

  UNIT_TEST_END();
}

PROCESS_THREAD(test_process, ev, data)
{
  PROCESS_BEGIN();

  printf("Run unit-test\n");
  printf("---\n");

  UNIT_TEST_RUN(list_push_add);
  UNIT_TEST_RUN(list_remove_insert);
  UNIT_TEST_RUN(stack_order);
  UNIT_TEST_RUN(queue_order);

  printf("=check-me= DONE\n");

  PROCESS_END();
}
