/* Unit tests whose reports a script reads, as those that Contiki-NG runs in its simulator: the second one fails, and ends there. */
#include "contiki.h"
#include "unit-test.h"

#include <stdio.h>

PROCESS(run_tests, "Unit tests");
AUTOSTART_PROCESSES(&run_tests);

static int reached;

void
print_test_report(const unit_test_t *utp)
{
  printf("=check-me= ");
  if(utp->result == unit_test_failure) {
    printf("FAILED   - %s: exit at L%u\n", utp->descr, utp->exit_line);
  } else {
    printf("SUCCEEDED - %s\n", utp->descr);
  }
}

UNIT_TEST_REGISTER(early, "Early success");
UNIT_TEST(early)
{
  UNIT_TEST_BEGIN();

  if(RTIMER_NOW() == utp->start) {
    UNIT_TEST_SUCCEED();
  }
  UNIT_TEST_FAIL();

  UNIT_TEST_END();
}

UNIT_TEST_REGISTER(failing, "Failure");
UNIT_TEST(failing)
{
  UNIT_TEST_BEGIN();

  UNIT_TEST_ASSERT(1 + 1 == 2);
  UNIT_TEST_ASSERT(1 + 1 == 3);
  reached = 1;

  UNIT_TEST_END();
}

PROCESS_THREAD(run_tests, ev, data)
{
  static struct etimer et;

  PROCESS_BEGIN();

  etimer_set(&et, CLOCK_SECOND);
  PROCESS_WAIT_EVENT_UNTIL(etimer_expired(&et));
  UNIT_TEST_RUN(early);
  UNIT_TEST_RUN(failing);
  printf("passed: %d %d, reached %d\n", UNIT_TEST_PASSED(early), UNIT_TEST_PASSED(failing), reached);

  PROCESS_END();
}
