/* What unit-test.h counts and prints. */
#include "services/unit-test/unit-test.h"

#include <stdio.h>
#include <time.h>

static unsigned runs, failures;

uint32_t
unit_test_now(void)
{
  return (uint32_t)(clock() * (1000000 / CLOCKS_PER_SEC));
}

void
unit_test_print_report(const unit_test_t *utp)
{
  printf("\nUnit test: %s\n", utp->descr);
  printf("Result: %s\n", utp->result == unit_test_success ? "success" : "failure");
  printf("Exit point: %s:%u\n", utp->test_file, utp->exit_line);
  printf("Start: %u\n", (unsigned)utp->start);
  printf("End: %u\n", (unsigned)utp->end);
  printf("Duration: %u\n", (unsigned)(utp->end - utp->start));
}

void
unit_test_note(const unit_test_t *utp)
{
  runs++;
  if(utp->result != unit_test_success) {
    failures++;
    fprintf(stderr, "%s:%u: the unit test '%s' failed\n", utp->test_file, utp->exit_line, utp->descr);
  }
}

unsigned
unit_test_runs(void)
{
  return runs;
}

unsigned
unit_test_failures(void)
{
  return failures;
}
