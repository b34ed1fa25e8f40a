/*
 * Unit tests as in Contiki-NG: each test is a function, and is registered with a description. A test succeeds at its end, or where it
 * says so. At an assertion that doesn't hold it fails and ends. It is plain C.
 *
 *   UNIT_TEST_REGISTER(sums, "Sums");
 *   UNIT_TEST(sums)
 *   {
 *     UNIT_TEST_BEGIN();
 *     UNIT_TEST_ASSERT(1 + 1 == 2);
 *     UNIT_TEST_END();
 *   }
 *   .. UNIT_TEST_RUN(sums);
 */
#ifndef UNIT_TEST_H_
#define UNIT_TEST_H_

#include <stdint.h>

#ifdef __cplusplus
extern "C" {
#endif

typedef enum { unit_test_failure = 0, unit_test_success = 1 } unit_test_result_t;

/* A test and its result. */
typedef struct unit_test {
  const char *const descr;
  unit_test_result_t result;
  unsigned exit_line; /* where it ended */
  uint32_t start;     /* when it began and ended, by UNIT_TEST_NOW */
  uint32_t end;
  const char *const test_file;
} unit_test_t;

/* The time of a test: that of rtimer.h in a program for the command contiki, otherwise microseconds of the processor. */
#ifdef RTIMER_NOW
#define UNIT_TEST_NOW() RTIMER_NOW()
#else
#define UNIT_TEST_NOW() unit_test_now()
#endif
uint32_t unit_test_now(void);

/* The function that prints a report. A program may name another one of the same type here. */
#ifndef UNIT_TEST_PRINT_FUNCTION
#define UNIT_TEST_PRINT_FUNCTION unit_test_print_report
#endif

/* Registers a test with a description. */
#define UNIT_TEST_REGISTER(name, descr) static unit_test_t unit_test_##name = {descr, unit_test_success, 0, 0, 0, __FILE__}

/* Begins the function of a test. */
#define UNIT_TEST(name) static void unit_test_function_##name(unit_test_t *utp)

/* The first and the last statement of a test. */
#define UNIT_TEST_BEGIN()            \
  do {                               \
    utp->start = UNIT_TEST_NOW();    \
    utp->end = utp->start;           \
    utp->result = unit_test_success; \
  } while(0)
#define UNIT_TEST_END() \
  UNIT_TEST_SUCCEED();  \
  unit_test_end:        \
  utp->end = UNIT_TEST_NOW()

/* Ends a test, which succeeds or fails. */
#define UNIT_TEST_SUCCEED()          \
  do {                               \
    utp->exit_line = __LINE__;       \
    utp->result = unit_test_success; \
    goto unit_test_end;              \
  } while(0)
#define UNIT_TEST_FAIL()             \
  do {                               \
    utp->exit_line = __LINE__;       \
    utp->result = unit_test_failure; \
    goto unit_test_end;              \
  } while(0)

/* Fails where the expression is 0. */
#define UNIT_TEST_ASSERT(expr) \
  do {                         \
    if(!(expr)) {              \
      UNIT_TEST_FAIL();        \
    }                          \
  } while(0)

/* Runs a test, and prints the report. */
#define UNIT_TEST_RUN(name)                       \
  do {                                            \
    unit_test_function_##name(&unit_test_##name); \
    unit_test_note(&unit_test_##name);            \
    UNIT_TEST_PRINT_REPORT(name);                 \
  } while(0)

/* Prints the report of a test that ran, and returns whether it succeeded. */
#define UNIT_TEST_PRINT_REPORT(name) UNIT_TEST_PRINT_FUNCTION(&unit_test_##name)
#define UNIT_TEST_PASSED(name) (unit_test_##name.result == unit_test_success)

/* The report that is printed unless the program has another one. */
void unit_test_print_report(const unit_test_t *utp);

void UNIT_TEST_PRINT_FUNCTION(const unit_test_t *utp);

/* An addition of this project: counts a test that ran, and reports one that failed on standard error. */
void unit_test_note(const unit_test_t *utp);

/* The number of tests that ran, and of those that failed. */
unsigned unit_test_runs(void);
unsigned unit_test_failures(void);

#ifdef __cplusplus
}
#endif

#endif
