#ifndef PROJECT_CONF_H_
#define PROJECT_CONF_H_

#define UNIT_TEST_PRINT_FUNCTION print_test_report

#endif
