/* A process that prints what energest.h counts, each minute. A Makefile with simple-energest in MODULES starts it with the program. */
#ifndef SIMPLE_ENERGEST_H_
#define SIMPLE_ENERGEST_H_

#include "sys/process.h"

PROCESS_NAME(simple_energest_process);

/* Starts the process. */
void simple_energest_init(void);

/* Prints the times since the last call, or since the process was started. */
void simple_energest_step(void);

#endif
