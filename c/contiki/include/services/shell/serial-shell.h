/* The shell on the serial line. A Makefile with shell in MODULES starts it with the program. */
#ifndef SERIAL_SHELL_H_
#define SERIAL_SHELL_H_

#include "services/shell/shell.h"
#include "sys/process.h"

PROCESS_NAME(serial_shell_process);

/* Starts the process. */
void serial_shell_init(void);

#endif
