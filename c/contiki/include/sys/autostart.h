/* The processes that are started with the program, in this order. */
#ifndef AUTOSTART_H_
#define AUTOSTART_H_

#include "sys/process.h"

extern struct process *const autostart_processes[];

/* The processes of modules that a Makefile names in MODULES: they are started first. */
#if BUILD_WITH_SIMPLE_ENERGEST
PROCESS_NAME(simple_energest_process);
#define AUTOSTART_SIMPLE_ENERGEST &simple_energest_process,
#else
#define AUTOSTART_SIMPLE_ENERGEST
#endif
#if BUILD_WITH_SHELL
PROCESS_NAME(serial_shell_process);
#define AUTOSTART_SHELL &serial_shell_process,
#else
#define AUTOSTART_SHELL
#endif

/* 0 in a program with several sources that each have AUTOSTART_PROCESSES, and with its own list. */
#ifndef AUTOSTART_ENABLE
#define AUTOSTART_ENABLE 1
#endif

#if AUTOSTART_ENABLE
#define AUTOSTART_PROCESSES(...) struct process *const autostart_processes[] = {AUTOSTART_SIMPLE_ENERGEST AUTOSTART_SHELL __VA_ARGS__, NULL}
#else
#define AUTOSTART_PROCESSES(...) extern struct process *const autostart_processes[]
#endif

/* Starts the processes of a list, or ends them. The program's list is started without this. */
void autostart_start(struct process *const processes[]);
void autostart_exit(struct process *const processes[]);

#endif
