/*
 * The content of a platform's contiki-conf.h: the types of the clock, and the settings of a program's project-conf.h.
 */
#ifndef CONTIKI_CONF_H
#define CONTIKI_CONF_H

#include <inttypes.h>
#include <stdbool.h>
#include <stddef.h>
#include <stdint.h>
#include <stdio.h>
#include <string.h>

#ifdef PROJECT_CONF_PATH
#include PROJECT_CONF_PATH
#elif defined(__has_include)
#if __has_include("project-conf.h")
#include "project-conf.h"
#endif
#endif

/* Ticks a second, the ticks of a script. */
#ifndef CLOCK_CONF_SECOND
#define CLOCK_CONF_SECOND 128
#endif

/* Ticks. */
typedef unsigned long clock_time_t;
#define CLOCK_PRI "lu"

#endif
