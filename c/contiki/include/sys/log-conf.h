/* The settings of log.h. A program's project-conf.h may set others. */
#ifndef LOG_CONF_H_
#define LOG_CONF_H_

#include "contiki-conf.h"
#include "sys/log-levels.h"

#ifdef LOG_CONF_LEVEL_MAIN
#define LOG_LEVEL_MAIN LOG_CONF_LEVEL_MAIN
#else
#define LOG_LEVEL_MAIN LOG_LEVEL_INFO
#endif

#ifndef LOG_LEVEL_APP
#ifdef LOG_CONF_LEVEL_APP
#define LOG_LEVEL_APP LOG_CONF_LEVEL_APP
#else
#define LOG_LEVEL_APP LOG_LEVEL_INFO
#endif
#endif

/* Whether a line begins with its level and module. */
#ifdef LOG_CONF_WITH_MODULE_PREFIX
#define LOG_WITH_MODULE_PREFIX LOG_CONF_WITH_MODULE_PREFIX
#else
#define LOG_WITH_MODULE_PREFIX 1
#endif

/* Whether it has file and line, too. */
#ifdef LOG_CONF_WITH_LOC
#define LOG_WITH_LOC LOG_CONF_WITH_LOC
#else
#define LOG_WITH_LOC 0
#endif

/* Whether only the last two bytes of an address are printed. */
#ifdef LOG_CONF_WITH_COMPACT_ADDR
#define LOG_WITH_COMPACT_ADDR LOG_CONF_WITH_COMPACT_ADDR
#else
#define LOG_WITH_COMPACT_ADDR 0
#endif

/* Whether LOG_ANNOTATE prints. */
#ifdef LOG_CONF_WITH_ANNOTATE
#define LOG_WITH_ANNOTATE LOG_CONF_WITH_ANNOTATE
#else
#define LOG_WITH_ANNOTATE 0
#endif

#ifdef LOG_CONF_OUTPUT
#define LOG_OUTPUT(...) LOG_CONF_OUTPUT(__VA_ARGS__)
#else
#define LOG_OUTPUT(...) printf(__VA_ARGS__)
#endif

#ifdef LOG_CONF_OUTPUT_PREFIX
#define LOG_OUTPUT_PREFIX(level, levelstr, module) LOG_CONF_OUTPUT_PREFIX(level, levelstr, module)
#else
#define LOG_OUTPUT_PREFIX(level, levelstr, module) LOG_OUTPUT("[%-4s: %-10s] ", levelstr, module)
#endif

#endif
