/* The levels of log.h alone, for headers that must not fix its settings. */
#ifndef LOG_LEVELS_H_
#define LOG_LEVELS_H_

#define LOG_LEVEL_NONE 0
#define LOG_LEVEL_ERR 1
#define LOG_LEVEL_WARN 2
#define LOG_LEVEL_INFO 3
#define LOG_LEVEL_DBG 4

#endif
