/*
 * Logging. A source defines LOG_MODULE, a text, and LOG_LEVEL; messages of that level or below are printed. A macro whose name
 * ends with _ continues a line.
 */
#ifndef LOG_H_
#define LOG_H_

#include <stdio.h>

#include "net/ipv6/uiplib.h"
#include "net/linkaddr.h"
#include "sys/cc.h"
#include "sys/log-conf.h"

#define LOG(newline, level, levelstr, ...)                \
  do {                                                    \
    if((level) <= (LOG_LEVEL)) {                          \
      if(newline) {                                       \
        if(LOG_WITH_MODULE_PREFIX) {                      \
          LOG_OUTPUT_PREFIX(level, levelstr, LOG_MODULE); \
        }                                                 \
        if(LOG_WITH_LOC) {                                \
          LOG_OUTPUT("[%s: %d] ", __FILE__, __LINE__);    \
        }                                                 \
      }                                                   \
      LOG_OUTPUT(__VA_ARGS__);                            \
    }                                                     \
  } while(0)

#define LOG_LLADDR(level, lladdr)   \
  do {                              \
    if((level) <= (LOG_LEVEL)) {    \
      if(LOG_WITH_COMPACT_ADDR) {   \
        log_lladdr_compact(lladdr); \
      } else {                      \
        log_lladdr(lladdr);         \
      }                             \
    }                               \
  } while(0)

#define LOG_6ADDR(level, ipaddr)   \
  do {                             \
    if((level) <= (LOG_LEVEL)) {   \
      if(LOG_WITH_COMPACT_ADDR) {  \
        log_6addr_compact(ipaddr); \
      } else {                     \
        log_6addr(ipaddr);         \
      }                            \
    }                              \
  } while(0)

#define LOG_BYTES(level, data, length) \
  do {                                 \
    if((level) <= (LOG_LEVEL)) {       \
      log_bytes(data, length);         \
    }                                  \
  } while(0)

#define LOG_PRINT(...) LOG(1, 0, "PRI", __VA_ARGS__)
#define LOG_ERR(...) LOG(1, LOG_LEVEL_ERR, "ERR", __VA_ARGS__)
#define LOG_WARN(...) LOG(1, LOG_LEVEL_WARN, "WARN", __VA_ARGS__)
#define LOG_INFO(...) LOG(1, LOG_LEVEL_INFO, "INFO", __VA_ARGS__)
#define LOG_DBG(...) LOG(1, LOG_LEVEL_DBG, "DBG", __VA_ARGS__)

#define LOG_PRINT_(...) LOG(0, 0, "PRI", __VA_ARGS__)
#define LOG_ERR_(...) LOG(0, LOG_LEVEL_ERR, "ERR", __VA_ARGS__)
#define LOG_WARN_(...) LOG(0, LOG_LEVEL_WARN, "WARN", __VA_ARGS__)
#define LOG_INFO_(...) LOG(0, LOG_LEVEL_INFO, "INFO", __VA_ARGS__)
#define LOG_DBG_(...) LOG(0, LOG_LEVEL_DBG, "DBG", __VA_ARGS__)

#define LOG_PRINT_LLADDR(...) LOG_LLADDR(0, __VA_ARGS__)
#define LOG_ERR_LLADDR(...) LOG_LLADDR(LOG_LEVEL_ERR, __VA_ARGS__)
#define LOG_WARN_LLADDR(...) LOG_LLADDR(LOG_LEVEL_WARN, __VA_ARGS__)
#define LOG_INFO_LLADDR(...) LOG_LLADDR(LOG_LEVEL_INFO, __VA_ARGS__)
#define LOG_DBG_LLADDR(...) LOG_LLADDR(LOG_LEVEL_DBG, __VA_ARGS__)

#define LOG_PRINT_BYTES(data, length) LOG_BYTES(0, data, length)
#define LOG_ERR_BYTES(data, length) LOG_BYTES(LOG_LEVEL_ERR, data, length)
#define LOG_WARN_BYTES(data, length) LOG_BYTES(LOG_LEVEL_WARN, data, length)
#define LOG_INFO_BYTES(data, length) LOG_BYTES(LOG_LEVEL_INFO, data, length)
#define LOG_DBG_BYTES(data, length) LOG_BYTES(LOG_LEVEL_DBG, data, length)

#define LOG_ERR_ENABLED (LOG_LEVEL_ERR <= (LOG_LEVEL))
#define LOG_WARN_ENABLED (LOG_LEVEL_WARN <= (LOG_LEVEL))
#define LOG_INFO_ENABLED (LOG_LEVEL_INFO <= (LOG_LEVEL))
#define LOG_DBG_ENABLED (LOG_LEVEL_DBG <= (LOG_LEVEL))

/* For tools that follow a run. Nothing is printed unless the program's project-conf.h says so. */
#define LOG_ANNOTATE(...)      \
  do {                         \
    if(LOG_WITH_ANNOTATE) {    \
      LOG_OUTPUT(__VA_ARGS__); \
    }                          \
  } while(0)

#define LOG_PRINT_6ADDR(...) LOG_6ADDR(0, __VA_ARGS__)
#define LOG_ERR_6ADDR(...) LOG_6ADDR(LOG_LEVEL_ERR, __VA_ARGS__)
#define LOG_WARN_6ADDR(...) LOG_6ADDR(LOG_LEVEL_WARN, __VA_ARGS__)
#define LOG_INFO_6ADDR(...) LOG_6ADDR(LOG_LEVEL_INFO, __VA_ARGS__)
#define LOG_DBG_6ADDR(...) LOG_6ADDR(LOG_LEVEL_DBG, __VA_ARGS__)
CC_REFUSED("levels are those of the source: define LOG_LEVEL") void log_set_level(const char *module, int level);
CC_REFUSED("levels are those of the source: ask LOG_LEVEL") int log_get_level(const char *module);

/* Prints an address as 0102.0304.0506.0708. These are compiled with the program's source, since it may define LOG_OUTPUT. */
static inline void
log_lladdr(const linkaddr_t *lladdr)
{
  if(lladdr == NULL) {
    LOG_OUTPUT("(NULL LL addr)");
    return;
  }
  for(unsigned i = 0; i < LINKADDR_SIZE; i++) {
    if(i > 0 && i % 2 == 0) {
      LOG_OUTPUT(".");
    }
    LOG_OUTPUT("%02x", lladdr->u8[i]);
  }
}

/* The same as LL-0708; LL-NULL where it is NULL or linkaddr_null. */
static inline void
log_lladdr_compact(const linkaddr_t *lladdr)
{
  if(lladdr == NULL || linkaddr_cmp(lladdr, &linkaddr_null)) {
    LOG_OUTPUT("LL-NULL");
  } else {
    LOG_OUTPUT("LL-%02x%02x", lladdr->u8[LINKADDR_SIZE - 2], lladdr->u8[LINKADDR_SIZE - 1]);
  }
}

/* Prints an IPv6 address as fd00::201:1:1:1. */
static inline void
log_6addr(const uip_ipaddr_t *ipaddr)
{
  char text[UIPLIB_IPV6_MAX_STR_LEN];
  uiplib_ipaddr_snprint(text, sizeof text, ipaddr);
  LOG_OUTPUT("%s", text);
}

/* The same as 6G-0001: 6L for a link-local address, 6M for one of a group. */
static inline void
log_6addr_compact(const uip_ipaddr_t *ipaddr)
{
  if(ipaddr == NULL) {
    LOG_OUTPUT("6A-NULL");
  } else {
    LOG_OUTPUT("6%c-%02x%02x", uip_is_addr_mcast(ipaddr) ? 'M' : uip_is_addr_linklocal(ipaddr) ? 'L' : 'G', ipaddr->u8[14], ipaddr->u8[15]);
  }
}

/* Prints bytes as two hex digits each. */
static inline void
log_bytes(const void *data, size_t length)
{
  const uint8_t *bytes = (const uint8_t *)data;
  for(size_t i = 0; i < length; i++) {
    LOG_OUTPUT("%02x", bytes[i]);
  }
}

#endif
