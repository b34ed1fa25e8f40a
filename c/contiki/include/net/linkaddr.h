/* Link-layer addresses. The frames of a network carry them; those of a single mote don't. */
#ifndef LINKADDR_H_
#define LINKADDR_H_

#include <stdbool.h>
#include <stdint.h>

#if defined(LINKADDR_CONF_SIZE) && LINKADDR_CONF_SIZE != 8
#pragma message "addresses have 8 bytes: LINKADDR_CONF_SIZE changes nothing"
#endif
#define LINKADDR_SIZE 8

typedef union {
  unsigned char u8[LINKADDR_SIZE];
  uint16_t u16[LINKADDR_SIZE / 2];
} linkaddr_t;

/* The mote's address: its number four times, so 0001.0001.0001.0001 without a network. And the address that means all. */
extern linkaddr_t linkaddr_node_addr;
extern const linkaddr_t linkaddr_null;

void linkaddr_copy(linkaddr_t *dest, const linkaddr_t *from);

/* Whether both are the same. */
bool linkaddr_cmp(const linkaddr_t *addr1, const linkaddr_t *addr2);

void linkaddr_set_node_addr(linkaddr_t *addr);

#endif
