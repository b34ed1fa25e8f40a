/*
 * IPv6: addresses, and what programs use of uip.h. A mote's addresses end in its link-layer address, with the bit for "universal" flipped
 * (RFC 4291, appendix A): mote 2 is fe80::202:2:2:2, and fd00::202:2:2:2 in the network of a root.
 */
#ifndef UIP_H_
#define UIP_H_

#include <stdbool.h>
#include <stdint.h>
#include <string.h>

#include "net/ipv6/uipopt.h"
#include "net/linkaddr.h"

typedef union uip_ip6addr_t {
  uint8_t u8[16];
  uint16_t u16[8];
} uip_ip6addr_t;

typedef uip_ip6addr_t uip_ipaddr_t;

typedef struct uip_802154_longaddr {
  uint8_t addr[LINKADDR_SIZE];
} uip_lladdr_t;

/* The mote's link-layer address. */
extern uip_lladdr_t uip_lladdr;

#define UIP_LLADDR_LEN LINKADDR_SIZE
#define UIP_LLH_LEN 0

/* Lengths of headers. UIP_BUFSIZE, the longest packet, is a setting (uipopt.h). */
#define UIP_IPH_LEN 40
#define UIP_UDPH_LEN 8
#define UIP_IPUDPH_LEN (UIP_IPH_LEN + UIP_UDPH_LEN)
#define UIP_ICMPH_LEN 4

#define UIP_PROTO_HBHO 0
#define UIP_PROTO_UDP 17
#define UIP_PROTO_ROUTING 43
#define UIP_PROTO_FRAG 44
#define UIP_PROTO_ICMP6 58
#define UIP_PROTO_NONE 59
#define UIP_PROTO_DESTO 60

/* A number between the host's order of bytes and the network's, the high byte first. */
#if __BYTE_ORDER__ == __ORDER_LITTLE_ENDIAN__
#define UIP_HTONS(n) ((uint16_t)((((uint16_t)(n)) << 8) | (((uint16_t)(n)) >> 8)))
#define UIP_HTONL(n) (((uint32_t)UIP_HTONS(n) << 16) | UIP_HTONS((uint32_t)(n) >> 16))
#else
#define UIP_HTONS(n) (n)
#define UIP_HTONL(n) (n)
#endif
static inline uint16_t
uip_htons(uint16_t val)
{
  return UIP_HTONS(val);
}
static inline uint32_t
uip_htonl(uint32_t val)
{
  return UIP_HTONL(val);
}
#define uip_ntohs uip_htons
#define uip_ntohl uip_htonl
#define UIP_NTOHS UIP_HTONS
#define UIP_NTOHL UIP_HTONL

/* Makes an address of eight numbers, or of sixteen bytes. */
#define uip_ip6addr(addr, addr0, addr1, addr2, addr3, addr4, addr5, addr6, addr7) \
  do {                                                                            \
    (addr)->u16[0] = UIP_HTONS(addr0);                                            \
    (addr)->u16[1] = UIP_HTONS(addr1);                                            \
    (addr)->u16[2] = UIP_HTONS(addr2);                                            \
    (addr)->u16[3] = UIP_HTONS(addr3);                                            \
    (addr)->u16[4] = UIP_HTONS(addr4);                                            \
    (addr)->u16[5] = UIP_HTONS(addr5);                                            \
    (addr)->u16[6] = UIP_HTONS(addr6);                                            \
    (addr)->u16[7] = UIP_HTONS(addr7);                                            \
  } while(0)
#define uip_ipaddr uip_ip6addr
#define uip_ip6addr_u8(addr, a0, a1, a2, a3, a4, a5, a6, a7, a8, a9, a10, a11, a12, a13, a14, a15)           \
  do {                                                                                                       \
    *(addr) = (uip_ip6addr_t){.u8 = {a0, a1, a2, a3, a4, a5, a6, a7, a8, a9, a10, a11, a12, a13, a14, a15}}; \
  } while(0)

#define uip_ip6addr_copy(dest, src) (*(dest) = *(src))
#define uip_ipaddr_copy(dest, src) (*(dest) = *(src))
#define uip_ip6addr_cmp(addr1, addr2) (memcmp(addr1, addr2, sizeof(uip_ip6addr_t)) == 0)
#define uip_ipaddr_cmp(addr1, addr2) uip_ip6addr_cmp(addr1, addr2)
#define uip_ipaddr_prefixcmp(addr1, addr2, length) (memcmp(addr1, addr2, (length) >> 3) == 0)

#define uip_create_unspecified(a) uip_ip6addr(a, 0, 0, 0, 0, 0, 0, 0, 0)
#define uip_create_linklocal_allnodes_mcast(a) uip_ip6addr(a, 0xff02, 0, 0, 0, 0, 0, 0, 0x0001)
#define uip_create_linklocal_allrouters_mcast(a) uip_ip6addr(a, 0xff02, 0, 0, 0, 0, 0, 0, 0x0002)
#define uip_create_linklocal_prefix(addr) \
  do {                                    \
    (addr)->u16[0] = UIP_HTONS(0xfe80);   \
    (addr)->u16[1] = 0;                   \
    (addr)->u16[2] = 0;                   \
    (addr)->u16[3] = 0;                   \
  } while(0)

extern const uip_ipaddr_t uip_all_zeroes_addr;
#define uip_is_addr_unspecified(a) uip_ip6addr_cmp(a, &uip_all_zeroes_addr)
#define uip_is_addr_linklocal(a) ((a)->u8[0] == 0xfe && (a)->u8[1] == 0x80)
#define uip_is_addr_mcast(a) ((a)->u8[0] == 0xff)
#define uip_is_addr_mcast_global(a) ((a)->u8[0] == 0xff && ((a)->u8[1] & 0x0f) == 0x0e)

/* What was received, sent and dropped. What is malformed is dropped and counted. */
typedef uint16_t uip_stats_t;

struct uip_stats {
  struct {
    uip_stats_t recv, sent, forwarded, drop;
    uip_stats_t vhlerr;   /* the version isn't 6 */
    uip_stats_t lblenerr; /* a length is wrong */
    uip_stats_t protoerr; /* the next header is unknown */
  } ip;
  struct {
    uip_stats_t recv, sent, drop;
    uip_stats_t typeerr, chkerr;
  } icmp;
  struct {
    uip_stats_t recv, sent, drop;
    uip_stats_t chkerr;
  } udp;
  /* These aren't in Contiki-NG: frames, those that were sent again or were never acknowledged, and what 6LoWPAN could neither expand nor
   * join. */
  struct {
    uip_stats_t recv, sent, drop, again, lost;
  } mac;
  struct {
    uip_stats_t drop;
  } sicslowpan;
};

extern struct uip_stats uip_stat;

#endif
