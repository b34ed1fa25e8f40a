/* What compress.c and expand.c share: the encodings of RFC 6282, and bytes that are written or read in order. */
#ifndef IPHC_H_
#define IPHC_H_

#include "stack.h"

/* The two bytes of IPHC (section 3.1.1). */
enum { IPHC = 0x60, IPHC_MASK = 0xe0, NH = 0x04, CID = 0x80, SAC = 0x40, SAM = 0x30, M = 0x08, DAC = 0x04, DAM = 0x03 };

/* The byte of a next header (sections 4.2 and 4.3). */
enum { NHC_UDP = 0xf0, NHC_UDP_MASK = 0xf8, NHC_NO_CHECKSUM = 4 };
enum { NHC_EXT = 0xe0, NHC_EXT_MASK = 0xf0, NHC_EXT_ID = 0x0e, NHC_EXT_ROUTING = 0x02, NHC_EXT_NH = 0x01 };

/* A write or a read beyond the end fails; such a read gives zeros. */
struct bytes {
  uint8_t *at, *end;
  bool failed;
};

static inline void
put(struct bytes *out, const void *bytes, size_t length)
{
  if((size_t)(out->end - out->at) < length) {
    out->failed = true;
    return;
  }
  memcpy(out->at, bytes, length);
  out->at += length;
}

static inline void
put_byte(struct bytes *out, unsigned byte)
{
  put(out, &(uint8_t){(uint8_t)byte}, 1);
}

static inline void
get(struct bytes *in, void *bytes, size_t length)
{
  memset(bytes, 0, length);
  if((size_t)(in->end - in->at) < length) {
    in->failed = true;
    return;
  }
  memcpy(bytes, in->at, length);
  in->at += length;
}

static inline unsigned
get_byte(struct bytes *in)
{
  uint8_t byte;
  get(in, &byte, 1);
  return byte;
}

/* The end of an address that a link-layer address gives. */
static inline void
iid_of(uint8_t *iid, const linkaddr_t *link)
{
  uip_ipaddr_t address = link_local_of(link);
  memcpy(iid, address.u8 + IID_AT, IID_SIZE);
}

#pragma GCC visibility push(hidden)

/* The prefixes that are left out: that of the link, and context 0. */
extern const uint8_t link_prefix[IID_AT], context_prefix[IID_AT];

/* Writes the compressed headers, or only that of IPv6; returns their length in the packet. */
size_t compress(struct bytes *out, const struct packet *packet, const linkaddr_t *next, bool takes_all);

/* Expands the headers; returns their length in the packet, or 0. Sets the position of UDP's header, or 0. */
size_t expand(struct bytes *in, struct packet *packet, const linkaddr_t *source, const linkaddr_t *destination, size_t *udp_at);

#pragma GCC visibility pop

#endif
