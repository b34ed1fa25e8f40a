/* Attributes of the last frame that arrived, for callbacks of NullNet. */
#ifndef PACKETBUF_H_
#define PACKETBUF_H_

#include <stdint.h>

#include "net/linkaddr.h"
#include "sys/cc.h"

typedef uint16_t packetbuf_attr_t;

enum {
  PACKETBUF_ATTR_NONE,
  PACKETBUF_ATTR_LINK_QUALITY, /* always 105 */
  PACKETBUF_ATTR_RSSI,         /* always -60, as an int16_t */
  PACKETBUF_ADDR_SENDER,
  PACKETBUF_ADDR_RECEIVER /* linkaddr_null where the frame is for all */
};

/* Another attribute is 0. */
packetbuf_attr_t packetbuf_attr(uint8_t type);

/* If the frame has no header, and before the first frame, both are linkaddr_null. */
const linkaddr_t *packetbuf_addr(uint8_t type);

CC_REFUSED("send by net/nullnet/nullnet.h: nullnet_buf and nullnet_len") int packetbuf_copyfrom(const void *from, uint16_t len);
CC_REFUSED("send by net/nullnet/nullnet.h: nullnet_buf and nullnet_len") void packetbuf_clear(void);
CC_REFUSED("the mote sets the attributes of frames") int packetbuf_set_attr(uint8_t type, packetbuf_attr_t val);
CC_REFUSED("the callback of net/nullnet/nullnet.h receives the bytes") void *packetbuf_dataptr(void);
CC_REFUSED("the callback of net/nullnet/nullnet.h receives the length") uint16_t packetbuf_datalen(void);

#endif
