/* nullnet.h: the program's bytes as frames. A program that names NullNet has this module. */
#include "net/nullnet/nullnet.h"

#include "../radio.h"
#include "net/packetbuf.h"

const bool mote_radio_has_one_user = true;

uint8_t *nullnet_buf;
uint16_t nullnet_len;

static nullnet_input_callback input_callback;

static void
take_frame(const uint8_t *frame, size_t length, size_t header)
{
  input_callback(frame + header, (uint16_t)(length - header), packetbuf_addr(PACKETBUF_ADDR_SENDER),
                 packetbuf_addr(PACKETBUF_ADDR_RECEIVER));
}

void
nullnet_set_input_callback(nullnet_input_callback callback)
{
  input_callback = callback;
  mote_radio_set_callback(callback == NULL ? NULL : take_frame);
}

static uint8_t
output(const linkaddr_t *localdest)
{
  return mote_radio_send_bytes(localdest, nullnet_buf, nullnet_buf == NULL ? 0 : nullnet_len);
}

/* The network exists from the start, and frames arrive as events of the mote. */
static void
do_nothing(void)
{
}

const struct network_driver nullnet_driver = {"nullnet", do_nothing, do_nothing, output};
