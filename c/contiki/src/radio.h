/*
 * What the layers above the radio use of it: NullNet (modules/nullnet.c), and IPv6 (ipv6). A program has at most one of them. Each is
 * linked with the program only if it is used, so these names, unlike those of the driver, are visible to the program.
 */
#ifndef RADIO_H_
#define RADIO_H_

#include <stdbool.h>
#include <stddef.h>
#include <stdint.h>

#include "net/linkaddr.h"
#include "sys/clock.h"

/* The callback for a frame that is for this mote or for all. The length of its header is 0 if it has none. packetbuf.h has both
 * addresses. */
typedef void (*radio_callback)(const uint8_t *frame, size_t length, size_t header);

/* Sets the callback. The process that calls this first receives the frames from then on, and the callback runs within its activations. */
void mote_radio_set_callback(radio_callback callback);

/* From now on the mote's frames are of IEEE 802.15.4-2015, and others have no header for it. */
void mote_radio_use_2015(void);

/* Writes the header of the mote's next frame, for all where the receiver is NULL or linkaddr_null; returns its length. */
size_t mote_radio_write_header(uint8_t *header, const linkaddr_t *to);

/* Sends a frame; false if managed memory has no room for it. */
bool mote_radio_send(const uint8_t *frame, size_t length);

/* The same with a header before the bytes, if the mote is in a network. Ends the program if there are too many, or none. */
bool mote_radio_send_bytes(const linkaddr_t *to, const uint8_t *bytes, size_t length);

/* The ticks after which a reply to a frame has arrived: twice the longest delay of the network's links. */
clock_time_t mote_radio_round_trip(void);

/* clock_time without a call of the mote, and so without a line in the transcript. */
clock_time_t mote_radio_clock(void);

/* A program with NullNet and one with IPv6 both define this, so that the linker refuses a program that has both. */
extern const bool mote_radio_has_one_user;

#endif
