/*
 * The lines of a network's script (docs/network.md, 'The script') that are inputs.
 */
#ifndef NETWORK_SCRIPT_H
#define NETWORK_SCRIPT_H

#include <stdbool.h>
#include <stddef.h>
#include <stdint.h>

/* The most bytes of a line, and of an input on a serial line. */
#define MOST_OF_A_SCRIPT_LINE 1024
#define MOST_OF_SERIAL 256
#define MOST_OF_A_FRAME 127

/* What a line says. */
enum network_line {
  NETWORK_LINE_NOTHING, /* an empty line, or a comment */
  NETWORK_LINE_TICK,
  NETWORK_LINE_BYTES, /* bytes come in at a mote */
  NETWORK_LINE_MALFORMED
};

/* An input. What has no meaning for its line is unchanged. */
struct network_input {
  uint32_t ticks;
  uint32_t mote; /* not 0; the network may have fewer */
  uint32_t kind; /* as toarmuts_network_feed takes it */
  uint32_t length;
  uint8_t bytes[MOST_OF_SERIAL];
};

/* Reads a line without its line end. */
enum network_line read_network_line(const uint8_t *line, size_t length, struct network_input *input);

#endif
