/*
 * Steps of a mote or a network in one call: the call that a turn awaits is submitted, or lines of a script are executed, and it works on to
 * the next turn or to rest.
 */
#ifndef ADVANCE_H
#define ADVANCE_H

#include "toarmuts.h"

/* The bytes that a line may need, with its end. */
#define MOST_OF_A_LINE 661

/* The lines that steps made, each with its line end, and what came next. */
struct advance {
  uint32_t status;    /* of the first call that was refused, or STACK_TOO_SMALL of stack.h; otherwise TOARMUTS_DONE */
  uint32_t step;      /* enum toarmuts_step, where status is TOARMUTS_DONE; TOARMUTS_ENTRY: work is left, and no room for another line */
  uint32_t submitted; /* whether the call was taken */
  uint32_t length;    /* of the lines */
  struct toarmuts_turn turn;
  uint32_t mote; /* of a network: whose turn was the last one */
  uint32_t unused;
  uint64_t executed; /* of a network: the bytes of the script whose lines were executed, with their line ends */
  uint8_t lines[4096];
};

/* Submits a call, unless its kind is 0, and works to the next turn, to rest or to the halt, or until the lines fill the room. */
void advance_mote(struct toarmuts_mote *mote, const struct toarmuts_call *call, struct advance *advance);
void advance_network(struct toarmuts_network *network, const struct toarmuts_call *call, struct advance *advance);

/* The same, where a bundled application makes the call. */
void advance_mote_bundled(struct toarmuts_mote *mote, struct toarmuts_application *application, struct advance *advance);
void advance_network_bundled(struct toarmuts_network *network, struct toarmuts_application *application, struct advance *advance);

/* Executes the lines of a script from this offset on, each to rest, up to the next turn or the halt, until the lines that were made fill
 * the room, or until MOST_INPUTS inputs were executed, so that the caller can look at signals. Each line has its line end. BAD_LINE where
 * the line after those that were executed is malformed, or for a mote that there isn't. */
#define MOST_INPUTS 1000
void advance_network_script(struct toarmuts_network *network, const uint8_t *script, uint64_t first, uint64_t length,
                            struct advance *advance);

/* toarmuts_network_open and all its links, and the status STACK_TOO_SMALL. A network with a link that is refused is closed. */
uint32_t open_network(const struct toarmuts_network_sizes *sizes, const struct toarmuts_network_mote *motes, uint64_t count,
                      const struct toarmuts_link *links, uint64_t links_count, struct toarmuts_network *network);

#endif
