/*
 * The calls of toarmuts.h that need much stack. Each is refused where the thread has too little left, in place of a crash.
 */
#ifndef STACK_H
#define STACK_H

#include "toarmuts.h"

/* A status beside those of toarmuts.h: nothing was done, since the stack has too little room. */
#define STACK_TOO_SMALL 64

/* The bytes of stack that a whole run, or a step of a mote or a network, may need: measured 232 and 158 KiB, and room for a signal's
 * handler. */
#define STACK_OF_A_RUN (240 * 1024)
#define STACK_OF_A_STEP (168 * 1024)

/* Whether the calling thread has this number of bytes of stack left. Of a stack that isn't the thread's own, such as a context's, that is
 * unknown, and taken for granted. */
int has_stack(size_t bytes);

/* toarmuts_run, toarmuts_open, toarmuts_feed and toarmuts_feed_input, and the status STACK_TOO_SMALL. */
void run_mote(const struct toarmuts_configuration *configuration, const uint8_t *applications, size_t applications_length,
              const uint8_t *script, size_t script_length, uint8_t *transcript, size_t room, struct toarmuts_outcome *outcome);
uint32_t open_mote(const struct toarmuts_configuration *configuration, uint32_t applications, struct toarmuts_mote *mote);
uint32_t feed_line(struct toarmuts_mote *mote, const uint8_t *line, size_t length);
uint32_t feed_input(struct toarmuts_mote *mote, uint32_t kind, uint32_t ticks, const uint8_t *bytes, size_t length);

#endif
