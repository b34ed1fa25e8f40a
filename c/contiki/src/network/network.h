/*
 * A network: many motes in one process. A program is a shared object with its own driver, and each mote has its own static data. The
 * command has what all motes share: the library, the transcript, signals. The two structs below are the interface between both.
 */
#ifndef NETWORK_H_
#define NETWORK_H_

#include "../linux/linux.h"

/* The functions of the command for a program. */
struct network_host {
  bool (*next_turn)(struct toarmuts_turn *turn);
  uint32_t (*answer_turn)(const struct toarmuts_call *call);
  clock_time_t (*clock_now)(void);
  uint64_t (*shown_lines)(void);
  void (*flush_console)(void);
  CC_NORETURN void (*stop)(const char *what);
  CC_NORETURN void (*give_up)(int status, const char *what);
};

/* The functions of a program for the command, for the mote whose static data is in place. */
struct network_program {
  /* Becomes the mote of this number, of a network with this longest delay of its links; returns the number of its processes. */
  unsigned (*join)(const struct network_host *host, uint16_t number, clock_time_t longest_delay, const void *stack);
  void (*run_activation)(const struct toarmuts_turn *turn);
  const struct toarmuts_turn *(*mote_call)(const struct toarmuts_call *call);
  struct activation **activation;
  /* Its static data. If it isn't gathered, both are NULL, and each mote needs a copy of the shared object. */
  char *data, *data_end;
};

/* The one name by which the command finds a program in its shared object. */
#define NETWORK_PROGRAM contiki_network_program

#pragma GCC visibility push(hidden)

/* setup.c: what the first file says. */
struct network_setup {
  struct toarmuts_network_sizes sizes;
  struct toarmuts_network_mote *motes;
  const char **programs; /* for each mote the names of its sources */
  uint64_t *lines;       /* for each mote the number of its line */
  size_t mote_count;
  struct toarmuts_link *links;
  size_t link_count, link_room;
};

/* Why a mote's line is malformed, if it can't boot with these sizes and its processes. */
#define NO_SIZES "malformed: no mote has these sizes"

/* Reads a line, and changes it; NULL, or why it is malformed. */
const char *take_setup_line(struct network_setup *setup, uint64_t number, char *line);

/* Cuts the first word off a text, up to a space. NULL if nothing is left. */
char *cut_word(char **text);

/* Reads digits, with no 0 in front of another one, as a number below 2^32. */
bool read_number(const char *text, uint32_t *number);

/* As `realloc` of a number of items of one size. */
void *take_room(void *bytes, size_t count, size_t size);

/* main.c: the run ends at a malformed line of the first file. */
CC_NORETURN void end_at_bad_setup(uint64_t number, const char *why);

/* motes.c */
void add_program(const char *sources, const char *file);
bool is_program(const char *sources);
void make_motes(struct network_setup *setup, const char *copies, const void *stack);
void open_network(const struct network_setup *setup);
void run_network(void);
void tick_network(uint32_t ticks);
void feed_mote(uint32_t mote, uint32_t kind, const uint8_t *bytes, size_t length);

#pragma GCC visibility pop

#endif
