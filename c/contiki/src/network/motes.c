/*
 * The motes of a network, and their turns. A mote rests before another one works, so none of its activations is on the stack then, and
 * its state is only its static data. The motes of a program share one copy of it, in which the data of the one that works is put. With
 * the sanitizers, which know the address of each variable, each mote has a copy of the shared object instead.
 */
#define _GNU_SOURCE
#include "network.h"

#include <dlfcn.h>
#include <setjmp.h>
#include <signal.h>
#include <stdlib.h>

/* A program, by the names of its sources. */
struct program {
  const char *sources, *file;
  struct copy *copy; /* the one of all its motes, or NULL */
};

/* A shared object in memory, and the mote whose data is in place. */
struct copy {
  const struct network_program *program;
  struct mote *holder;
};

struct mote {
  struct copy *copy;
  char *data; /* stored here while another mote's is in place */
};

static struct program *programs;
static size_t program_count;
static struct mote *motes;
static size_t mote_count;
static struct toarmuts_network network;
static struct toarmuts_happening happening;

/* The mote whose data is in place, and its number; NULL and 0 before there is one. */
static struct mote *present;
static unsigned present_number;

const struct process *last_process;

/* Whether a call of the library runs, or its result is being shown. */
static volatile sig_atomic_t is_at_work;

/* Where to jump when a mote halts within an activation. */
static jmp_buf left;

void *
take_room(void *bytes, size_t count, size_t size)
{
  void *room = reallocarray(bytes, count, size);
  if(room == NULL && count > 0) {
    give_up(STATUS_NO_MEMORY, "out of memory");
  }
  return room;
}

/* Programs. */

void
add_program(const char *sources, const char *file)
{
  programs = take_room(programs, program_count + 1, sizeof *programs);
  programs[program_count++] = (struct program){.sources = sources, .file = file};
}

static struct program *
program_of(const char *sources)
{
  size_t i = 0;
  while(i < program_count && strcmp(programs[i].sources, sources) != 0) {
    i++;
  }
  return i == program_count ? NULL : &programs[i];
}

bool
is_program(const char *sources)
{
  return program_of(sources) != NULL;
}

static struct copy *
load(const char *file)
{
  void *object = dlopen(file, RTLD_NOW | RTLD_LOCAL);
  struct copy *copy = take_room(NULL, 1, sizeof *copy);
  if(object == NULL) {
    give_up(STATUS_NO_LIBRARY, "%s", dlerror());
  }
  *copy = (struct copy){dlsym(object, "contiki_network_program"), NULL};
  if(copy->program == NULL) {
    give_up(STATUS_NO_LIBRARY, "%s", dlerror());
  }
  return copy;
}

static void
copy_file(const char *from, const char *to)
{
  static char part[1 << 16];
  FILE *in = fopen(from, "r"), *out = fopen(to, "w");
  size_t length;
  bool is_done = in != NULL && out != NULL;
  while(is_done && (length = fread(part, 1, sizeof part, in)) > 0) {
    is_done = fwrite(part, 1, length, out) == length;
  }
  if(!is_done || ferror(in) || fclose(in) != 0 || fclose(out) != 0) {
    give_up(STATUS_WRITE_FAILED, "%s can't be copied to %s", from, to);
  }
}

/* The copy of a program for a mote: that of all its motes, or, if there is a folder for copies, a separate one. */
static struct copy *
copy_for(struct program *program, size_t number, const char *copies)
{
  char *file;
  struct copy *copy;
  if(copies == NULL) {
    if(program->copy == NULL) {
      program->copy = load(program->file);
    }
    return program->copy;
  }
  if(asprintf(&file, "%s/%zu.so", copies, number) < 0) {
    give_up(STATUS_NO_MEMORY, "out of memory");
  }
  copy_file(program->file, file);
  copy = load(file);
  free(file);
  return copy;
}

/* Switches. */

static size_t
data_size(const struct copy *copy)
{
  return (size_t)(copy->program->data_end - copy->program->data);
}

/* Puts a mote's data in place. */
static void
switch_to(unsigned number)
{
  struct mote *mote = &motes[number - 1];
  struct copy *copy = mote->copy;
  if(copy->holder != mote) {
    memcpy(copy->holder->data, copy->program->data, data_size(copy));
    memcpy(copy->program->data, mote->data, data_size(copy));
    copy->holder = mote;
  }
  present = mote;
  present_number = number;
}

/* Initialises a mote's data, as its program has it at the start. */
static void
make_mote(struct mote *mote, struct copy *copy)
{
  mote->copy = copy;
  mote->data = NULL;
  if(copy->program->data != NULL) {
    mote->data = take_room(NULL, 1, data_size(copy));
    memcpy(mote->data, copy->program->data, data_size(copy));
  }
  if(copy->holder == NULL) {
    copy->holder = mote;
  }
}

unsigned
present_mote(void)
{
  return present_number;
}

static inline const struct activation *
activation_of(const struct mote *mote)
{
  return *mote->copy->program->activation;
}

const struct activation *
present_activation(void)
{
  return present == NULL ? NULL : activation_of(present);
}

const struct toarmuts_turn *
mote_call(const struct toarmuts_call *call)
{
  return present->copy->program->mote_call(call);
}

/* The network, asked step by step. */

void
close_mote(void)
{
  toarmuts_network_close(&network);
}

clock_time_t
clock_now(void)
{
  return happening.clock;
}

uint32_t
last_line(uint8_t *line, size_t room, uint64_t *length)
{
  return toarmuts_network_line(&network, line, room, length);
}

uint32_t
answer_turn(const struct toarmuts_call *call)
{
  uint32_t status;
  is_at_work = 1;
  status = toarmuts_network_submit(&network, call);
  if(status == 0) {
    last_process = activation_of(present)->process;
    show_turn(call);
  }
  is_at_work = 0;
  return status;
}

void
make_last_call(const struct toarmuts_call *call)
{
  if(present_activation() != NULL && !is_at_work) {
    answer_turn(call);
  }
}

/* An entry that is no turn. A mote that halts is reported, and its activation, if it is in one, is left. */
static void
take_entry(void)
{
  if(show_entry_of(happening.mote)) {
    switch_to(happening.mote);
    flush_transcript();
    tell_halt();
    if(present_activation() != NULL) {
      longjmp(left, 1);
    }
  }
}

/* The last input took all its rounds. */
static CC_NORETURN void
end_exhausted(void)
{
  present_number = 0;
  present = NULL;
  show_halt();
  flush_transcript();
  fputs("contiki: the last line took all its rounds: `rounds N` sets how many it may take\n", stderr);
  finish(STATUS_HALTED);
}

/* Works on to the next turn; other entries are shown. False at rest. */
static bool
next_happening(struct toarmuts_turn *turn)
{
  for(;;) {
    uint32_t status;
    is_at_work = 1;
    status = toarmuts_network_next(&network, &happening, turn);
    is_at_work = 0;
    if(status != 0) {
      stop("the network gives no turn: status %u", status);
    }
    switch(happening.step) {
    case TOARMUTS_NETWORK_TURN:
      return true;
    case TOARMUTS_NETWORK_ENTRY:
      take_entry();
      break;
    case TOARMUTS_NETWORK_REST:
      return false;
    case TOARMUTS_NETWORK_EXHAUSTED:
      end_exhausted();
    default:
      show_network_line();
      break;
    }
  }
}

/* Leaves a halted mote's activations, perhaps within a print. */
static void
leave_activations(void)
{
  *present->copy->program->activation = NULL;
  renew_console();
}

/* Works until nothing happens without a further input. */
void
run_network(void)
{
  struct toarmuts_turn turn;
  if(setjmp(left) != 0) {
    leave_activations();
  }
  while(next_happening(&turn)) {
    switch_to(happening.mote);
    speak_for(happening.mote);
    present->copy->program->run_activation(&turn);
  }
  present = NULL;
  present_number = 0;
}

/* The functions that programs call. */

static CC_NORETURN void
stop_with(const char *what)
{
  stop("%s", what);
}

static CC_NORETURN void
give_up_with(int status, const char *what)
{
  give_up(status, "%s", what);
}

static const struct network_host host = {
  next_happening, answer_turn, clock_now, shown_lines, flush_console, stop_with, give_up_with,
};

/* Inputs, and the start. */

static clock_time_t
longest_delay(const struct network_setup *setup)
{
  clock_time_t longest = 0;
  for(size_t i = 0; i < setup->link_count; i++) {
    longest = MAX(longest, setup->links[i].delay);
  }
  return longest;
}

/* Makes the motes that are set up, each by the program that it runs, and notes the number of their processes. */
void
make_motes(struct network_setup *setup, const char *copies, const void *stack)
{
  clock_time_t longest = longest_delay(setup);
  mote_count = setup->mote_count;
  motes = take_room(NULL, mote_count, sizeof *motes);
  for(size_t i = 0; i < mote_count; i++) {
    make_mote(&motes[i], copy_for(program_of(setup->programs[i]), i + 1, copies));
  }
  for(size_t i = 0; i < mote_count; i++) {
    switch_to((unsigned)i + 1);
    setup->motes[i].applications = present->copy->program->join(&host, (uint16_t)(i + 1), longest, stack);
  }
}

/* The first mote that can't boot with its sizes and this number of processes. */
static size_t
first_bad_mote(const struct network_setup *setup)
{
  size_t i = 0;
  while(i + 1 < mote_count) {
    struct toarmuts_mote mote = {0};
    if(toarmuts_open(&setup->motes[i].configuration, setup->motes[i].applications, &mote) == TOARMUTS_BAD_SIZES) {
      break;
    }
    toarmuts_close(&mote);
    i++;
  }
  return i;
}

/* Boots the motes, and links them. The line of a mote that can't be booted is malformed. */
void
open_network(const struct network_setup *setup)
{
  static const struct toarmuts_network_mote none;
  const struct toarmuts_network_mote *all = mote_count == 0 ? &none : setup->motes;
  uint32_t status = toarmuts_network_open(&setup->sizes, all, mote_count, &network);
  present = NULL;
  present_number = 0;
  for(size_t i = 0; status == 0 && i < setup->link_count; i++) {
    status = toarmuts_network_link(&network, &setup->links[i]);
  }
  switch(status) {
  case 0:
    return;
  case TOARMUTS_BAD_SIZES:
    end_at_bad_setup(setup->lines[first_bad_mote(setup)], NO_SIZES);
  case TOARMUTS_OUT_OF_MEMORY:
    give_up(STATUS_NO_MEMORY, "out of memory");
  default:
    stop("the network can't be made: status %u", status);
  }
}

static void
check_input(uint32_t status)
{
  if(status != 0) {
    stop("the network accepts no more inputs");
  }
}

void
tick_network(uint32_t ticks)
{
  check_input(toarmuts_network_tick(&network, ticks));
}

void
feed_mote(uint32_t mote, uint32_t kind, const uint8_t *bytes, size_t length)
{
  check_input(toarmuts_network_feed(&network, mote, kind, bytes, length));
}
