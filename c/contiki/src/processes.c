/* Processes and events: process.h and autostart.h. */
#include "driver.h"

#include <stdlib.h>

extern const struct process_entry __start_process_entries[] __attribute__((weak));
extern const struct process_entry __stop_process_entries[] __attribute__((weak));
extern struct process *const autostart_processes[] __attribute__((weak));

/* The process of the IPv6 stack, if the program has that (ipv6/tcpip.c). It starts before those of the program. */
extern struct process tcpip_process __attribute__((weak));

struct process *process_current, *process_list;
struct process *processes[MOST_PROCESSES];
unsigned process_count;

/* The number of first processes that aren't started with the program, and which of these the mote has booted. */
static unsigned not_started;
static bool has_booted[MOST_PROCESSES];

/* The data that process_start passes to the INIT event, which follows at once. */
static process_data_t start_data;

/* The processes that run, the one that was started last first. */
static struct process *running[MOST_PROCESSES];
static unsigned running_count;

/* Which processes have ended themselves by process_exit, or ended before, so that the mote's EXITED isn't delivered; and the one whose
 * EXITED is being delivered. */
static bool has_left[MOST_PROCESSES];
static struct process *leaving;

/* The process whose thread has ended, and that stays in the mote since frames or callbacks need its activations; or NULL. */
static struct process *staying;

/* The data that process_start passes to the thread of that one, to start it again; and whether it does so now. */
static bool begins_anew;

/* Which processes were polled and haven't received POLL since. This outlives the end of a process that is started again. */
static bool is_polled[MOST_PROCESSES];

/* Who is who. */

static bool
is_autostarted(const struct process *p)
{
  for(struct process *const *started = autostart_processes; *started != NULL; started++) {
    if(*started == p) {
      return true;
    }
  }
  return false;
}

static void
add_process(struct process *p)
{
  if(p->number != 0) {
    return;
  }
  if(process_count == MOST_PROCESSES) {
    give_up(STATUS_BAD_WORDS, "more than 16 processes");
  }
  p->number = FIRST_PROCESS + process_count;
  processes[process_count++] = p;
}

/* Whether an entry of a process is before another one: by file and line, then by name. */
static bool
is_before(const struct process_entry *left, const struct process_entry *right)
{
  int by_file = strcmp(left->file, right->file), by_line = (left->line > right->line) - (left->line < right->line);
  int by_name = strcmp(left->identifier, right->identifier);
  return by_file != 0 ? by_file < 0 : by_line != 0 ? by_line < 0 : by_name != 0 ? by_name < 0 : left < right;
}

/* The first entry after another one, or the first of all; NULL after the last one. */
static const struct process_entry *
entry_after(const struct process_entry *last)
{
  const struct process_entry *next = NULL;
  for(const struct process_entry *entry = __start_process_entries; entry < __stop_process_entries; entry++) {
    if((last == NULL || is_before(last, entry)) && (next == NULL || is_before(entry, next))) {
      next = entry;
    }
  }
  return next;
}

/*
 * Numbers the processes. The mote starts all its applications, so a process that isn't started with the program exits in its first
 * turn. These are first, while no other process can receive EXITED: by file and line, then by name. After them are the others, in the
 * order of their start.
 */
void
number_processes(void)
{
  const struct process_entry *entry = NULL;
  if(autostart_processes == NULL) {
    give_up(STATUS_BAD_WORDS, "no AUTOSTART_PROCESSES, so no process is started");
  }
  while((entry = entry_after(entry)) != NULL) {
    if(!is_autostarted(entry->process) && entry->process != &tcpip_process) {
      add_process(entry->process);
    }
  }
  not_started = process_count;
  if(&tcpip_process != NULL) {
    add_process(&tcpip_process);
  }
  for(struct process *const *started = autostart_processes; *started != NULL; started++) {
    add_process(*started);
  }
}

/* The process of this number, or NULL. */
struct process *
process_of(uint64_t number)
{
  return number >= FIRST_PROCESS && number < FIRST_PROCESS + process_count ? processes[number - FIRST_PROCESS] : NULL;
}

/* Its index among the processes, or their number if it is none of them. It may be any pointer: it isn't dereferenced. */
static unsigned
place_among(const struct process *p)
{
  unsigned i = 0;
  while(i < process_count && processes[i] != p) {
    i++;
  }
  return i;
}

bool
is_process(const struct process *p)
{
  return place_among(p) < process_count;
}

/* The index of a process that must be there. */
unsigned
index_of(const struct process *p)
{
  unsigned i = place_among(p);
  if(i == process_count) {
    /* Before the mote boots, as in a constructor of the program, there is none. */
    stop(process_count == 0 ? "a call of the mote is made outside of any process" : "a process that PROCESS didn't declare");
  }
  return i;
}

/*
 * Data of events. The mote carries a number. A small number is the data itself, since no object has such an address. Each pointer gets
 * a number from 65,536 on, for the whole run, so that an event carries exactly the pointer.
 */

enum { FIRST_POINTER = 65536 };

static void **pointers;
static uint32_t pointer_count, pointer_room;
/* A hash table of the pointers' numbers, less FIRST_POINTER and plus 1. It has twice as many slots as there are pointers. */
static uint32_t *places;

static uint32_t
place_of(const void *pointer)
{
  uint32_t mask = 2 * pointer_room - 1;
  uint32_t place = (uint32_t)(((uint64_t)(uintptr_t)pointer * 0x9e3779b97f4a7c15u) >> 32) & mask;
  while(places[place] != 0 && pointers[places[place] - 1] != pointer) {
    place = (place + 1) & mask;
  }
  return place;
}

static void
make_room_for_pointers(void)
{
  pointer_room = pointer_room == 0 ? 8 : 2 * pointer_room;
  pointers = realloc(pointers, pointer_room * sizeof *pointers);
  free(places);
  places = calloc(2 * (size_t)pointer_room, sizeof *places);
  if(pointers == NULL || places == NULL) {
    give_up(STATUS_NO_MEMORY, "out of memory");
  }
  for(uint32_t i = 0; i < pointer_count; i++) {
    places[place_of(pointers[i])] = i + 1;
  }
}

static uint32_t
number_of(process_data_t data)
{
  uint32_t place;
  if((uintptr_t)data < FIRST_POINTER) {
    return (uint32_t)(uintptr_t)data;
  }
  if(pointer_count == pointer_room) {
    make_room_for_pointers();
  }
  place = place_of(data);
  if(places[place] == 0) {
    pointers[pointer_count++] = data;
    places[place] = pointer_count;
  }
  return FIRST_POINTER + places[place] - 1;
}

static process_data_t
data_of(uint64_t number)
{
  if(number < FIRST_POINTER) {
    return (process_data_t)(uintptr_t)number;
  }
  return number - FIRST_POINTER < pointer_count ? pointers[number - FIRST_POINTER] : NULL;
}

/* Who runs. */

/* Makes the list of the program: those that run, and haven't ended themselves. */
static void
link_processes(void)
{
  struct process **last = &process_list;
  for(unsigned i = 0; i < running_count; i++) {
    if(!has_left[index_of(running[i])]) {
      *last = running[i];
      last = &running[i]->next;
    }
  }
  *last = NULL;
}

void
note_ended(const struct process *p)
{
  unsigned kept = 0;
  for(unsigned i = 0; i < running_count; i++) {
    if(running[i] != p) {
      running[kept++] = running[i];
    }
  }
  running_count = kept;
  link_processes();
}

/* Whether no other process runs. */
bool
runs_alone(const struct process *p)
{
  return running_count == 0 || (running_count == 1 && running[0] == p);
}

/* A process that has the callback timers of one that ends: one that runs, or the one that stays. NULL if there is none. */
struct process *
heir_of(const struct process *p)
{
  unsigned i = 0;
  while(i < running_count && running[i] == p) {
    i++;
  }
  return i < running_count ? running[i] : staying;
}

/* The thread of the last process that ran has ended. Nobody is left to receive that, and later processes don't. */
void
note_staying(struct process *p)
{
  note_ended(p);
  has_left[index_of(p)] = true;
  staying = p;
}

static void
note_started(struct process *p)
{
  if(p == staying) {
    staying = NULL;
  }
  note_ended(p);
  memmove(running + 1, running, running_count * sizeof running[0]);
  running[0] = p;
  running_count++;
  has_left[index_of(p)] = false;
  link_processes();
  renew_event_timers(p);
}

/* Whether it is in an activation. */
bool
is_active(const struct process *p)
{
  const struct activation *open = activation;
  while(open != NULL && open->process != p) {
    open = open->outer;
  }
  return open != NULL;
}

/* Whether it can have timers in the mote: it runs, is in its EXIT event, or stays. */
bool
is_in_mote(const struct process *p)
{
  unsigned i = 0;
  while(i < running_count && running[i] != p) {
    i++;
  }
  return i < running_count || is_active(processes[index_of(p)]) || p == staying;
}

/* Whether it has ended itself, and continues to its next wait. */
static bool
has_ended_itself(const struct process *p)
{
  const struct activation *open = activation;
  while(open != NULL && (open->process != p || !open->is_ending)) {
    open = open->outer;
  }
  return open != NULL;
}

/* Whether it is in its EXIT event. */
static bool
is_told_exit(const struct process *p)
{
  const struct activation *open = activation;
  while(open != NULL && (open->process != p || open->turn->event != PROCESS_EVENT_EXIT)) {
    open = open->outer;
  }
  return open != NULL;
}

/* An activation: what the process receives, in Contiki-NG's terms. */

/* The line that was received last, until the next one is. */
static process_data_t
line_of(const struct toarmuts_turn *turn)
{
  static char line[LINE_BYTES + 1];
  memcpy(line, turn->bytes, turn->length);
  line[turn->length] = '\0';
  return line;
}

static process_data_t
data_of_event(const struct toarmuts_turn *turn, struct process *p)
{
  if(turn->payload == TOARMUTS_LINE) {
    return line_of(turn);
  }
  switch(turn->event) {
  case PROCESS_EVENT_TIMER:
    return etimer_told(p, (unsigned)turn->number);
  case PROCESS_EVENT_EXITED:
    return process_of(turn->number);
  default:
    return turn->payload == TOARMUTS_EMPTY ? NULL : data_of(turn->number);
  }
}

/* INIT. True if the mote starts a process that isn't started with the program. */
static bool
ends_at_boot(struct process *p)
{
  unsigned index = index_of(p);
  bool ends = index < not_started && !has_booted[index];
  has_booted[index] = true;
  if(!ends) {
    note_started(p);
    PT_INIT(&p->pt);
  }
  return ends;
}

/* EXIT. The others have received EXITED before, also the kernel's processes. */
static void
note_killed(struct process *p)
{
  note_ended(p);
  forget_event_timers(p);
  forget_receiver(p);
}

void
lc_lost(lc_t line)
{
  stop("a protothread can't continue at line %u: it waited there inside a switch (use if), or its struct pt was overwritten", line);
}

static bool
call_thread(struct process *p, process_event_t ev, process_data_t data)
{
  return !PT_SCHEDULE(p->thread(&p->pt, ev, data));
}

/* Starts the thread of the process that stays again; true if it ends at once. */
static bool
begin_anew(struct process *p)
{
  process_data_t data = start_data;
  begins_anew = false;
  start_data = NULL;
  note_started(p);
  PT_INIT(&p->pt);
  return call_thread(p, PROCESS_EVENT_INIT, data);
}

/* The process that stays: it receives only frames, and a post from process_start. Timers' events that waited when it ended are over. */
static bool
activate_staying(const struct toarmuts_turn *turn, struct process *p)
{
  if(turn->event == ERRAND_EVENT && begins_anew) {
    return begin_anew(p);
  }
  if(turn->event == TOARMUTS_EVENT_PACKET) {
    take_frame((size_t)turn->number);
  } else if(turn->event == PROCESS_EVENT_TIMER) {
    etimer_told(p, (unsigned)turn->number);
  }
  return false;
}

/* Calls the process's thread, or its callback; true if it has ended. */
bool
activate(struct activation *present)
{
  const struct toarmuts_turn *turn = present->turn;
  struct process *p = present->process;
  process_data_t data;
  if(turn->stimulus == TOARMUTS_CALLBACK) {
    return ctimer_told(p, (unsigned)turn->number);
  }
  if(p == staying) {
    return activate_staying(turn, p);
  }
  if(turn->event == ERRAND_EVENT && leaving != NULL) {
    return call_thread(p, PROCESS_EVENT_EXITED, leaving);
  }
  if(turn->event == PROCESS_EVENT_INIT) {
    data = start_data;
    start_data = NULL;
    if(ends_at_boot(p)) {
      return true;
    }
  } else {
    data = data_of_event(turn, p);
  }
  if(turn->event == PROCESS_EVENT_EXIT) {
    note_killed(p);
  } else if(turn->event == PROCESS_EVENT_POLL) {
    is_polled[index_of(p)] = false;
  }
  if(receive_again() || (turn->event == PROCESS_EVENT_EXITED && has_left[index_of(data)])) {
    return false;
  }
  if(turn->event == TOARMUTS_EVENT_PACKET && takes_frames()) {
    take_frame((size_t)turn->number);
    return false;
  }
  return call_thread(p, (process_event_t)turn->event, data);
}

/* process.h */

/* The payload of a post. */
static void
put_data(struct toarmuts_call *call, process_data_t data)
{
  call->payload = data == NULL ? TOARMUTS_EMPTY : TOARMUTS_NUMBER;
  call->number = number_of(data);
}

/* Ends the program if only the kernel may send this event. */
static void
refuse_event(const struct toarmuts_turn *answer, process_event_t ev)
{
  if(refusal_of(answer) == TOARMUTS_REFUSAL_RESERVED) {
    stop("event %u belongs to the kernel, and can't be posted", ev);
  }
}

static void
check_event(process_event_t ev)
{
  if(ev == ERRAND_EVENT) {
    stop("event 255 belongs to the driver, and can't be posted");
  }
}

/* `post` or `broadcast`. */
int
process_post(struct process *p, process_event_t ev, process_data_t data)
{
  struct toarmuts_call call = {.kind = TOARMUTS_CALL_BROADCAST, .numbers = {ev}};
  const struct toarmuts_turn *answer;
  check_event(ev);
  if(p != PROCESS_BROADCAST) {
    call.kind = TOARMUTS_CALL_POST;
    call.numbers[0] = FIRST_PROCESS + index_of(p);
    call.numbers[1] = ev;
  }
  put_data(&call, data);
  answer = mote_call(&call);
  refuse_event(answer, ev);
  return refusal_of(answer) == 0 ? PROCESS_ERR_OK : PROCESS_ERR_FULL;
}

/* `post-synch`: the receiver's activation is nested. */
void
process_post_synch(struct process *p, process_event_t ev, process_data_t data)
{
  struct toarmuts_call call = {.kind = TOARMUTS_CALL_POST_SYNCH, .numbers = {FIRST_PROCESS + index_of(p), ev}};
  check_event(ev);
  put_data(&call, data);
  refuse_event(mote_call(&call), ev);
}

/* `poll`. A process that isn't running isn't polled. */
void
process_poll(struct process *p)
{
  if(p != NULL && p != staying && refusal_of(MOTE_ASK(TOARMUTS_CALL_POLL, FIRST_PROCESS + index_of(p))) == 0) {
    is_polled[index_of(p)] = true;
  }
}

/* Starts the process that stays again: at once in its activation, otherwise by an event. */
static void
start_staying(struct process *p)
{
  if(activation->process == p) {
    if(begin_anew(p)) {
      stop_event_timers(p);
      note_staying(p);
    }
    return;
  }
  begins_anew = true;
  MOTE_ASK(TOARMUTS_CALL_POST_SYNCH, p->number, ERRAND_EVENT);
  if(begins_anew) {
    stop("process_start of %s, which is in an activation", name_of(p));
  }
}

/*
 * `start`. Nothing happens if it is running. Its INIT event comes at once, so the data is stored for it here. Contiki-NG would restart a
 * process that has ended itself before its thread has reached its next wait.
 */
void
process_start(struct process *p, process_data_t data)
{
  unsigned number = FIRST_PROCESS + index_of(p);
  if(has_ended_itself(p) && leaving != p) {
    stop("process_start of %s, which ended itself and hasn't waited yet: start it after its next wait", name_of(p));
  }
  start_data = data;
  if(p == staying) {
    start_staying(p);
  } else {
    bool was_polled = is_polled[number - FIRST_PROCESS];
    /* The mote forgets a mark of a process that has ended. */
    if(refusal_of(MOTE_ASK(TOARMUTS_CALL_START, number)) == 0 && was_polled && is_polled[number - FIRST_PROCESS]) {
      MOTE_ASK(TOARMUTS_CALL_POLL, number);
    }
  }
  start_data = NULL;
}

/* Starts a process that has ended: it makes a call and exits. The threads of the others don't receive EXITED for that. */
void
start_for_errand(struct process *p)
{
  has_left[index_of(p)] = true;
  renew_event_timers(p);
  MOTE_ASK(TOARMUTS_CALL_START, p->number);
}

/*
 * A process ends itself: the others receive EXITED at once, by an event of the driver. The mote's EXITED, when the process exits at its
 * next wait, isn't delivered again.
 */
static void
leave(struct process *p)
{
  struct process *others[MOST_PROCESSES], *outer = leaving;
  unsigned count = running_count;
  activation->is_ending = true;
  has_left[index_of(p)] = true;
  link_processes();
  memcpy(others, running, sizeof others);
  leaving = p;
  for(unsigned i = 0; i < count; i++) {
    if(!is_active(others[i])) {
      MOTE_ASK(TOARMUTS_CALL_POST_SYNCH, others[i]->number, ERRAND_EVENT);
    }
  }
  leaving = outer;
}

/* `kill`, or for the active process `exit` at its next wait. A process that is ending isn't ended again. */
void
process_exit(struct process *p)
{
  unsigned number = FIRST_PROCESS + index_of(p), refusal;
  bool is_at_end = has_ended_itself(p) || is_told_exit(p);
  if(p == staying) {
    return;
  }
  if(activation != NULL && activation->process == p) {
    if(!is_at_end) {
      leave(p);
    }
    return;
  }
  refusal = refusal_of(MOTE_ASK(TOARMUTS_CALL_KILL, number));
  if(refusal == TOARMUTS_REFUSAL_BUSY && !is_at_end) {
    stop("process_exit of %s, which is in an activation", name_of(p));
  } else if(refusal == 0) {
    follow_receiver();
  }
}

/* `is-running`. A process that has ended itself doesn't run, though in the mote it does until its next wait. */
int
process_is_running(struct process *p)
{
  if(has_ended_itself(p) || p == staying) {
    return 0;
  }
  return MOTE_ASK(TOARMUTS_CALL_IS_RUNNING, FIRST_PROCESS + index_of(p))->number != 0;
}

/* `alloc-event`. */
process_event_t
process_alloc_event(void)
{
  const struct toarmuts_turn *answer = MOTE_ASK(TOARMUTS_CALL_ALLOC_EVENT, 0);
  if(refusal_of(answer) != 0 || answer->number == ERRAND_EVENT) {
    stop("more than 115 event numbers: programs have 140 to 254; use one for several events, told apart by their data");
  }
  return (process_event_t)answer->number;
}

/* autostart.h */

void
autostart_start(struct process *const started[])
{
  for(; *started != NULL; started++) {
    process_start(*started, NULL);
  }
}

void
autostart_exit(struct process *const ended[])
{
  for(; *ended != NULL; ended++) {
    process_exit(*ended);
  }
}
