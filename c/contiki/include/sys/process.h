/*
 * Processes and events. A process is a protothread that the kernel calls with an event; it is one of the mote's applications.
 */
#ifndef PROCESS_H_
#define PROCESS_H_

#include <stdbool.h>
#include <stddef.h>
#include <stdint.h>

#include "sys/cc.h"
#include "sys/pt.h"

typedef unsigned char process_event_t;
typedef void *process_data_t;
typedef unsigned char process_num_events_t;

#define PROCESS_ERR_OK 0
#define PROCESS_ERR_FULL 1

#define PROCESS_NONE NULL
/* As the receiver of a post: every process. */
#define PROCESS_BROADCAST NULL
#define PROCESS_ZERO ((struct process *)-1)

/* The size of the event queue, which is fixed. */
#if defined(PROCESS_CONF_NUMEVENTS) && PROCESS_CONF_NUMEVENTS != 32
#pragma message "the mote's event queue holds 32 events: PROCESS_CONF_NUMEVENTS changes nothing"
#undef PROCESS_CONF_NUMEVENTS
#endif
#ifndef PROCESS_CONF_NUMEVENTS
#define PROCESS_CONF_NUMEVENTS 32
#endif

#define PROCESS_EVENT_NONE 128
#define PROCESS_EVENT_INIT 129
#define PROCESS_EVENT_POLL 130
#define PROCESS_EVENT_EXIT 131
#define PROCESS_EVENT_SERVICE_REMOVED 132
#define PROCESS_EVENT_CONTINUE 133
#define PROCESS_EVENT_MSG 134
#define PROCESS_EVENT_EXITED 135
#define PROCESS_EVENT_TIMER 136
#define PROCESS_EVENT_COM 137
#define PROCESS_EVENT_MAX 138

struct process {
  /* The next one on PROCESS_LIST(). */
  struct process *next;
  const char *name;
  PT_THREAD((*thread)(struct pt *, process_event_t, process_data_t));
  struct pt pt;
  /* Its number in the mote, from 4 on. For the driver only. */
  unsigned number;
};

/* A process with the file and line of its PROCESS, for the driver, which finds all of these in one section of the program. */
struct process_entry {
  struct process *process;
  const char *file;
  int line;
  const char *identifier;
};

#define PROCESS_THREAD(name, ev, data) \
  static PT_THREAD(process_thread_##name(struct pt *process_pt, CC_UNUSED process_event_t ev, CC_UNUSED process_data_t data))

#define PROCESS_NAME(name) extern struct process name

#define PROCESS(name, strname)                                                                                       \
  PROCESS_THREAD(name, ev, data);                                                                                    \
  PROCESS_NAME(name);                                                                                                \
  static const struct process_entry process_entry_##name                                                             \
    __attribute__((used, section("process_entries"), aligned(sizeof(void *)))) = {&name, __FILE__, __LINE__, #name}; \
  struct process name = {NULL, strname, process_thread_##name, {0}, 0}

#define PROCESS_NAME_STRING(process) ((process)->name)

/* The parts of a process's thread. */
#define PROCESS_BEGIN() PT_BEGIN(process_pt)
#define PROCESS_END() PT_END(process_pt)
#define PROCESS_WAIT_EVENT() PROCESS_YIELD()
#define PROCESS_WAIT_EVENT_UNTIL(c) PROCESS_YIELD_UNTIL(c)
#define PROCESS_YIELD() PT_YIELD(process_pt)
#define PROCESS_YIELD_UNTIL(c) PT_YIELD_UNTIL(process_pt, c)
#define PROCESS_WAIT_UNTIL(c) PT_WAIT_UNTIL(process_pt, c)
#define PROCESS_WAIT_WHILE(c) PT_WAIT_WHILE(process_pt, c)
#define PROCESS_EXIT() PT_EXIT(process_pt)
#define PROCESS_PT_SPAWN(pt, thread) PT_SPAWN(process_pt, pt, thread)
#define PROCESS_PAUSE()                                            \
  do {                                                             \
    process_post(PROCESS_CURRENT(), PROCESS_EVENT_CONTINUE, NULL); \
    PROCESS_WAIT_EVENT_UNTIL(ev == PROCESS_EVENT_CONTINUE);        \
  } while(0)

/* Before PROCESS_BEGIN: the statements for a poll, and for the end by another process. */
#define PROCESS_POLLHANDLER(handler) \
  if(ev == PROCESS_EVENT_POLL) {     \
    handler;                         \
  }
#define PROCESS_EXITHANDLER(handler) \
  if(ev == PROCESS_EVENT_EXIT) {     \
    handler;                         \
  }

extern struct process *process_current;
#define PROCESS_CURRENT() process_current

/* The processes of the program that run, the one that was started last first. Those of the kernel aren't in this list, nor is one that
 * ends, from when the others receive EXITED. */
extern struct process *process_list;
#define PROCESS_LIST() process_list

/* Between the two, timers are set for process p. */
#define PROCESS_CONTEXT_BEGIN(p)                     \
  {                                                  \
    struct process *tmp_current = PROCESS_CURRENT(); \
    process_current = p
#define PROCESS_CONTEXT_END(p)   \
  process_current = tmp_current; \
  }

/* Starts a process that isn't running: it receives INIT with this data at once. */
void process_start(struct process *p, process_data_t data);

/* Posts an event to a process or to all. PROCESS_ERR_FULL if the queue is full. */
int process_post(struct process *p, process_event_t ev, process_data_t data);

/* Delivers an event to a process at once. */
void process_post_synch(struct process *p, process_event_t ev, process_data_t data);

/* Ends a process: the others receive EXITED at once. A process that ends itself continues to its next wait. */
void process_exit(struct process *p);

/* Polls a process: it will be called with PROCESS_EVENT_POLL. */
void process_poll(struct process *p);

int process_is_running(struct process *p);

/* A new event number, from 140 to 254. */
process_event_t process_alloc_event(void);

CC_REFUSED("the mote runs the processes: leave this call out") void process_init(void);
CC_REFUSED("the mote runs the processes: leave this call out") int process_run(void);
CC_REFUSED("the mote does not report the number of events in the queue") int process_nevents(void);

#endif
