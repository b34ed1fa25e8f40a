/* What the parts of the driver share. `contiki` makes these names local to the driver: a program may have the same ones. */
#ifndef DRIVER_H_
#define DRIVER_H_

#include "contiki.h"
#include "mote.h"
#include "net/linkaddr.h"

#pragma GCC visibility push(hidden)

enum {
  FIRST_PROCESS = 4,
  MOST_PROCESSES = 16,
  CHUNK = 64,        /* the bytes of one print, write or read */
  LINE_BYTES = 127,  /* those of a line from the serial line, and of a frame */
  ERRAND_EVENT = 255 /* the driver's own: a process makes a call for another one */
};

/* The exit statuses of mote, and one of the driver. */
enum {
  STATUS_FINISHED = 0,
  STATUS_STOPPED = 1,
  STATUS_BAD_LINE = 2,
  STATUS_HALTED = 3,
  STATUS_TOO_LONG = 4,
  STATUS_READ_FAILED = 5,
  STATUS_WRITE_FAILED = 6,
  STATUS_BAD_WORDS = 64,
  STATUS_NO_LIBRARY = 69,
  STATUS_NO_MEMORY = 70
};

/* activations.c: whose turn it is. */

/* An activation of a process: from what it receives to its next wait. It is nested in the activations that called it. */
struct activation {
  struct process *process;
  const struct toarmuts_turn *turn;
  uint64_t line;  /* of the transcript, where it began */
  bool is_ending; /* the process exits at its end */
  struct activation *outer;
};

/* The innermost activation, or NULL. */
extern struct activation *activation;
const struct activation *present_activation(void);

/* The number of rounds that delivered an event or a callback, less any multiple of 2^32. */
extern uint32_t rounds_begun;

/* The frame of main, below which the stack grows down. */
extern const void *stack_begin;

bool is_lost(const void *place, const void *frame);
void run_activation(const struct toarmuts_turn *turn);

/* 0, or why the call was refused. */
unsigned refusal_of(const struct toarmuts_turn *answer);

/* Makes a call that has only numbers, for a process. Of the reply only `reply` and `number` are that of this call. */
const struct toarmuts_turn *ask_for(struct process *owner, const struct toarmuts_call *call);
#define ASK_FOR(owner, call_kind, ...) ask_numbers((owner), (call_kind), (const uint32_t[4]){__VA_ARGS__})
static inline const struct toarmuts_turn *
ask_numbers(struct process *owner, uint32_t kind, const uint32_t numbers[4])
{
  struct toarmuts_call call;
  mote_put_numbers(&call, kind, numbers);
  return ask_for(owner, &call);
}

/* The same without a reply, also for a process that awaits one. */
bool awaits_reply(const struct process *p);
void order(struct process *owner, const struct toarmuts_call *call);
#define ORDER(owner, call_kind, ...) order_numbers((owner), (call_kind), (const uint32_t[4]){__VA_ARGS__})
static inline void
order_numbers(struct process *owner, uint32_t kind, const uint32_t numbers[4])
{
  struct toarmuts_call call;
  mote_put_numbers(&call, kind, numbers);
  order(owner, &call);
}

bool has_late_blocks(void);

/* mote.c: the one mote. For the motes of a network, network/motes.c and network/member.c have these calls. */

/* The process of the last turn. */
extern const struct process *last_process;

bool next_turn(struct toarmuts_turn *turn);
uint32_t answer_turn(const struct toarmuts_call *call);
void make_last_call(const struct toarmuts_call *call);
uint32_t last_line(uint8_t *line, size_t room, uint64_t *length);
size_t last_sent(uint8_t *bytes, size_t room);
clock_time_t clock_now(void);
void close_mote(void);

/* In a network the number of the mote that works; 0 if none does, and without a network. */
unsigned present_mote(void);

/* Where there is no network. */
void open_mote(const struct toarmuts_configuration *configuration);
uint32_t feed_line(const char *line, size_t length);
uint32_t feed_input(uint32_t kind, uint32_t ticks, const uint8_t *bytes, size_t length);
uint64_t next_due(void);
void run_to_rest(void);

/* processes.c: who is who. */
extern struct process *processes[MOST_PROCESSES];
extern unsigned process_count;
void number_processes(void);
struct process *process_of(uint64_t number);
bool is_process(const struct process *p);
unsigned index_of(const struct process *p);
void note_ended(const struct process *p);
void note_staying(struct process *p);
bool runs_alone(const struct process *p);
bool is_in_mote(const struct process *p);
struct process *heir_of(const struct process *p);
bool is_active(const struct process *p);
void start_for_errand(struct process *p);
bool activate(struct activation *present);

/* timers.c */
struct etimer *etimer_told(struct process *p, unsigned slot);
void note_settled(const struct process *owner, unsigned slot, bool has_expired);
void stop_event_timers(const struct process *p);
void forget_event_timers(const struct process *p);
void renew_event_timers(const struct process *p);
void check_timers(const void *frame);

/* callbacks.c */
bool ctimer_told(struct process *p, unsigned slot);
bool stays_for_callbacks(const struct process *p);
void pass_on_callbacks(const struct process *p);
void check_callbacks(const struct process *p, const void *frame);

/* memory.c */
void *take_bytes(size_t size);
unsigned free_handle(void);
bool check_late(bool depends);
void check_blocks(const struct process *p, const void *frame);

/* radio.c, and framer.c: the frames of a network. radio.h has what is above them. */
void forget_receiver(const struct process *p);
bool receive_again(void);
void follow_receiver(void);
bool takes_frames(void);
void keep_receiver(const struct process *p);
bool stays_for_frames(const struct process *p);
void take_frame(size_t length);

/* The mote has a number in a network, whose links have at most this delay; 0 for a mote that runs alone. */
void join_network(uint16_t number, clock_time_t longest);
bool is_in_network(void);
size_t header_length(const linkaddr_t *to);
void write_header(uint8_t *header, const linkaddr_t *to);
bool take_header(const uint8_t *frame, size_t length, size_t *header);

/* record.c; record.h has the others. */
void sum_call(const struct toarmuts_call *call);

/* report.c: the message of a fault. */
enum { REPORT_ROOM = 512 };
struct report {
  char text[REPORT_ROOM];
  size_t length;
};
void add_text(struct report *report, const char *text);
void add_number(struct report *report, uint64_t number);
void add_place(struct report *report);
void add_halt(struct report *report);

/*
 * The rest is the host's: linux/ has these for one mote on Linux, network/ for the motes of a network, board/ for a board.
 */

/* stack.c */
bool is_on_stack(const void *place);

/* console.c */
void flush_console(void);

/* transcript.c */
uint64_t shown_lines(void);
void show_turn(const struct toarmuts_call *call);
void show_entry(void);

/* faults.c */
CC_NORETURN void halt(void);
CC_NORETURN CC_FORMAT(1, 2) void stop(const char *format, ...);
CC_NORETURN CC_FORMAT(2, 3) void give_up(int status, const char *format, ...);

/* The program's name for a process; empty if it is NULL. */
static inline const char *
name_of(const struct process *p)
{
  return p->name != NULL ? p->name : "";
}

#pragma GCC visibility pop

#endif
