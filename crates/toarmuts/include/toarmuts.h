/*
 * The mote as a library. toarmuts_run runs applications over a script, and writes the transcript. Or the caller is the applications, and
 * uses a mote, or a network of motes, step by step: toarmuts_open, toarmuts_network_open and what follows. docs/library.md explains all
 * three.
 */
#ifndef TOARMUTS_H
#define TOARMUTS_H

#include <stdbool.h>
#include <stddef.h>
#include <stdint.h>

#ifdef __cplusplus
extern "C" {
#endif

/* The outcome of a run, or of a call step by step. In a run the first four are the statuses of the program mote, and there is a
 * transcript. Step by step, where a status isn't DONE, nothing changes and nothing is filled in, except for the length with NO_ROOM. */
enum toarmuts_status {
  TOARMUTS_FINISHED = 0,               /* a run: the script was executed */
  TOARMUTS_DONE = 0,                   /* a step: it was done */
  TOARMUTS_BAD_LINE = 2,               /* a malformed line; it ended the run */
  TOARMUTS_HALTED = 3,                 /* the mote halted */
  TOARMUTS_EXHAUSTED = 3,              /* network: an input used up its rounds */
  TOARMUTS_TOO_LONG = 4,               /* the script has more than 16,777,216 bytes */
  TOARMUTS_NOT_TEXT = 16,              /* the applications are no UTF-8 */
  TOARMUTS_NO_APPLICATION = 17,        /* a line names no application; submit_bundled: the struct says none */
  TOARMUTS_TOO_MANY_APPLICATIONS = 18, /* more than 16 */
  TOARMUTS_BAD_SIZES = 19,             /* no mote boots with these sizes; open: or with more than 16 applications */
  TOARMUTS_NO_ROOM = 20,               /* the transcript, or the line, is longer than the room for it; a link too many */
  TOARMUTS_OUT_OF_MEMORY = 21,         /* memory was refused */
  TOARMUTS_CLOSED = 22,                /* the mote, or the network, is closed */
  TOARMUTS_IS_OPEN = 23,               /* open: it is open already */
  TOARMUTS_AWAITS_CALL = 24,           /* next, feed, feed_input, tick: a turn awaits its call */
  TOARMUTS_NO_TURN = 25,               /* submit, submit_bundled: no turn awaits a call */
  TOARMUTS_NOT_AT_REST = 26,           /* feed, feed_input, tick: work is pending: call next first */
  TOARMUTS_NO_CALL = 27,               /* submit: no such kind, a number out of its range, or too many bytes */
  TOARMUTS_NO_INPUT = 28,              /* no such kind, no bytes, or too many; feed: an input of no bytes */
  TOARMUTS_TOO_MANY_INPUTS = 29,       /* feed, feed_input, tick: 2^40 inputs, or a clock beyond 2^62; network_next: 2^40 */
  TOARMUTS_NO_LINE = 30,               /* line: no entry was made yet, or the last turn awaits its call */
  TOARMUTS_BAD_LINK = 31,              /* network_link: no such motes, no delay, no such loss, or its number out of range */
  TOARMUTS_NO_MOTE = 32,               /* network_feed, network_due: no mote has this number */
  TOARMUTS_NO_TIMER = 33,              /* due: no timer is set */
  TOARMUTS_IS_STARTED = 34,            /* network_link: the motes were started */
  TOARMUTS_NO_FRAME = 35               /* sent: the last entry is no frame that was sent */
};

/* The sizes of a mote, in bytes. Any numbers are safe. */
struct toarmuts_configuration {
  uint32_t mmem;      /* managed memory: a multiple of 4 from 4 to 65,536 */
  uint32_t heap;      /* heap memory: a multiple of 4 from 20 to 65,536 */
  uint32_t header;    /* a header in heap memory: 16 or 8 */
  uint32_t has_quota; /* 0: each process may take all managed memory that is free, and quota says nothing */
  uint32_t quota;     /* managed memory for each application and for the frames: a multiple of 4 from 4 to 65,536 */
  uint32_t quiet;     /* not 0: the transcript of toarmuts_run is a quiet one */
};

/* The defaults of the program mote. */
#define TOARMUTS_DEFAULTS   \
  {                         \
    4096, 4096, 16, 0, 0, 0 \
  }

/* Why there was no run, where the status alone doesn't say it: the first of these that applies, in this order. */
enum toarmuts_reason {
  TOARMUTS_REASON_NONE = 0, /* the status says all */
  /* BAD_SIZES */
  TOARMUTS_REASON_MMEM = 1,       /* no such mmem */
  TOARMUTS_REASON_HEAP = 2,       /* no such heap */
  TOARMUTS_REASON_HEADER = 3,     /* no such header */
  TOARMUTS_REASON_QUOTA = 4,      /* no such quota */
  TOARMUTS_REASON_ALL_QUOTAS = 5, /* the quotas of the applications and of the frames exceed mmem */
  /* NO_APPLICATION */
  TOARMUTS_REASON_NAME = 6,       /* no application has this name */
  TOARMUTS_REASON_CALL = 7,       /* of a list the first part that is no call: no call has its name */
  TOARMUTS_REASON_FEW_WORDS = 8,  /* it lacks a word */
  TOARMUTS_REASON_MANY_WORDS = 9, /* it has more words than its call takes */
  TOARMUTS_REASON_NUMBER = 10,    /* a word is no number, or one out of its range */
  TOARMUTS_REASON_HEX = 11,       /* a word is no hex, or has too many bytes */
  TOARMUTS_REASON_MANY_CALLS = 12 /* all parts are calls, and more than 128 */
};

/* The outcome of a run. A program must be compiled with the header of the library that it is linked with. */
struct toarmuts_outcome {
  uint32_t status;      /* one of enum toarmuts_status */
  uint64_t line;        /* the malformed line, or the line that names no application, from 1 on; otherwise 0 */
  uint64_t length;      /* the bytes of the transcript, with TOARMUTS_NO_ROOM too; 0 with the other statuses above 4 */
  uint32_t reason;      /* one of enum toarmuts_reason */
  uint32_t application; /* with NO_APPLICATION and TOO_MANY_APPLICATIONS (16) its number, from 0 on; otherwise 0 */
  uint64_t call;        /* with the reasons CALL to HEX the part of its list, from 0 on: commas separate them; otherwise 0 */
};

/*
 * Runs applications over a script and writes the transcript to the front of the buffer. The applications are a line each: a name
 * (hello, blink, echo, relay, churn, ping, clock-watcher), or 'calls' and a list of calls, as
 * 'calls timer-set 0 5, wait, print 6869'. Where the status is above 4, nothing is written, and the outcome says why.
 */
void toarmuts_run(const struct toarmuts_configuration *configuration, const uint8_t *applications, uint64_t applications_length,
                  const uint8_t *script, uint64_t script_length, uint8_t *transcript, uint64_t room, struct toarmuts_outcome *outcome);

/*
 * A mote step by step. The caller opens it, asks what comes next, and submits the call of each application whose turn it is; at rest it
 * passes inputs. Of several reasons CLOSED is returned first, then what the mote awaits or must do (AWAITS_CALL or NO_TURN, HALTED,
 * NOT_AT_REST), then what is wrong with the arguments.
 */

/* A mote in hand. With all bytes 0 it is closed. Only the calls below write to it. */
struct toarmuts_mote {
#if UINTPTR_MAX == 0xffffffff
  void *held __attribute__((aligned(8))); /* in a slot of 8 bytes: docs/boards.md */
  uint32_t above_held;
#else
  void *held;
#endif
  bool is_open;
};

/* What next found. */
enum toarmuts_step {
  TOARMUTS_TURN = 0,       /* an application takes a turn, and its call is awaited */
  TOARMUTS_ENTRY = 1,      /* another line of the transcript was made: an input, a note, or halt */
  TOARMUTS_REST = 2,       /* nothing happens without an input */
  TOARMUTS_STEP_HALTED = 3 /* the mote was halted before: nothing follows */
};
#define TOARMUTS_HALT TOARMUTS_STEP_HALTED /* its old name: the next version lacks it */

/* Where a stimulus comes from. */
enum toarmuts_origin {
  TOARMUTS_FROM_EVENT,    /* the event queue */
  TOARMUTS_FROM_SYNCH,    /* post-synch, or the kernel's INIT, EXIT and EXITED */
  TOARMUTS_FROM_POLL,     /* a poll round */
  TOARMUTS_FROM_CALLBACK, /* a callback timer */
  TOARMUTS_FROM_ANSWER    /* the process's own call */
};

enum toarmuts_stimulus {
  TOARMUTS_EVENT,
  TOARMUTS_CALLBACK, /* one of its callback timers has run out */
  TOARMUTS_ANSWER    /* the reply to its last call */
};

/* The kernel's events; applications draw 140 to 255. */
enum toarmuts_event {
  TOARMUTS_EVENT_NONE = 128,            /* no event */
  TOARMUTS_EVENT_INIT = 129,            /* the process is started */
  TOARMUTS_EVENT_POLL = 130,            /* the process was polled */
  TOARMUTS_EVENT_EXIT = 131,            /* the process is killed: this is its last activation */
  TOARMUTS_EVENT_SERVICE_REMOVED = 132, /* a service is gone; nothing sends it */
  TOARMUTS_EVENT_CONTINUE = 133,        /* free for applications */
  TOARMUTS_EVENT_MSG = 134,             /* free for applications */
  TOARMUTS_EVENT_EXITED = 135,          /* another process ended: the payload is its number */
  TOARMUTS_EVENT_TIMER = 136,           /* an event timer ran out: the payload is its number */
  TOARMUTS_EVENT_COM = 137,             /* free for applications */
  TOARMUTS_EVENT_SERIAL_LINE = 138,     /* a line came in on the serial line: it is the payload */
  TOARMUTS_EVENT_PACKET = 139           /* a frame came in, for the receiver: the payload is its length */
};

/* What an event carries. */
enum toarmuts_payload { TOARMUTS_EMPTY, TOARMUTS_NUMBER, TOARMUTS_LINE };

enum toarmuts_reply {
  TOARMUTS_REPLY_DONE,
  TOARMUTS_REPLY_REFUSED,
  TOARMUTS_REPLY_NUM,
  TOARMUTS_REPLY_WIDE,
  TOARMUTS_REPLY_FLAG,
  TOARMUTS_REPLY_BYTES,
  TOARMUTS_REPLY_STATS
};

/* Why a call is refused. */
enum toarmuts_refusal {
  TOARMUTS_REFUSAL_FULL = 1,          /* the event queue is full; of a frame: 8 are held */
  TOARMUTS_REFUSAL_NOT_RUNNING = 2,   /* the process does not run */
  TOARMUTS_REFUSAL_ALREADY = 3,       /* it is so already: started, or the receiver */
  TOARMUTS_REFUSAL_BUSY = 4,          /* another activation is in the way, or another process is the receiver */
  TOARMUTS_REFUSAL_RESERVED = 5,      /* the event code is the kernel's own */
  TOARMUTS_REFUSAL_NO_EVENT = 6,      /* all event numbers were drawn */
  TOARMUTS_REFUSAL_BAD_NAME = 7,      /* no process, timer, handle, block, pool or list has that name */
  TOARMUTS_REFUSAL_IN_USE = 8,        /* the handle or block is in use */
  TOARMUTS_REFUSAL_NOT_LIVE = 9,      /* the handle or block is not live */
  TOARMUTS_REFUSAL_EMPTY = 10,        /* the list is empty, or the block is its last */
  TOARMUTS_REFUSAL_RANGE = 11,        /* an invalid length or range */
  TOARMUTS_REFUSAL_NO_ROOM = 12,      /* memory has no room for it */
  TOARMUTS_REFUSAL_NO_BLOCK = 13,     /* the pool has no unused block */
  TOARMUTS_REFUSAL_LINKED = 14,       /* the block is in a list, or in the pool's other list */
  TOARMUTS_REFUSAL_NOT_LINKED = 15,   /* the block is not in that list */
  TOARMUTS_REFUSAL_NO_PACKET = 16,    /* no frame is held */
  TOARMUTS_REFUSAL_NOT_RECEIVER = 17, /* the caller is not the receiver */
  TOARMUTS_REFUSAL_OVER_QUOTA = 18    /* with quotas: the process's own quota of managed memory has no room for it */
};

/* The state of the heap, in bytes but for chunks. */
struct toarmuts_heap_stats {
  uint32_t allocated;
  uint32_t overhead;
  uint32_t available;
  uint32_t footprint;
  uint32_t chunks;
};

/* A turn that awaits its call. What has no meaning for its stimulus is 0. */
struct toarmuts_turn {
  uint32_t process;  /* 4 to 19 */
  uint32_t origin;   /* enum toarmuts_origin */
  uint32_t stimulus; /* enum toarmuts_stimulus */
  uint32_t event;    /* of an event: its code, enum toarmuts_event or one that was drawn */
  uint32_t payload;  /* of an event: enum toarmuts_payload */
  uint32_t reply;    /* of a reply: enum toarmuts_reply */
  uint64_t number;   /* a payload's number, a callback timer's, an enum toarmuts_refusal, a num, a wide, a flag (0, 1) */
  struct toarmuts_heap_stats stats;
  uint32_t length;    /* the number of bytes: of a line or of a read */
  uint8_t bytes[128]; /* what follows these is unchanged */
};

/* The kinds of calls. docs/profile.md says what each does; here each is followed by its numbers, in their order, and what else it
 * has. A name fits in a byte: q a process, t an event timer, c a callback timer, h, from and to handles of managed memory, k a pool, b and
 * prev blocks, l a list. */
enum toarmuts_call_kind {
  TOARMUTS_CALL_POST = 1,       /* q code, payload */
  TOARMUTS_CALL_BROADCAST = 2,  /* code, payload */
  TOARMUTS_CALL_POST_SYNCH = 3, /* q code, payload */
  TOARMUTS_CALL_POLL = 4,       /* q */
  TOARMUTS_CALL_START = 5,      /* q */
  TOARMUTS_CALL_KILL = 6,       /* q */
  TOARMUTS_CALL_IS_RUNNING = 7, /* q */
  TOARMUTS_CALL_ALLOC_EVENT = 8,
  TOARMUTS_CALL_TIMER_SET = 9,      /* t interval */
  TOARMUTS_CALL_TIMER_STOP = 10,    /* t */
  TOARMUTS_CALL_TIMER_RESET = 11,   /* t */
  TOARMUTS_CALL_TIMER_RESTART = 12, /* t */
  TOARMUTS_CALL_TIMER_EXPIRED = 13, /* t */
  TOARMUTS_CALL_CALLBACK_SET = 14,  /* c interval */
  TOARMUTS_CALL_CALLBACK_STOP = 15, /* c */
  TOARMUTS_CALL_CLOCK = 16,
  TOARMUTS_CALL_PRINT = 17, /* bytes */
  TOARMUTS_CALL_WAIT = 18,
  TOARMUTS_CALL_EXIT = 19,
  TOARMUTS_CALL_MMEM_ALLOC = 20, /* h n */
  TOARMUTS_CALL_MMEM_FREE = 21,  /* h */
  TOARMUTS_CALL_MMEM_WRITE = 22, /* h at, bytes */
  TOARMUTS_CALL_MMEM_READ = 23,  /* h at len */
  TOARMUTS_CALL_MMEM_COPY = 24,  /* from to */
  TOARMUTS_CALL_MMEM_AVAIL = 25,
  TOARMUTS_CALL_HEAP_ALLOC = 26,   /* b n */
  TOARMUTS_CALL_HEAP_REALLOC = 27, /* b n */
  TOARMUTS_CALL_HEAP_FREE = 28,    /* b */
  TOARMUTS_CALL_HEAP_WRITE = 29,   /* b at, bytes */
  TOARMUTS_CALL_HEAP_READ = 30,    /* b at len */
  TOARMUTS_CALL_HEAP_STATS = 31,
  TOARMUTS_CALL_MEMB_ALLOC = 32,    /* k */
  TOARMUTS_CALL_MEMB_FREE = 33,     /* k b */
  TOARMUTS_CALL_MEMB_WRITE = 34,    /* k b at, bytes */
  TOARMUTS_CALL_MEMB_READ = 35,     /* k b at len */
  TOARMUTS_CALL_MEMB_NUM_FREE = 36, /* k */
  TOARMUTS_CALL_LIST_ADD = 37,      /* l b */
  TOARMUTS_CALL_LIST_PUSH = 38,     /* l b */
  TOARMUTS_CALL_LIST_INSERT = 39,   /* l prev b */
  TOARMUTS_CALL_LIST_POP = 40,      /* l */
  TOARMUTS_CALL_LIST_CHOP = 41,     /* l */
  TOARMUTS_CALL_LIST_REMOVE = 42,   /* l b */
  TOARMUTS_CALL_LIST_HEAD = 43,     /* l */
  TOARMUTS_CALL_LIST_NEXT = 44,     /* l b */
  TOARMUTS_CALL_LIST_LENGTH = 45,   /* l */
  TOARMUTS_CALL_PACKET_OPEN = 46,
  TOARMUTS_CALL_PACKET_READ = 47, /* at len */
  TOARMUTS_CALL_PACKET_DONE = 48,
  TOARMUTS_CALL_PACKET_COUNT = 49,
  TOARMUTS_CALL_PACKET_SEND = 50 /* h */
};

/* A call: its kind, its numbers in the order in which a transcript shows them, and its bytes. What its kind doesn't use is
 * ignored. */
struct toarmuts_call {
  uint32_t kind; /* enum toarmuts_call_kind */
  uint32_t numbers[4];
  uint32_t payload; /* of post, broadcast, post-synch: enum toarmuts_payload */
  uint32_t number;  /* the payload's number */
  uint32_t length;  /* the number of bytes: of print and of writes at most 64, of a payload's line at most 127 */
  uint8_t bytes[128];
};

/* The bundled applications, those of the program mote. */
enum toarmuts_application_kind {
  TOARMUTS_APPLICATION_HELLO = 1,
  TOARMUTS_APPLICATION_BLINK = 2,
  TOARMUTS_APPLICATION_ECHO = 3,
  TOARMUTS_APPLICATION_RELAY = 4,
  TOARMUTS_APPLICATION_CHURN = 5,
  TOARMUTS_APPLICATION_PING = 6
};

/* A bundled application between two turns: `struct toarmuts_application echo = {.kind = TOARMUTS_APPLICATION_ECHO};` is as before its
 * start. The library writes the other members. With other numbers in them submit_bundled is safe, and returns NO_APPLICATION where no
 * application has such a state. A copy is as good as the original. */
struct toarmuts_application {
  uint32_t kind; /* enum toarmuts_application_kind */
  uint32_t numbers[4];
  uint32_t length;
  uint8_t bytes[128];
};

enum toarmuts_input_kind { TOARMUTS_TICK, TOARMUTS_SERIAL, TOARMUTS_FRAME };

/* Opens a mote with this number of applications (0 to 16), processes 4, 5, .. All its memory is allocated here: with `quiet`
 * of the configuration 1 KB less, and then each toarmuts_line needs 3 KB more of the stack, and is slower. */
uint32_t toarmuts_open(const struct toarmuts_configuration *configuration, uint32_t applications, struct toarmuts_mote *mote);

/* Passes a line of a script, without its line end. An empty line and a comment are DONE and do nothing. */
uint32_t toarmuts_feed(struct toarmuts_mote *mote, const uint8_t *line, uint64_t length);

/* Passes an input: a number of ticks, or 1 to 256 bytes on the serial line, or a frame of 1 to 127 bytes. */
uint32_t toarmuts_feed_input(struct toarmuts_mote *mote, uint32_t kind, uint32_t ticks, const uint8_t *bytes, uint64_t length);

/* Works to the next turn, entry or rest; *step says which. A turn fills *turn; otherwise that is unchanged. */
uint32_t toarmuts_next(struct toarmuts_mote *mote, uint32_t *step, struct toarmuts_turn *turn);

/* Submits the call of the application whose turn it is: it is executed, and the turn is an entry. */
uint32_t toarmuts_submit(struct toarmuts_mote *mote, const struct toarmuts_call *call);

/* In place of toarmuts_submit: submits the call that this application makes in the turn. The struct is that of the process whose turn it
 * is; it is then as after the turn. NO_APPLICATION where it says none. */
uint32_t toarmuts_submit_bundled(struct toarmuts_mote *mote, struct toarmuts_application *application);

/* Writes the transcript's line of the last entry to the front of the buffer, without its line end. A turn is an entry once its call was
 * submitted. 639 bytes are always enough. */
uint32_t toarmuts_line(struct toarmuts_mote *mote, uint8_t *line, uint64_t room, uint64_t *length);

/* Where the last entry is a frame that was sent: writes its bytes to the front of the buffer. 127 bytes are always enough. */
uint32_t toarmuts_sent(struct toarmuts_mote *mote, uint8_t *bytes, uint64_t room, uint64_t *length);

/* The ticks since boot. */
uint32_t toarmuts_clock(struct toarmuts_mote *mote, uint64_t *clock);

/* The clock at which the mote's next timer runs out; NO_TIMER where none is set. */
uint32_t toarmuts_due(struct toarmuts_mote *mote, uint64_t *clock);

/* Frees the mote's memory. */
uint32_t toarmuts_close(struct toarmuts_mote *mote);

/*
 * A network of motes step by step. The caller opens it and adds its links, asks what comes next, submits the call of each application whose
 * turn it is, and passes inputs at rest. Motes have the numbers 1, 2, .. in the order of their structs. The lines are those of the program
 * network, in its order (docs/network.md). Of several reasons CLOSED is returned first, then what the network awaits or must do
 * (AWAITS_CALL or NO_TURN, EXHAUSTED, NOT_AT_REST), then what is wrong with the arguments. toarmuts_network_link returns IS_STARTED
 * whatever the network awaits.
 */

/* A network in hand. With all bytes 0 it is closed. Only the calls below write to it. */
struct toarmuts_network {
#if UINTPTR_MAX == 0xffffffff
  void *held __attribute__((aligned(8)));
  uint32_t above_held;
#else
  void *held;
#endif
  bool is_open;
};

/* A mote of a network: its sizes, and its number of applications, 0 to 16. */
struct toarmuts_network_mote {
  struct toarmuts_configuration configuration;
  uint32_t applications;
};

struct toarmuts_network_sizes {
  uint32_t room;   /* the most frames in flight */
  uint32_t links;  /* the most links */
  uint64_t rounds; /* the most rounds of one input */
};

/* The defaults of the program network. */
#define TOARMUTS_NETWORK_DEFAULTS \
  {                               \
    1024, 65536, 16777216         \
  }

/* Which frames of a link are lost. */
enum toarmuts_loss {
  TOARMUTS_LOSS_NONE,
  TOARMUTS_LOSS_EVERY, /* each n-th, where n is the link's number, at least 1 */
  TOARMUTS_LOSS_LOT    /* by lot: about number of 65,536, at most all of them */
};

/* What mote `from` sends, mote `to` hears `delay` ticks later. */
struct toarmuts_link {
  uint32_t from;
  uint32_t to;
  uint32_t delay; /* at least 1 */
  uint32_t loss;  /* enum toarmuts_loss */
  uint32_t number;
  uint64_t seed; /* of a lot */
};

/* What network_next found. All but TURN and REST have a line. */
enum toarmuts_network_step {
  TOARMUTS_NETWORK_TURN,     /* an application takes a turn, and its call is awaited; once submitted it has a line */
  TOARMUTS_NETWORK_ENTRY,    /* a mote made another entry: an input, a note, or its halt */
  TOARMUTS_NETWORK_CLOCK,    /* the clock went on */
  TOARMUTS_NETWORK_LOST,     /* a link's loss took the frame that was just sent */
  TOARMUTS_NETWORK_FULL,     /* that frame found no room in flight over a link */
  TOARMUTS_NETWORK_MISSED,   /* a frame, or an input from outside, came to a mote that was halted */
  TOARMUTS_NETWORK_REST,     /* nothing happens without an input */
  TOARMUTS_NETWORK_EXHAUSTED /* the last input used up its rounds: nothing follows */
};
#define TOARMUTS_NETWORK_HALT TOARMUTS_NETWORK_EXHAUSTED /* its old name: the next version lacks it */

/* What has no meaning for its step is 0. */
struct toarmuts_happening {
  uint32_t step;  /* enum toarmuts_network_step */
  uint32_t mote;  /* of TURN and ENTRY: whose; of LOST, FULL and MISSED: the receiver */
  uint32_t from;  /* of LOST, FULL and MISSED: the sender; 0 where an input from outside is missed */
  uint64_t clock; /* the network's, of each step */
};

/* Opens a network of these motes, and boots them. BAD_SIZES where one of them can't be booted. */
uint32_t toarmuts_network_open(const struct toarmuts_network_sizes *sizes, const struct toarmuts_network_mote *motes, uint64_t count,
                               struct toarmuts_network *network);

/* Adds a link, before the first next. A frame goes over its sender's links in the order in which they were added. Open and this
 * call allocate memory (OUT_OF_MEMORY); no other call does. */
uint32_t toarmuts_network_link(struct toarmuts_network *network, const struct toarmuts_link *link);

/* Works to the next turn, line, or rest; *happening says which. A turn fills *turn; otherwise that is unchanged. */
uint32_t toarmuts_network_next(struct toarmuts_network *network, struct toarmuts_happening *happening, struct toarmuts_turn *turn);

/* Submits the call of the application whose turn it is: it is executed, and the turn is an entry. */
uint32_t toarmuts_network_submit(struct toarmuts_network *network, const struct toarmuts_call *call);

/* In place of toarmuts_network_submit, as toarmuts_submit_bundled. */
uint32_t toarmuts_network_submit_bundled(struct toarmuts_network *network, struct toarmuts_application *application);

/* Lets the clock advance by a number of ticks, in the calls of next that follow. */
uint32_t toarmuts_network_tick(struct toarmuts_network *network, uint32_t ticks);

/* Passes an input from outside to the mote of this number: 1 to 256 bytes on its serial line, or a frame of 1 to 127 bytes. The mote first
 * receives the time, in the calls of next that follow. An input for a halted mote is missed. */
uint32_t toarmuts_network_feed(struct toarmuts_network *network, uint32_t mote, uint32_t kind, const uint8_t *bytes, uint64_t length);

/* Writes the transcript's line of what happened last to the front of the buffer, without its line end; a mote's entry has the mote's number
 * in front. A turn is an entry once its call was submitted. 660 bytes are always enough. */
uint32_t toarmuts_network_line(struct toarmuts_network *network, uint8_t *line, uint64_t room, uint64_t *length);

/* The ticks since boot. */
uint32_t toarmuts_network_clock(struct toarmuts_network *network, uint64_t *clock);

/* The clock at which the next timer of the mote of this number runs out; NO_TIMER where none is set. */
uint32_t toarmuts_network_due(struct toarmuts_network *network, uint32_t mote, uint64_t *clock);

/* Frees the network's memory. */
uint32_t toarmuts_network_close(struct toarmuts_network *network);

#ifdef __cplusplus
}
#endif

#endif
