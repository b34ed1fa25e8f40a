/*
 * Activations. A process that receives something is called. Each of its calls is submitted to the mote, which works on to the next
 * turn. The turn of this process with the reply is the call's result. Any other turn before it is a nested activation, of a process
 * that receives something at once, and that one is called from here: plain recursion, as in Contiki-NG itself. This is right since
 * activations nest, which is a law of the mote.
 */
#include "driver.h"
#include "sys/stack-check.h"

#include <stdlib.h>

struct activation *activation;
uint32_t rounds_begun;
const void *stack_begin;

const struct activation *
present_activation(void)
{
  return activation;
}

/* The reply to the last call. */
static struct toarmuts_turn last_answer;

/* A call that one process makes in the name of another, and what is read of its reply. */
static const struct toarmuts_call *errand;
static uint32_t errand_reply;
static uint64_t errand_number;

/* Calls that processes make as soon as they have the reply that they await: others freed their blocks, or set or stopped their timers. Few
 * programs need this table. */
struct late_call {
  const struct process *owner;
  struct toarmuts_call call;
};

static struct late_call *late_calls;
static size_t late_count, late_room;

static void
hand_in(const struct toarmuts_call *call)
{
  uint32_t status = answer_turn(call);
  if(status != 0) {
    stop("the mote rejects a call of kind %u: status %u", (unsigned)call->kind, (unsigned)status);
  }
}

/* Makes the call that another process asked this one to make. */
static void
run_errand(void)
{
  const struct toarmuts_call *call = errand;
  const struct toarmuts_turn *answer;
  errand = NULL;
  answer = mote_call(call);
  errand_reply = answer->reply;
  errand_number = answer->number;
}

/*
 * Whether it is on the stack below a frame: such an object is lost at the wait. A program may run a turn on another stack, of a thread
 * or a context: nothing is known of the memory near that.
 */
bool
is_lost(const void *place, const void *frame)
{
  return is_on_stack(frame) && is_on_stack(place) && (uintptr_t)place < (uintptr_t)frame;
}

/* Before a process ends: others have its callback timers, or it stays in the mote as the last one, for these or for frames. */
static bool
leaves(const struct process *p, bool ends)
{
  check_callbacks(p, __builtin_frame_address(0));
  if(ends) {
    keep_receiver(p);
  }
  if(ends && (stays_for_frames(p) || stays_for_callbacks(p))) {
    stop_event_timers(p);
    return false;
  }
  pass_on_callbacks(p);
  return true;
}

/* The end of an activation: `exit` if the process ends in it, otherwise `wait`. */
static void
end_activation(const struct activation *present, bool ends)
{
  static const struct toarmuts_call waits = {.kind = TOARMUTS_CALL_WAIT}, exits = {.kind = TOARMUTS_CALL_EXIT};
  struct process *p = present->process;
  bool is_last = ends || present->turn->event == PROCESS_EVENT_EXIT, stays;
  if(!ends) {
    check_timers(__builtin_frame_address(0));
    check_blocks(p, __builtin_frame_address(0));
  }
  flush_console();
  stays = is_last && !leaves(p, ends);
  hand_in(ends && !stays ? &exits : &waits);
  if(stays) {
    note_staying(p);
  } else if(is_last) {
    note_ended(p);
    forget_event_timers(p);
    forget_receiver(p);
  }
}

/* An activation, from what a process receives to its wait or its exit. The turn stays until then. */
void
run_activation(const struct toarmuts_turn *turn)
{
  struct process *caller = process_current;
  struct activation present;
  bool ends;
  present.process = process_of(turn->process);
  present.turn = turn;
  present.line = shown_lines() + 1;
  present.is_ending = false;
  present.outer = activation;
  if(turn->origin == TOARMUTS_FROM_EVENT || turn->origin == TOARMUTS_FROM_CALLBACK) {
    rounds_begun++;
  }
  activation = &present;
  process_current = present.process;
  if(errand != NULL && (turn->event == ERRAND_EVENT || turn->event == PROCESS_EVENT_INIT)) {
    /* A process that was started for this exits again. */
    ends = turn->event == PROCESS_EVENT_INIT;
    run_errand();
  } else {
    ends = activate(&present);
  }
  end_activation(&present, ends || present.is_ending);
  activation = present.outer;
  process_current = caller;
}

/* Removes the first call that is left for a process; false if there is none. */
static bool
take_late_call(const struct process *p, struct toarmuts_call *call)
{
  size_t i = 0;
  while(i < late_count && late_calls[i].owner != p) {
    i++;
  }
  if(i == late_count) {
    return false;
  }
  *call = late_calls[i].call;
  late_count--;
  memmove(late_calls + i, late_calls + i + 1, (late_count - i) * sizeof late_calls[0]);
  return true;
}

/* stack-check.h: the deepest frame of a call so far. */

static const char *deepest_frame;

static void
note_frame(const char *frame)
{
  if(is_on_stack(frame) && (deepest_frame == NULL || frame < deepest_frame)) {
    deepest_frame = frame;
  }
}

int32_t
stack_check_get_usage(void)
{
  note_frame(__builtin_frame_address(0));
  return deepest_frame == NULL ? 0 : (int32_t)((const char *)stack_begin - deepest_frame);
}

/* A nested activation. Its turn was put where the reply will be. It isn't inlined: few calls need room for a second turn. */
static __attribute__((noinline)) void
run_nested(const struct toarmuts_turn *turn)
{
  struct toarmuts_turn kept = *turn;
  run_activation(&kept);
}

/* Makes a call, and works on to the turn with its reply. */
static void
call_and_wait(const struct toarmuts_call *call, struct toarmuts_turn *answer)
{
  hand_in(call);
  while(next_turn(answer)) {
    if(answer->stimulus == TOARMUTS_ANSWER) {
      return;
    }
    run_nested(answer);
  }
  stop("the mote rests where a reply must follow");
}

/* The process has its reply, which stays: it makes the calls that were left for it. */
static void
make_late_calls(const struct process *p, struct toarmuts_turn *reply)
{
  struct toarmuts_turn kept = *reply;
  struct toarmuts_call call;
  while(take_late_call(p, &call)) {
    struct toarmuts_turn answer;
    call_and_wait(&call, &answer);
    if(call.kind == TOARMUTS_CALL_TIMER_EXPIRED) {
      note_settled(p, call.numbers[0], answer.number != 0);
    }
  }
  *reply = kept;
}

const struct toarmuts_turn *
mote_call(const struct toarmuts_call *call)
{
  if(activation == NULL) {
    stop("a call of the mote is made outside of any process");
  }
  note_frame(__builtin_frame_address(0));
  flush_console();
  call_and_wait(call, &last_answer);
  if(late_count > 0) {
    make_late_calls(activation->process, &last_answer);
  }
  return &last_answer;
}

const struct toarmuts_turn *
mote_told(void)
{
  return activation->turn;
}

unsigned
refusal_of(const struct toarmuts_turn *answer)
{
  return answer->reply == TOARMUTS_REPLY_REFUSED ? (unsigned)answer->number : 0;
}

static bool
is_of_blocks(uint32_t kind)
{
  return kind >= TOARMUTS_CALL_MMEM_ALLOC && kind <= TOARMUTS_CALL_HEAP_STATS;
}

/* Whether a block that was freed stays in the mote until its owner has a reply. */
bool
has_late_blocks(void)
{
  size_t i = 0;
  while(i < late_count && !is_of_blocks(late_calls[i].call.kind)) {
    i++;
  }
  return i < late_count;
}

/* Whether it awaits a reply, so that it can't make a call for another process. */
bool
awaits_reply(const struct process *p)
{
  return activation != NULL && p != activation->process && is_active(p);
}

/*
 * The numbers of timers and blocks belong to one process. If another process is active, it sends the owner an event at once, and the
 * owner makes the call. A process that has ended has blocks, and no timers: for a call on a block it is started.
 */
const struct toarmuts_turn *
ask_for(struct process *owner, const struct toarmuts_call *call)
{
  if(activation == NULL || owner == activation->process) {
    return mote_call(call);
  }
  errand = call;
  MOTE_ASK(TOARMUTS_CALL_POST_SYNCH, owner->number, ERRAND_EVENT);
  if(errand != NULL && is_of_blocks(call->kind) && !is_active(owner)) {
    start_for_errand(owner);
  }
  if(errand != NULL) {
    errand = NULL;
    stop("a timer or a block of %s must change, and can't: the process isn't running, or is in an activation", name_of(owner));
  }
  last_answer.reply = errand_reply;
  last_answer.number = errand_number;
  return &last_answer;
}

static void
leave_call(const struct process *owner, const struct toarmuts_call *call)
{
  if(late_count == late_room) {
    late_room = late_room == 0 ? 2 : 2 * late_room;
    late_calls = realloc(late_calls, late_room * sizeof *late_calls);
    if(late_calls == NULL) {
      give_up(STATUS_NO_MEMORY, "out of memory");
    }
  }
  late_calls[late_count++] = (struct late_call){owner, *call};
}

/* Makes a call that is never refused, for a process. If that one is busy, it makes the call as soon as it has its reply; meanwhile no time
 * passes. */
void
order(struct process *owner, const struct toarmuts_call *call)
{
  if(awaits_reply(owner)) {
    leave_call(owner, call);
  } else {
    ask_for(owner, call);
  }
}
