/*
 * Clock and timers: clock.h, timer.h and etimer.h.
 *
 * A struct etimer has one of its process's eight event timers in the mote, until another timer needs it. The mote decides when it runs
 * out. The struct has start and interval as in Contiki-NG. If the mote's timer has the same two numbers, a reset and a restart are calls
 * of the mote; otherwise the timer is set for the ticks that are left. Callback timers work the same way (callbacks.c).
 *
 * A process that awaits a reply can't make a call for another one: what that one changes of its timers, it does after the reply. Meanwhile
 * no time passes, and no timer runs out.
 */
#include "timers.h"

enum { EVENT_TIMERS = 8, MOST_QUESTIONS = 1000000 };

/* The event timers of a process, and when it ended last. */
struct event_timers {
  struct cell cells[EVENT_TIMERS];
  clock_time_t ended_at;
};

/* Those of each process, once any has set a timer. */
static struct event_timers *tables;

/* Whether a timer on the stack was ever set. Few programs have one, and only then all timers are checked before each wait. */
static bool has_any_on_stack;

static struct cell *
cells_of(const struct process *p)
{
  unsigned index = index_of(p);
  if(tables == NULL) {
    tables = take_bytes(process_count * sizeof *tables);
  }
  return tables[index].cells;
}

/* The clock, by the call `clock`, so that a program that waits for it in an endless loop is halted. */

clock_time_t
clock_time(void)
{
  return MOTE_ASK(TOARMUTS_CALL_CLOCK, 0)->number;
}

/* timer.h: only the clock. */

void
timer_set(struct timer *t, clock_time_t interval)
{
  t->interval = interval;
  t->start = clock_time();
}

void
timer_reset(struct timer *t)
{
  if(timer_expired(t)) {
    t->start += t->interval;
  }
}

void
timer_restart(struct timer *t)
{
  t->start = clock_time();
}

/* Whether an interval is over, as in Contiki-NG. One that begins a tick ahead isn't; its start may be any earlier time. */
static bool
has_elapsed(clock_time_t now, clock_time_t start, clock_time_t interval)
{
  return interval < now - start + 1;
}

bool
timer_expired(struct timer *t)
{
  return has_elapsed(clock_time(), t->start, t->interval);
}

clock_time_t
timer_remaining(struct timer *t)
{
  return t->start + t->interval - clock_time();
}

/* Cells: which of the mote's timers a timer has. */

/* The ticks that an interval has left, as in Contiki-NG: 0 if it is over, also if it began before the clock did. */
clock_time_t
left_of(clock_time_t start, clock_time_t interval)
{
  clock_time_t now = clock_now();
  return has_elapsed(now, start, interval) ? 0 : start + interval - now;
}

static bool
is_over(const struct etimer *et)
{
  return left_of(et->timer.start, et->timer.interval) == 0;
}

/* Whether the mote's timer is due. */
static bool
is_due(const struct cell *cell)
{
  return left_of(cell->start, cell->interval) == 0;
}

/*
 * Whether an armed timer has run out, as far as the driver knows: a round removes due timers from the list, as many as the event queue
 * has room for.
 */
bool
has_run_out(const struct cell *cell)
{
  return is_due(cell) && cell->set_in != rounds_begun;
}

/* Whether it runs out later, and its event wasn't received. */
static bool
is_pending(const struct cell *cell)
{
  return cell->is_armed && !has_run_out(cell);
}

uint32_t
checked_interval(clock_time_t interval)
{
  if(interval > UINT32_MAX) {
    stop("a timer of %lu ticks: the longest has 4294967295", interval);
  }
  return (uint32_t)interval;
}

/* The index of a timer among a process's cells, or their number. */
unsigned
slot_of(const void *timer, const struct cell *cells, unsigned count)
{
  unsigned slot = 0;
  while(slot < count && cells[slot].timer != timer) {
    slot++;
  }
  return slot;
}

static bool
is_free(const struct cell *cell)
{
  return !cell->is_armed && cell->waiting == 0;
}

/* The timer's cell; otherwise one that no timer had; otherwise one whose timer isn't set; their number if all are set. */
unsigned
free_slot(const void *timer, const struct cell *cells, unsigned count)
{
  unsigned slot = slot_of(timer, cells, count);
  if(slot == count) {
    slot = slot_of(NULL, cells, count);
  }
  for(unsigned i = 0; slot == count && i < count; i++) {
    if(is_free(&cells[i])) {
      slot = i;
    }
  }
  return slot;
}

/* Notes that the mote's timer starts again. */
void
note_armed(struct cell *cell, clock_time_t start, clock_time_t interval)
{
  cell->start = start;
  cell->interval = interval;
  cell->set_in = rounds_begun;
  cell->is_armed = true;
  has_any_on_stack |= is_on_stack(cell->timer);
}

/* Counts the questions whether a timer ran out. An endless loop of them waits for it without a call of the mote. */
void
note_question(void)
{
  static uint64_t line, count;
  count = line == shown_lines() ? count + 1 : 1;
  line = shown_lines();
  if(count == MOST_QUESTIONS) {
    stop("timers were asked a million times without a wait: the clock stands still during an activation, so use PROCESS_WAIT_EVENT_UNTIL");
  }
}

/* etimer.h */

/* The timer of a cell has run out, was stopped, or its event was received: its flag is cleared. */
static void
note_expired(struct cell *cell)
{
  struct etimer *et = (struct etimer *)(uintptr_t)cell->timer;
  cell->is_armed = false;
  if(et != NULL) {
    et->p = PROCESS_NONE;
  }
}

/* If an armed timer may have run out, the mote is asked: then its event is in the queue. */
static void
settle(struct process *owner, unsigned slot)
{
  struct cell *cell = &cells_of(owner)[slot];
  if(cell->is_armed && is_due(cell) && !awaits_reply(owner) && ASK_FOR(owner, TOARMUTS_CALL_TIMER_EXPIRED, slot)->number != 0) {
    note_expired(cell);
    cell->waiting++;
  }
}

/* The same before the timer changes. An owner that awaits a reply is asked later, and stops the timer then: until it replies, the event
 * counts as one in the queue. */
static void
settle_for_change(struct process *owner, unsigned slot)
{
  struct cell *cell = &cells_of(owner)[slot];
  settle(owner, slot);
  if(cell->is_armed && is_due(cell) && awaits_reply(owner)) {
    ORDER(owner, TOARMUTS_CALL_TIMER_EXPIRED, slot);
    ORDER(owner, TOARMUTS_CALL_TIMER_STOP, slot);
    note_expired(cell);
    cell->waiting++;
  }
}

/* The reply to the question that was asked later. */
void
note_settled(const struct process *owner, unsigned slot, bool has_expired)
{
  cells_of(owner)[slot].waiting -= !has_expired;
}

/* Stops the mote's timer, if the timer is armed for a process. An event that is already in the queue is still delivered. */
static void
disarm(const struct etimer *et, struct process *owner)
{
  struct cell *cells = cells_of(owner);
  unsigned slot = slot_of(et, cells, EVENT_TIMERS);
  if(slot == EVENT_TIMERS) {
    return;
  }
  settle_for_change(owner, slot);
  if(cells[slot].is_armed) {
    ORDER(owner, TOARMUTS_CALL_TIMER_STOP, slot);
    note_expired(&cells[slot]);
  }
}

/* Gives the current process a timer that another one may have had. Returns its index. */
static unsigned
take_timer(struct etimer *et)
{
  struct process *owner = process_current;
  struct cell *cells = cells_of(owner);
  unsigned slot;
  if(et->p != owner && is_process(et->p)) {
    disarm(et, et->p);
  }
  slot = free_slot(et, cells, EVENT_TIMERS);
  if(slot == EVENT_TIMERS) {
    stop("more than %u event timers of one process are set: stop one before this etimer_set, set some for another process "
         "(PROCESS_CONTEXT_BEGIN), or use one for several times",
         EVENT_TIMERS);
  }
  cells[slot].timer = et;
  settle_for_change(owner, slot);
  return slot;
}

/* `timer-set`, to the timer's end. */
static void
arm_to_end(struct etimer *et, unsigned slot)
{
  uint32_t interval = checked_interval(left_of(et->timer.start, et->timer.interval));
  ORDER(process_current, TOARMUTS_CALL_TIMER_SET, slot, interval);
  note_armed(&cells_of(process_current)[slot], clock_now(), interval);
  et->p = process_current;
}

/* `timer-set` */
void
etimer_set(struct etimer *et, clock_time_t interval)
{
  unsigned slot = take_timer(et);
  et->timer.interval = interval;
  et->timer.start = clock_now();
  arm_to_end(et, slot);
}

/* `timer-reset`, if the mote's timer has the same start and interval; otherwise `timer-set`. */
void
etimer_reset(struct etimer *et)
{
  unsigned slot = take_timer(et);
  struct cell *cell = &cells_of(process_current)[slot];
  bool is_same = cell->start == et->timer.start && cell->interval == et->timer.interval;
  if(!is_over(et)) {
    /* It hasn't run out: it continues, or is set again if it was stopped. */
    if(cell->is_armed) {
      et->p = process_current;
    } else {
      arm_to_end(et, slot);
    }
    return;
  }
  et->timer.start += et->timer.interval;
  if(is_same) {
    ORDER(process_current, TOARMUTS_CALL_TIMER_RESET, slot);
    note_armed(cell, et->timer.start, et->timer.interval);
    et->p = process_current;
  } else {
    arm_to_end(et, slot);
  }
}

/* `timer-set` */
void
etimer_reset_with_new_interval(struct etimer *et, clock_time_t interval)
{
  unsigned slot = take_timer(et);
  if(is_over(et)) {
    et->timer.start += et->timer.interval;
  }
  et->timer.interval = interval;
  arm_to_end(et, slot);
}

/* `timer-restart`, if the mote's timer has the same interval; otherwise `timer-set`. */
void
etimer_restart(struct etimer *et)
{
  unsigned slot = take_timer(et);
  struct cell *cell = &cells_of(process_current)[slot];
  et->timer.start = clock_now();
  if(cell->interval == et->timer.interval) {
    ORDER(process_current, TOARMUTS_CALL_TIMER_RESTART, slot);
    note_armed(cell, et->timer.start, et->timer.interval);
    et->p = process_current;
  } else {
    arm_to_end(et, slot);
  }
}

/* `timer-set`, if it is set; its position on the mote's list stays. A timer whose event is in the queue isn't set any more. */
void
etimer_adjust(struct etimer *et, int td)
{
  struct process *caller = process_current, *owner = et->p;
  unsigned slot;
  et->timer.start += (clock_time_t)(long)td;
  if(!is_process(owner)) {
    return;
  }
  slot = slot_of(et, cells_of(owner), EVENT_TIMERS);
  if(slot < EVENT_TIMERS) {
    const struct cell *cell = &cells_of(owner)[slot];
    settle(owner, slot);
    if(awaits_reply(owner) ? is_pending(cell) : cell->is_armed) {
      process_current = owner;
      arm_to_end(et, slot);
      process_current = caller;
    }
  }
}

/* `timer-stop`, if it is set. */
void
etimer_stop(struct etimer *et)
{
  if(is_process(et->p)) {
    disarm(et, et->p);
  }
  et->p = PROCESS_NONE;
}

/*
 * By the flag in the struct, as in Contiki-NG. It is cleared when the event is received; before that the mote is asked by
 * `timer-expired`, if the timer may have run out. An owner that awaits a reply isn't asked: the timer ran out if it was due in a round
 * before. If the timer's process has ended, the flag is unchanged.
 */
bool
etimer_expired(struct etimer *et)
{
  struct process *owner;
  unsigned slot;
  note_question();
  /* The struct may be uninitialised: then it isn't expired, as in Contiki-NG. */
  if(!is_process(et->p)) {
    return et->p == PROCESS_NONE;
  }
  owner = et->p;
  slot = slot_of(et, cells_of(owner), EVENT_TIMERS);
  if(slot < EVENT_TIMERS) {
    settle(owner, slot);
  }
  return et->p == PROCESS_NONE || (slot < EVENT_TIMERS && awaits_reply(owner) && has_run_out(&cells_of(owner)[slot]));
}

clock_time_t
etimer_expiration_time(struct etimer *et)
{
  return et->timer.start + et->timer.interval;
}

clock_time_t
etimer_start_time(struct etimer *et)
{
  return et->timer.start;
}

/* An event timer's event is received: from when the timer was armed last, or from before. */
struct etimer *
etimer_told(struct process *p, unsigned slot)
{
  struct cell *cell = &cells_of(p)[slot];
  if(cell->waiting > 0) {
    cell->waiting--;
  } else if(cell->is_armed && is_due(cell)) {
    note_expired(cell);
  }
  return (struct etimer *)(uintptr_t)cell->timer;
}

/* All timers. */

/* The least end of the pending timers among these, if it is below another one. */
clock_time_t
least_end(const struct cell *cells, unsigned count, clock_time_t least)
{
  for(unsigned i = 0; i < count; i++) {
    if(is_pending(&cells[i]) && cells[i].start + cells[i].interval < least) {
      least = cells[i].start + cells[i].interval;
    }
  }
  return least;
}

static clock_time_t
next_end(void)
{
  clock_time_t least = NEVER;
  note_question();
  for(unsigned i = 0; i < process_count; i++) {
    least = tables == NULL ? least : least_end(tables[i].cells, EVENT_TIMERS, least);
    least = least_callback(i, least);
  }
  return least;
}

bool
etimer_pending(void)
{
  return next_end() != NEVER;
}

clock_time_t
etimer_next_expiration_time(void)
{
  clock_time_t end = next_end();
  return end == NEVER ? 0 : end;
}

/* None of these timers, if it is set, may be on the stack below the frame. */
void
check_cells(const struct cell *cells, unsigned count, const void *frame, const char *what)
{
  for(unsigned i = 0; has_any_on_stack && i < count; i++) {
    if(cells[i].is_armed && is_lost(cells[i].timer, frame)) {
      stop("a struct %s on the stack is set, and is lost at this wait: make it static", what);
    }
  }
}

/* A timer that is set must not be on the stack of a thread or a callback: it would be lost at the wait. */
void
check_timers(const void *frame)
{
  for(unsigned i = 0; has_any_on_stack && tables != NULL && i < process_count; i++) {
    check_cells(tables[i].cells, EVENT_TIMERS, frame, "etimer");
  }
  for(unsigned i = 0; has_any_on_stack && i < process_count; i++) {
    check_callbacks(processes[i], frame);
  }
}

/* The event timers of a process that has ended are stopped. The flags of those that hadn't run out stay, as in Contiki-NG. */
void
forget_event_timers(const struct process *p)
{
  if(tables == NULL) {
    return;
  }
  tables[index_of(p)].ended_at = clock_now();
  for(unsigned slot = 0; slot < EVENT_TIMERS; slot++) {
    struct cell *cell = &cells_of(p)[slot];
    if(cell->is_armed && has_run_out(cell)) {
      note_expired(cell);
    }
    cell->is_armed = false;
  }
}

/* A process starts again. Events that waited when it ended were delivered in that tick: if it is over, to nobody, so none waits. */
void
renew_event_timers(const struct process *p)
{
  struct event_timers *own = tables == NULL ? NULL : &tables[index_of(p)];
  for(unsigned slot = 0; own != NULL && clock_now() != own->ended_at && slot < EVENT_TIMERS; slot++) {
    own->cells[slot].waiting = 0;
  }
}

/* `timer-stop` for the event timers of a process whose thread has ended, and that stays in the mote. Its callback timers continue. */
void
stop_event_timers(const struct process *p)
{
  for(unsigned slot = 0; tables != NULL && slot < EVENT_TIMERS; slot++) {
    if(cells_of(p)[slot].is_armed) {
      MOTE_ASK(TOARMUTS_CALL_TIMER_STOP, slot);
    }
  }
  forget_event_timers(p);
}
