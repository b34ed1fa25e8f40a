/*
 * Callback timers: ctimer.h.
 *
 * A process has four callback timers in the mote. If it sets more, the last one of these is shared: it is armed for the timer that ends
 * first, and the others wait for their turn in the driver.
 *
 * Callbacks outlive their process. While that doesn't run, another process has its timers in the mote.
 */
#include "timers.h"

#include <stdlib.h>

enum { CALLBACK_TIMERS = 4, SHARED_SLOT = CALLBACK_TIMERS - 1 };

/* The timers that the mote calls back for, and those that wait. None of these ends before the one of the shared slot. */
struct callbacks {
  struct cell cells[CALLBACK_TIMERS];
  struct cell *waiting;
  unsigned count, room;
};

/* Those of each process, once any has set a timer. */
static struct callbacks *tables;
static unsigned table_count;

static struct callbacks *
table_of(const struct process *p)
{
  unsigned index = index_of(p);
  if(table_count == 0) {
    tables = take_bytes(process_count * sizeof *tables);
    table_count = process_count;
  }
  return &tables[index];
}

static clock_time_t
end_of(const struct cell *cell)
{
  return cell->start + cell->interval;
}

/* Positions in a table: the slots of the mote, and after them the timers that wait. */
static struct cell *
cell_at(struct callbacks *table, unsigned position)
{
  return position < CALLBACK_TIMERS ? &table->cells[position] : &table->waiting[position - CALLBACK_TIMERS];
}

/* Finds a timer that is set; false if it isn't. */
static bool
find_callback(const struct ctimer *c, struct process **holder, unsigned *position)
{
  for(unsigned i = 0; i < table_count; i++) {
    struct callbacks *table = &tables[i];
    unsigned slot = slot_of(c, table->cells, CALLBACK_TIMERS);
    if(slot == CALLBACK_TIMERS || !table->cells[slot].is_armed) {
      slot = CALLBACK_TIMERS + slot_of(c, table->waiting, table->count);
    }
    *holder = processes[i];
    *position = slot;
    if(slot < CALLBACK_TIMERS + table->count) {
      return true;
    }
  }
  return false;
}

/* `callback-set` of a timer of the mote, to the end of this cell. */
static void
arm_slot(struct process *holder, unsigned slot, const struct cell *cell)
{
  struct cell *own = &table_of(holder)->cells[slot];
  uint32_t left = (uint32_t)left_of(cell->start, cell->interval);
  ORDER(holder, TOARMUTS_CALL_CALLBACK_SET, slot, left);
  own->timer = cell->timer;
  note_armed(own, clock_now(), left);
  own->set_in = cell->set_in;
}

static void
add_waiting(struct callbacks *table, const struct cell *cell)
{
  if(table->count == table->room) {
    table->room = table->room == 0 ? 2 : 2 * table->room;
    table->waiting = realloc(table->waiting, table->room * sizeof *table->waiting);
    if(table->waiting == NULL) {
      give_up(STATUS_NO_MEMORY, "out of memory");
    }
  }
  table->waiting[table->count++] = *cell;
}

static void
remove_waiting(struct callbacks *table, unsigned i)
{
  table->count--;
  memmove(table->waiting + i, table->waiting + i + 1, (table->count - i) * sizeof table->waiting[0]);
}

/* Arms the shared slot for the waiting timer that ends first; of several for the one that was set last, as the mote does. */
static void
arm_next(struct process *holder)
{
  struct callbacks *table = table_of(holder);
  unsigned first = 0;
  struct cell next;
  for(unsigned i = 1; i < table->count; i++) {
    if(end_of(&table->waiting[i]) <= end_of(&table->waiting[first])) {
      first = i;
    }
  }
  next = table->waiting[first];
  remove_waiting(table, first);
  arm_slot(holder, SHARED_SLOT, &next);
}

/* Sets a timer for a process that is in the mote. If all slots are taken, it waits, or the one of the shared slot does. */
static void
arm(struct process *holder, const struct cell *cell)
{
  struct callbacks *table = table_of(holder);
  unsigned slot = free_slot(cell->timer, table->cells, CALLBACK_TIMERS);
  if(slot < CALLBACK_TIMERS) {
    arm_slot(holder, slot, cell);
  } else if(end_of(cell) <= end_of(&table->cells[SHARED_SLOT])) {
    add_waiting(table, &table->cells[SHARED_SLOT]);
    arm_slot(holder, SHARED_SLOT, cell);
  } else {
    add_waiting(table, cell);
  }
}

/* Stops a timer that is set. */
static void
disarm(struct process *holder, unsigned position)
{
  struct callbacks *table = table_of(holder);
  if(position >= CALLBACK_TIMERS) {
    remove_waiting(table, position - CALLBACK_TIMERS);
    return;
  }
  table->cells[position].is_armed = false;
  if(position == SHARED_SLOT && table->count > 0) {
    arm_next(holder);
  } else {
    ORDER(holder, TOARMUTS_CALL_CALLBACK_STOP, position);
  }
}

/* Sets a timer to its end, for its process or, if that isn't in the mote, for the active one. A slot that it has is set again, unless other
 * timers wait for that one. */
static void
set_to_end(struct ctimer *c)
{
  struct process *holder, *next = is_in_mote(c->p) || activation == NULL ? c->p : activation->process;
  struct cell cell = {.timer = c};
  unsigned position;
  note_armed(&cell, clock_now(), checked_interval(left_of(c->etimer.timer.start, c->etimer.timer.interval)));
  if(find_callback(c, &holder, &position) &&
     (holder != next || position > SHARED_SLOT || (position == SHARED_SLOT && table_of(holder)->count > 0))) {
    disarm(holder, position);
  }
  arm(next, &cell);
  c->etimer.p = c->p;
}

/* `callback-set` */
void
ctimer_set_with_process(struct ctimer *c, clock_time_t t, void (*f)(void *), void *ptr, struct process *p)
{
  c->p = p;
  c->f = f;
  c->ptr = ptr;
  c->etimer.timer.interval = t;
  c->etimer.timer.start = clock_now();
  set_to_end(c);
}

void
ctimer_set(struct ctimer *c, clock_time_t t, void (*f)(void *), void *ptr)
{
  ctimer_set_with_process(c, t, f, ptr, process_current);
}

/* `callback-set` for the interval that follows the last one, if that is over. */
void
ctimer_reset(struct ctimer *c)
{
  if(left_of(c->etimer.timer.start, c->etimer.timer.interval) == 0) {
    c->etimer.timer.start += c->etimer.timer.interval;
  } else if(c->etimer.p != PROCESS_NONE) {
    return;
  }
  set_to_end(c);
}

/* `callback-set` */
void
ctimer_restart(struct ctimer *c)
{
  c->etimer.timer.start = clock_now();
  set_to_end(c);
}

/* `callback-stop`, if it is set. */
void
ctimer_stop(struct ctimer *c)
{
  struct process *holder;
  unsigned position;
  if(find_callback(c, &holder, &position)) {
    disarm(holder, position);
  }
  c->etimer.p = PROCESS_NONE;
}

/* The mote has no call for this question, so the driver answers it from its own notes. */
bool
ctimer_expired(struct ctimer *c)
{
  struct process *holder;
  unsigned position;
  note_question();
  if(!is_process(c->etimer.p)) {
    return c->etimer.p == PROCESS_NONE;
  }
  return find_callback(c, &holder, &position) && has_run_out(cell_at(table_of(holder), position));
}

/*
 * A callback timer has run out. The mote reports only one that was neither set nor stopped since. The callback's current process is the
 * one that set the timer, also where another one has it in the mote. For a timer that was set by mote.h the thread is called; true if
 * that has ended.
 */
bool
ctimer_told(struct process *p, unsigned slot)
{
  struct callbacks *table = table_of(p);
  struct ctimer *c = (struct ctimer *)(uintptr_t)table->cells[slot].timer;
  if(!table->cells[slot].is_armed) {
    return !PT_SCHEDULE(p->thread(&p->pt, PROCESS_EVENT_NONE, (process_data_t)(uintptr_t)slot));
  }
  table->cells[slot].is_armed = false;
  c->etimer.p = PROCESS_NONE;
  if(slot == SHARED_SLOT && table->count > 0) {
    arm_next(p);
  }
  if(c->f != NULL) {
    process_current = c->p;
    c->f(c->ptr);
    process_current = p;
  }
  return false;
}

/* Whether a process ends with callback timers that nobody else can have: then it stays in the mote for them. */
bool
stays_for_callbacks(const struct process *p)
{
  const struct callbacks *table = table_count == 0 ? NULL : table_of(p);
  bool has_any = table != NULL && table->count > 0;
  for(unsigned slot = 0; table != NULL && slot < CALLBACK_TIMERS; slot++) {
    has_any |= table->cells[slot].is_armed;
  }
  return has_any && heir_of(p) == NULL;
}

/* A process ends: another one has its callback timers from now on. */
void
pass_on_callbacks(const struct process *p)
{
  struct callbacks *table;
  if(table_count == 0) {
    return;
  }
  table = table_of(p);
  for(unsigned position = 0; position < CALLBACK_TIMERS + table->count; position++) {
    struct cell *cell = cell_at(table, position);
    if(cell->is_armed) {
      cell->is_armed = false;
      arm(heir_of(p), &(struct cell){.timer = cell->timer, .start = cell->start, .interval = cell->interval, .set_in = cell->set_in});
    }
  }
  table->count = 0;
}

/* The least end of a process's pending timers, if it is below another one. */
clock_time_t
least_callback(unsigned index, clock_time_t least)
{
  const struct callbacks *table;
  if(table_count == 0) {
    return least;
  }
  table = &tables[index];
  return least_end(table->waiting, table->count, least_end(table->cells, CALLBACK_TIMERS, least));
}

/* A timer that is set must not be on the stack of a thread or a callback: it would be lost. */
void
check_callbacks(const struct process *p, const void *frame)
{
  if(table_count > 0) {
    const struct callbacks *table = table_of(p);
    check_cells(table->cells, CALLBACK_TIMERS, frame, "ctimer");
    check_cells(table->waiting, table->count, frame, "ctimer");
  }
}
