/*
 * The message of a fault: the process, what it received, and the line of the transcript where it received that. It is built without the C
 * library, so that a handler of signals or of a board's faults may do it.
 */
#include "driver.h"

void
add_text(struct report *report, const char *text)
{
  while(*text != '\0' && report->length < REPORT_ROOM) {
    report->text[report->length++] = *text++;
  }
}

void
add_number(struct report *report, uint64_t number)
{
  char digits[21] = "";
  size_t at = sizeof digits - 1;
  do {
    digits[--at] = (char)('0' + number % 10);
    number /= 10;
  } while(number > 0);
  add_text(report, digits + at);
}

/* The names of the events from INIT on. */
static const char *const event_names[] = {
  "INIT", "POLL", "EXIT", "SERVICE_REMOVED", "CONTINUE", "MSG", "EXITED", "TIMER", "COM", "LINE", "PACKET",
};

/* What the active process received. */
static void
add_stimulus(struct report *report, const struct toarmuts_turn *turn)
{
  uint32_t place = turn->event - TOARMUTS_EVENT_INIT;
  bool is_named = turn->stimulus == TOARMUTS_EVENT && place < sizeof event_names / sizeof event_names[0];
  add_text(report, turn->stimulus == TOARMUTS_CALLBACK ? "callback" : is_named ? event_names[place] : "event");
  add_text(report, is_named ? " (" : " ");
  add_number(report, turn->stimulus == TOARMUTS_CALLBACK ? turn->number : turn->event);
  add_text(report, is_named ? ")" : "");
}

/* A process's number and name. */
static void
add_process_name(struct report *report, const struct process *p)
{
  add_text(report, "process ");
  add_number(report, p->number);
  add_text(report, " (");
  add_text(report, name_of(p));
  add_text(report, ")");
}

/* The mote of a network that works. */
static void
add_mote(struct report *report, const char *end)
{
  if(present_mote() != 0) {
    add_text(report, "mote ");
    add_number(report, present_mote());
    add_text(report, end);
  }
}

/* Which process is active, in which event, and where. */
void
add_place(struct report *report)
{
  const struct activation *present = present_activation();
  add_text(report, "contiki: ");
  if(present == NULL) {
    add_mote(report, ": ");
    return;
  }
  add_mote(report, ", ");
  add_process_name(report, present->process);
  add_text(report, ", handling ");
  add_stimulus(report, present->turn);
  add_text(report, " at line ");
  add_number(report, present->line);
  add_text(report, " of the transcript, after ");
  add_number(report, shown_lines() + 1 - present->line);
  add_text(report, " calls: ");
}

/* Says that the mote was halted, or which one of a network. */
void
add_halt(struct report *report)
{
  add_text(report, "contiki: ");
  add_mote(report, "");
  add_text(report, present_mote() == 0 ? "the mote halted" : " halted");
  add_text(report, ": one input may cause at most 10,000 turns and rounds; the last turn was that of ");
  add_process_name(report, last_process);
}
