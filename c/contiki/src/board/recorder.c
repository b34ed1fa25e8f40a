/*
 * What leaves the board: what is printed, on the console; what is sent, on the radio; and the record on the third port. Where that port
 * takes nothing for a time, the record ends, and says so: it never has a gap.
 */
#include "firmware.h"

#include "../record.h"

enum { END_ROOM = 48, PIECE = 64 };

static uint64_t line_count;
static bool has_ended;

uint64_t
shown_lines(void)
{
  return line_count;
}

bool
is_recording(void)
{
  return board_settings.has_record && !has_ended;
}

bool
record_has_ended(void)
{
  return has_ended;
}

/* A line may be longer than the ring, so the record may end within one: a replay ends before that. The room of the ring that the last
 * comment needs is never used by others. */
void
put_record(const void *bytes, size_t length)
{
  static const char end[] = "# the record ends here: the port is too slow\n";
  for(size_t at = 0; at < length && !has_ended; at += PIECE) {
    size_t size = MIN(length - at, PIECE);
    has_ended = !output_wait(RECORD, size + END_ROOM);
    if(has_ended) {
      output_put(RECORD, end, sizeof end - 1);
    } else {
      output_put(RECORD, (const uint8_t *)bytes + at, size);
    }
  }
}

/* value.h: on a board there is no replay. */
bool
take_value(uint32_t *value)
{
  (void)value;
  return false;
}

static void
note_loss(uint32_t *noted, uint32_t count, const char *where, const char *what)
{
  if(count != *noted) {
    record_note(where, count - *noted, what);
    *noted = count;
  }
}

/* Notes bytes that were lost, as comments: the mote knows nothing of them. */
void
note_losses(void)
{
  static uint32_t line, radio, bad, printed, sent;
  note_loss(&line, input_lost(CONSOLE), "serial line: ", " bytes lost");
  note_loss(&radio, input_lost(RADIO), "radio: ", " bytes lost");
  note_loss(&bad, bad_frames(), "radio: ", " bad frames");
  note_loss(&printed, output_lost(CONSOLE), "console: ", " bytes not written");
  note_loss(&sent, output_lost(RADIO), "radio: ", " bytes not sent");
}

/* In a script: the last line of the transcript. */
static void
show_line(void)
{
  if(board_settings.show_script_line != NULL) {
    board_settings.show_script_line();
  }
}

static __attribute__((noinline)) void
send_last_frame(void)
{
  uint8_t bytes[LINE_BYTES];
  size_t length = last_sent(bytes, sizeof bytes);
  if(length > 0) {
    send_frame(bytes, length);
  }
}

/* A turn, with its call. */
void
show_turn(const struct toarmuts_call *call)
{
  line_count++;
  if(call->kind == TOARMUTS_CALL_PRINT) {
    output_put(CONSOLE, call->bytes, call->length);
  } else if(call->kind == TOARMUTS_CALL_PACKET_OPEN) {
    radio_open();
  }
  show_line();
}

/* An input, a note or the halt. */
void
show_entry(void)
{
  line_count++;
  show_line();
  send_last_frame();
}
