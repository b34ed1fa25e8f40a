/* In place of the ports a script that is in the image: for the emulator, which ends after it. The third port has the transcript. */
#include "firmware.h"

enum { LINE_ROOM = 640 };

/* settings.c has the script. */
extern const char board_script[], board_script_end[];

void
show_board_line(void)
{
  uint8_t line[LINE_ROOM];
  uint64_t length;
  if(last_line(line, sizeof line - 1, &length) == 0) {
    line[length] = '\n';
    output_put_at_once(RECORD, line, (size_t)length + 1);
  }
}

void
run_board_script(void)
{
  uint64_t number = 1;
  for(const char *line = board_script; line < board_script_end; number++) {
    const char *end = memchr(line, '\n', (size_t)(board_script_end - line));
    size_t length = (size_t)((end == NULL ? board_script_end : end) - line);
    uint32_t status = feed_line(line, length);
    if(status != 0 && status != TOARMUTS_BAD_LINE) {
      stop("the mote accepts no more inputs");
    }
    if(status != 0) {
      struct report report = {.length = 0};
      add_text(&report, "bad line ");
      add_number(&report, number);
      add_text(&report, "\n");
      output_put_at_once(RECORD, report.text, report.length);
      board_stop(STATUS_BAD_LINE);
    }
    run_to_rest();
    line += length + 1;
  }
  board_stop(STATUS_FINISHED);
}
