/* Runs blink, and a list of calls, and prints the transcripts. */
#include "toarmuts.h"

#include <stdio.h>
#include <string.h>

static int
run(const char *applications, const char *script)
{
  static uint8_t transcript[1 << 16];
  struct toarmuts_configuration configuration = TOARMUTS_DEFAULTS;
  struct toarmuts_outcome outcome;
  toarmuts_run(&configuration, (const uint8_t *)applications, strlen(applications), (const uint8_t *)script, strlen(script), transcript,
               sizeof transcript, &outcome);
  fwrite(transcript, 1, outcome.status == TOARMUTS_NO_ROOM ? 0 : outcome.length, stdout);
  return (int)outcome.status;
}

int
main(void)
{
  return run("blink", "tick 10\ntick 10\n") | run("calls timer-set 0 5, wait, print 6869", "tick 5\n");
}
