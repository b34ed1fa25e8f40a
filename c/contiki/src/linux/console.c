/*
 * What a program prints: all that it writes on standard output, by any function of C. It is buffered, and becomes a `print` at a line
 * end, at 64 bytes, and before the process makes another call or waits.
 */
#define _GNU_SOURCE
#include "linux.h"

#include <signal.h>
#include <stdio_ext.h>

static char gathered[CHUNK];
static uint32_t gathered_length;

/* The run is over: what the C library still writes at the program's end is dropped. */
static bool is_closed;

/* Whether stdio is writing something. */
static volatile sig_atomic_t is_gathering;

/* Makes a `print` of the buffered bytes. */
static void
take_gathered(struct toarmuts_call *call)
{
  mote_put_numbers(call, TOARMUTS_CALL_PRINT, (const uint32_t[4]){0});
  call->length = gathered_length;
  memcpy(call->bytes, gathered, gathered_length);
  gathered_length = 0;
}

/* It isn't inlined: mostly there is nothing to print, and no room for a call is needed. */
static __attribute__((noinline)) void
print_gathered(void)
{
  struct toarmuts_call call;
  take_gathered(&call);
  mote_call(&call);
}

/* Bytes that stdio buffers, by setvbuf, come first. This is called before each call of the mote; mostly there is nothing to print. */
void
flush_console(void)
{
  if(!is_gathering && __fpending(stdout) > 0) {
    fflush(stdout);
  }
  if(gathered_length > 0) {
    print_gathered();
  }
}

/* The run ends in a handler of signals: the buffered bytes are the last call, unless stdio is writing more. */
void
keep_console(void)
{
  if(!is_gathering && gathered_length > 0) {
    struct toarmuts_call call;
    take_gathered(&call);
    make_last_call(&call);
  }
}

/* Receives what a function of stdio writes. */
static ssize_t
gather(void *cookie, const char *text, size_t length)
{
  (void)cookie;
  is_gathering = 1;
  for(size_t i = 0; i < length && !is_closed; i++) {
    gathered[gathered_length++] = text[i];
    if(text[i] == '\n' || gathered_length == CHUNK) {
      flush_console();
    }
  }
  is_gathering = 0;
  return (ssize_t)length;
}

void
close_console(void)
{
  is_closed = true;
}

/* From now on standard output is the mote's console, and standard input is empty for the program, since the script may be there. The
 * GNU C library lets a program set both. */
void
open_console(void)
{
  cookie_io_functions_t functions = {.write = gather};
  FILE *console = fopencookie(NULL, "w", functions), *nothing = fopen("/dev/null", "r");
  if(console == NULL || nothing == NULL) {
    give_up(STATUS_NO_MEMORY, "out of memory");
  }
  setvbuf(console, NULL, _IONBF, 0);
  stdout = console;
  stdin = nothing;
}

/* A print was interrupted: the next one begins on a new console. */
void
renew_console(void)
{
  gathered_length = 0;
  is_gathering = 0;
  open_console();
}
