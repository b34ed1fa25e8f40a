/*
 * How a run ends at a fault. The message on standard error names the process, what it received, and the line of the transcript where
 * it received that.
 */
#define _XOPEN_SOURCE 700
#include "linux.h"

#include <signal.h>
#include <stdarg.h>
#include <stdlib.h>
#include <sys/resource.h>
#include <sys/time.h>
#include <unistd.h>

enum { STACK_ROOM = 1 << 16, STACK_NEAR = 1 << 20, PATIENCE = 10 };

/* Whether the sanitizers are in the program: they report crashes themselves, and call back before they end it. */
extern void __sanitizer_set_death_callback(void (*callback)(void)) __attribute__((weak));

static void
write_report(const struct report *report)
{
  ssize_t written = __write(STDERR_FILENO, report->text, report->length);
  (void)written;
}

/* Says what happens where. */
static void
tell_now(const char *what)
{
  struct report report = {.length = 0};
  add_place(&report);
  add_text(&report, what);
  add_text(&report, "\n");
  write_report(&report);
}

/* The same after the whole transcript, with what was printed without a line end. The transcript's writing isn't interrupted. */
static void
tell(const char *what)
{
  keep_console();
  flush_transcript();
  tell_now(what);
}

static bool is_over;

/* From here on nothing more is reported. */
static void
end_run(void)
{
  is_over = true;
  close_console();
  close_mote();
}

/* Says that a mote was halted. */
void
tell_halt(void)
{
  struct report report = {.length = 0};
  add_halt(&report);
  add_text(&report, "\n");
  write_report(&report);
}

/* Ends the program with the transcript so far. */
void
finish(int status)
{
  end_run();
  flush_transcript();
  exit(status);
}

/* Ends it because the one mote was halted. */
void
halt(void)
{
  end_run();
  flush_transcript();
  tell_halt();
  exit(STATUS_HALTED);
}

/* What was printed without a line end is written, too. */
static void
keep_prints(void)
{
  if(present_activation() != NULL) {
    flush_console();
  }
}

/* Ends it because the program went beyond a limit. */
void
stop(const char *format, ...)
{
  char what[REPORT_ROOM];
  va_list arguments;
  keep_prints();
  va_start(arguments, format);
  vsnprintf(what, sizeof what, format, arguments);
  va_end(arguments);
  tell(what);
  end_run();
  exit(STATUS_STOPPED);
}

/* Ends it for a reason outside of any process. */
void
give_up(int status, const char *format, ...)
{
  va_list arguments;
  end_run();
  va_start(arguments, format);
  fputs("contiki: ", stderr);
  if(present_mote() != 0) {
    fprintf(stderr, "mote %u: ", present_mote());
  }
  vfprintf(stderr, format, arguments);
  fputs("\n", stderr);
  va_end(arguments);
  exit(status);
}

/* Roughly the lower end of the stack; 0 if it has no limit. */
static uintptr_t stack_end;

static void
note_stack_end(void)
{
  struct rlimit limit;
  if(getrlimit(RLIMIT_STACK, &limit) == 0 && limit.rlim_cur != RLIM_INFINITY) {
    stack_end = (uintptr_t)__builtin_frame_address(0) - (uintptr_t)limit.rlim_cur;
  }
}

static bool
is_end_of_stack(const void *place)
{
  return stack_end != 0 && (uintptr_t)place - (stack_end - STACK_NEAR) < 2 * (uintptr_t)STACK_NEAR;
}

/* A crash: it is reported, and then ends the program. */
static void
handle_crash(int number, siginfo_t *info, void *context)
{
  (void)context;
  switch(number) {
  case SIGSEGV:
    tell(is_end_of_stack(info->si_addr) ? "a crash: the stack is full, as by endless recursion (SIGSEGV)"
                                        : "a crash: an invalid address (SIGSEGV)");
    break;
  case SIGBUS:
    tell("a crash: an invalid address (SIGBUS)");
    break;
  case SIGFPE:
    tell("a crash: a division by 0 (SIGFPE)");
    break;
  case SIGILL:
    tell("a crash: an invalid instruction (SIGILL)");
    break;
  default:
    tell("the program was aborted (SIGABRT)");
    break;
  }
  raise(number);
}

/* The run is interrupted: the active process is reported, if there is one. */
static void
handle_end(int number)
{
  if(delays_signal(number)) {
    return;
  }
  signal(number, SIG_DFL);
  if(present_activation() != NULL && !is_over) {
    tell(number == SIGINT ? "interrupted (SIGINT)" : number == SIGTERM ? "ended (SIGTERM)" : "ended (SIGHUP)");
  } else {
    flush_transcript();
  }
  raise(number);
}

/* Asks for the signal SIGALRM in ten seconds. It doesn't use `alarm`, since a program may define a function of that name. */
static void
begin_patience(void)
{
  setitimer(ITIMER_REAL, &(struct itimerval){.it_value = {.tv_sec = PATIENCE}}, NULL);
}

/* A process that makes no call for ten seconds is reported once. */
static void
handle_alarm(int number)
{
  static uint64_t last = UINT64_MAX;
  (void)number;
  if(present_activation() != NULL && last == shown_lines()) {
    tell_now("no call for 10 seconds: perhaps an endless loop");
    return;
  }
  last = shown_lines();
  begin_patience();
}

/* The address sanitizer also finds a pointer to a local variable that is gone, as one that was posted. The motes of a network may have
 * variables of the same name. */
__attribute__((visibility("default"))) const char *__asan_default_options(void);

const char *
__asan_default_options(void)
{
  return "detect_stack_use_after_return=1:detect_odr_violation=0";
}

static bool is_undefined;

/* The sanitizer of undefined behaviour calls this before its report; that of gcc calls nothing when it ends the program. */
__attribute__((visibility("default"))) void __ubsan_on_report(void);

void
__ubsan_on_report(void)
{
  if(!is_over && !is_undefined) {
    is_undefined = true;
    tell("undefined behaviour: the sanitizer's report is below");
  }
}

static void
handle_death(void)
{
  if(!is_over && !is_undefined) {
    tell("the sanitizer's report is above");
  }
}

static void
handle_exit(void)
{
  if(!is_over) {
    keep_prints();
    tell("the program called exit");
    _exit(STATUS_STOPPED);
  }
}

static void
handle_crashes(int number)
{
  struct sigaction action = {.sa_sigaction = handle_crash, .sa_flags = SA_ONSTACK | SA_SIGINFO | (int)SA_RESETHAND};
  sigaction(number, &action, NULL);
}

/* Signals from outside. One that is ignored stays so. */
static void
handle_ends(void)
{
  static const int numbers[] = {SIGINT, SIGTERM, SIGHUP};
  for(unsigned i = 0; i < sizeof numbers / sizeof numbers[0]; i++) {
    struct sigaction action = {.sa_handler = handle_end, .sa_flags = SA_ONSTACK}, before;
    if(sigaction(numbers[i], NULL, &before) == 0 && before.sa_handler != SIG_IGN) {
      sigaction(numbers[i], &action, NULL);
    }
  }
}

void
watch_for_faults(void)
{
  static char stack[STACK_ROOM];
  stack_t place = {.ss_sp = stack, .ss_size = sizeof stack};
  atexit(handle_exit);
  handle_ends();
  /* If nobody reads the output, a write fails, as in mote. */
  signal(SIGPIPE, SIG_IGN);
  sigaction(SIGALRM, &(struct sigaction){.sa_handler = handle_alarm, .sa_flags = SA_ONSTACK | SA_RESTART}, NULL);
  begin_patience();
  handle_crashes(SIGABRT);
  if(__sanitizer_set_death_callback != NULL) {
    __sanitizer_set_death_callback(handle_death);
    return;
  }
  sigaltstack(&place, NULL);
  note_stack_end();
  handle_crashes(SIGSEGV);
  handle_crashes(SIGBUS);
  handle_crashes(SIGFPE);
  handle_crashes(SIGILL);
}
