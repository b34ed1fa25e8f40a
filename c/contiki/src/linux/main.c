/* Runs a program's processes on a mote with a script, and writes the transcript. It has the options of mote. */
#define _XOPEN_SOURCE 700
#include "linux.h"

#include "../record.h"

#include <fcntl.h>
#include <stdlib.h>
#include <unistd.h>

#define USAGE                                                                                                            \
  "Runs processes for Contiki-NG on the proved mote, and writes the transcript.\n\n"                                     \
  "The script is the file SCRIPT, or standard input. Arguments:\n\n"                                                     \
  "  [--mmem N] [--heap N] [--quota N] [--header N] [--quiet]  as for mote\n"                                            \
  "  [--text]                                                  only what the processes print\n"                          \
  "  [--test]                                                  the same; status 1 if a unit test fails or none is run\n" \
  "  [--names]                                                 only the names of the processes\n"                        \
  "  [--node N]                                                the mote's number in a network\n"                         \
  "  [--record FILE]                                           writes the run's record\n"                                \
  "  [--replay]                                                the script is a record, with the sizes and the number\n"  \
  "  [SCRIPT]\n"

struct words {
  struct toarmuts_configuration configuration;
  bool is_text;        /* only what is printed */
  bool is_test;        /* unit tests decide the status */
  bool asks_for_names; /* nothing is run */
  bool asks_for_help;
  bool is_replay;     /* the script is a record */
  uint32_t node;      /* the mote's number in a network, or 0 */
  const char *record; /* the file for the run's record, or NULL */
  const char *script; /* the script's name, or NULL for standard input */
};

/* Arguments. */

static uint32_t
read_number(const char *option, const char *text)
{
  const char *digits = text != NULL && *text == '+' ? text + 1 : text;
  bool has_digits = digits != NULL && *digits >= '0' && *digits <= '9';
  char *end = NULL;
  unsigned long number = has_digits ? strtoul(digits, &end, 10) : 0;
  if(!has_digits || *end != '\0' || number > UINT32_MAX) {
    give_up(STATUS_BAD_WORDS, "%s needs a number", option);
  }
  return (uint32_t)number;
}

/* Reads an option with a number; false if it is none. */
static bool
read_size(struct toarmuts_configuration *configuration, const char *option, const char *value)
{
  uint32_t *size = strcmp(option, "--mmem") == 0     ? &configuration->mmem
                   : strcmp(option, "--heap") == 0   ? &configuration->heap
                   : strcmp(option, "--header") == 0 ? &configuration->header
                   : strcmp(option, "--quota") == 0  ? &configuration->quota
                                                     : NULL;
  if(size == NULL) {
    return false;
  }
  *size = read_number(option, value);
  if(size == &configuration->quota) {
    configuration->has_quota = 1;
  }
  return true;
}

/* Reads another option with a value; false if it is none. */
static bool
read_valued(struct words *words, const char *option, const char *value)
{
  if(strcmp(option, "--node") == 0) {
    words->node = read_number(option, value);
    if(words->node == 0) {
      give_up(STATUS_BAD_WORDS, "a mote's number is at least 1");
    }
    if(words->node > UINT16_MAX) {
      give_up(STATUS_BAD_WORDS, "a mote's number is at most 65535");
    }
    return true;
  }
  if(strcmp(option, "--record") != 0) {
    return false;
  }
  if(value == NULL) {
    give_up(STATUS_BAD_WORDS, "--record needs a file");
  }
  words->record = value;
  return true;
}

/* Reads an option without a value; false if it is none. */
static bool
read_flag(struct words *words, const char *option)
{
  if(strcmp(option, "--quiet") == 0) {
    words->configuration.quiet = 1;
  } else if(strcmp(option, "--text") == 0) {
    words->is_text = true;
  } else if(strcmp(option, "--test") == 0) {
    words->is_test = true;
    words->is_text = true;
  } else if(strcmp(option, "--names") == 0) {
    words->asks_for_names = true;
  } else if(strcmp(option, "--replay") == 0) {
    words->is_replay = true;
  } else if(strcmp(option, "-h") == 0 || strcmp(option, "--help") == 0) {
    words->asks_for_help = true;
  } else {
    return false;
  }
  return true;
}

/* Cuts the value off an argument as --mmem=8; NULL if there is none. */
static char *
cut_value(char *word)
{
  char *sign = *word == '-' ? strchr(word, '=') : NULL;
  if(sign == NULL) {
    return NULL;
  }
  *sign = '\0';
  return sign + 1;
}

/* Refuses a repeated option, as mote does. */
static void
check_once(char **first, char **option)
{
  for(char **before = first; before < option; before++) {
    if(**option == '-' && strcmp(*before, *option) == 0) {
      give_up(STATUS_BAD_WORDS, "%s is given twice", *option);
    }
  }
}

static struct words
read_words(char **word)
{
  struct words words = {.configuration = TOARMUTS_DEFAULTS};
  for(char **first = word; *word != NULL; word++) {
    char *joined = cut_value(*word);
    check_once(first, word);
    const char *value = joined != NULL ? joined : word[1];
    if(read_size(&words.configuration, word[0], value) || read_valued(&words, word[0], value)) {
      word += joined == NULL;
    } else if(joined != NULL) {
      give_up(STATUS_BAD_WORDS, "unknown argument %s=%s", *word, joined);
    } else if(read_flag(&words, *word)) {
      continue;
    } else if(**word != '-' && words.script == NULL) {
      words.script = *word;
    } else {
      give_up(STATUS_BAD_WORDS, "unknown argument %s", *word);
    }
  }
  return words;
}

/* Whether a line of the script is an input, and no comment. */
static bool
is_input(const char *line, size_t length)
{
  return length > 0 && line[0] != '#';
}

/* Has the record have an input before the mote. */
static void
note_line(const char *line, size_t length)
{
  if(is_input(line, length)) {
    record_line(line, length);
  }
}

static void
note_rest(const char *line, size_t length)
{
  if(is_input(line, length)) {
    record_check();
  }
}

/* Submits one line after another, and executes all that follows. */
static void
run_script(int script)
{
  const char *line;
  size_t length;
  enum reading reading;
  const bool has_record = is_recording();
  run_to_rest();
  record_check();
  for(uint64_t number = 1; (reading = read_line(script, &line, &length)) == READ_LINE; number++) {
    if(has_record) {
      note_line(line, length);
    }
    switch(feed_line(line, length)) {
    case 0:
      run_to_rest();
      if(has_record) {
        note_rest(line, length);
      }
      break;
    case TOARMUTS_BAD_LINE:
      end_at_bad_line(number, line, length, "tick N, serial HEX and frame HEX");
    default:
      stop("the mote accepts no more inputs");
    }
  }
  if(reading == READ_TOO_MUCH) {
    show_text("too long\n");
    finish(STATUS_TOO_LONG);
  }
}

/* A program that runs unit tests has these from unit-test.c. */
unsigned unit_test_runs(void) __attribute__((weak));
unsigned unit_test_failures(void) __attribute__((weak));

/* The status after the script, by the program's unit tests. */
static int
test_status(void)
{
  unsigned runs = unit_test_runs == NULL ? 0 : unit_test_runs(), failures = runs == 0 ? 0 : unit_test_failures();
  if(runs == 0) {
    fprintf(stderr, "contiki: no unit test was run\n");
  } else if(failures > 0) {
    fprintf(stderr, "contiki: %u of %u unit tests failed\n", failures, runs);
  }
  return runs == 0 || failures > 0 ? STATUS_STOPPED : STATUS_FINISHED;
}

/* Opens the script that is named. Standard input that is closed can't be read: otherwise the next file that is opened would be taken for
 * it. Unit tests need none. */
static int
open_script(const struct words *words)
{
  FILE *file;
  if(words->script == NULL) {
    return fcntl(STDIN_FILENO, F_GETFD) < 0 && !words->is_test ? -1 : STDIN_FILENO;
  }
  file = fopen(words->script, "r");
  if(file == NULL) {
    give_up(STATUS_READ_FAILED, "%s: no such file", words->script);
  }
  return fileno(file);
}

/* A replay has sizes and number from the record. */
static void
open_run(struct words *words, int script)
{
  if(words->is_replay && words->record != NULL) {
    give_up(STATUS_BAD_WORDS, "--replay makes no record: leave out --record");
  }
  if((words->is_replay || words->record != NULL) && &program_facts == NULL) {
    give_up(STATUS_BAD_WORDS, "this program was built without the facts that a record needs");
  }
  if(words->is_replay) {
    uint32_t quiet = words->configuration.quiet;
    struct record_head head = open_replay(script);
    words->configuration = head.sizes;
    words->configuration.quiet = quiet;
    words->node = head.node;
  }
  if(words->node != 0) {
    join_network((uint16_t)words->node, 0);
  }
}

/* Once nothing is refused any more: so an older record isn't lost for no new one. */
static void
begin_record(const struct words *words)
{
  if(words->record != NULL) {
    struct record_head head = head_of(&words->configuration, words->node);
    open_record(words->record, &head);
  }
}

static int
print_names(void)
{
  for(unsigned i = 0; i < process_count; i++) {
    puts(name_of(processes[i]));
  }
  return STATUS_FINISHED;
}

int
main(int count, char **word)
{
  struct words words = read_words(word + (count > 0));
  int script;
  if(words.asks_for_help) {
    fputs(USAGE, stdout);
    return STATUS_FINISHED;
  }
  number_processes();
  if(words.asks_for_names) {
    return print_names();
  }
  script = open_script(&words);
  open_run(&words, script);
  begin_transcript(words.configuration.quiet != 0, words.is_text);
  watch_for_faults();
  stack_begin = __builtin_frame_address(0);
  open_mote(&words.configuration);
  begin_record(&words);
  open_console();
  if(words.is_replay) {
    run_replay();
  }
  run_script(script);
  finish(words.is_test ? test_status() : STATUS_FINISHED);
}
