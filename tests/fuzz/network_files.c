/*
 * The readers of the two files of `contiki --network`, c/contiki/src/network/setup.c and main.c, on any bytes. An input is the first
 * file, a byte 1, and the script. Around the readers are stand-ins: hello.c and "hello.c more.c" are the programs, and inputs are noted.
 *
 * What was read is written as lines again, and read again: it must be the same. With REPLAY a main reads cases from standard input, each
 * after a line with its length, and prints these lines; the last one is `ok`, `bad line N` of the first file, `bad input N` or `large`.
 */
#define _GNU_SOURCE
#include "../../c/contiki/src/network/network.h"

#include <setjmp.h>
#include <stdarg.h>
#include <stdlib.h>

static FILE *open_bytes(const char *name, const char *mode);
static int drop(FILE *file, const char *format, ...);

#define fopen open_bytes
#define fprintf drop
#define main command_main
#include "../../c/contiki/src/network/main.c"
#include "../../c/contiki/src/network/setup.c"
#undef fopen
#undef fprintf
#undef main

enum { MOST_ROOMS = 4096, MOST_BYTES = 1 << 20, SEPARATOR = 1 };

/* The two files, and how far the script was read. */
static const uint8_t *setup_bytes, *script_bytes;
static size_t setup_length, script_length, script_at;
static FILE *opened;

/* What the readers allocated, and where to go when they end the run. */
static void *rooms[MOST_ROOMS];
static size_t room_count;
static jmp_buf out;
static char said[40];

/* What was read, as lines. Inputs follow the lines that set up. */
static struct network_setup found;
static FILE *inputs;

static CC_NORETURN void
leave(const char *why)
{
  if(why != NULL) {
    snprintf(said, sizeof said, "%s", why);
  }
  longjmp(out, 1);
}

/* The rest of the driver. */

static int
drop(FILE *file, const char *format, ...)
{
  (void)file, (void)format;
  return 0;
}

static FILE *
open_bytes(const char *name, const char *mode)
{
  (void)name;
  opened = fmemopen((void *)(uintptr_t)setup_bytes, setup_length, mode);
  return opened;
}

void *
take_room(void *bytes, size_t count, size_t size)
{
  void *room = count > MOST_BYTES / size ? NULL : realloc(bytes, count * size == 0 ? 1 : count * size);
  size_t i = 0;
  while(i < room_count && rooms[i] != bytes) {
    i++;
  }
  if(room == NULL || i == MOST_ROOMS) {
    free(i == MOST_ROOMS ? room : NULL);
    leave("large\n");
  }
  room_count += i == room_count;
  rooms[i] = room;
  return room;
}

bool
is_program(const char *sources)
{
  return strcmp(sources, "hello.c") == 0 || strcmp(sources, "hello.c more.c") == 0;
}

/* Whether a mote without processes boots, by the comments in toarmuts.h. */
static bool
is_size(uint32_t size, uint32_t least)
{
  return size >= least && size <= 65536 && size % 4 == 0;
}

uint32_t
toarmuts_open(const struct toarmuts_configuration *sizes, uint32_t applications, struct toarmuts_mote *mote)
{
  bool has_room = sizes->has_quota == 0 || (is_size(sizes->quota, 4) && (applications + 1) * sizes->quota <= sizes->mmem);
  bool boots = is_size(sizes->mmem, 4) && is_size(sizes->heap, 20) && (sizes->header == 8 || sizes->header == 16) && has_room;
  (void)mote;
  return boots ? TOARMUTS_DONE : TOARMUTS_BAD_SIZES;
}

uint32_t
toarmuts_close(struct toarmuts_mote *mote)
{
  (void)mote;
  return TOARMUTS_DONE;
}

/* A line of the script, as script.c reads it: of a longer one a byte more than the limit. */
enum reading
read_line(int script, const char **line, size_t *length)
{
  size_t left = script_length - script_at;
  const uint8_t *begin = script_bytes + script_at, *line_end = left == 0 ? NULL : memchr(begin, '\n', left);
  (void)script;
  *length = line_end == NULL ? left : (size_t)(line_end - begin);
  script_at += *length + (line_end != NULL);
  *length = MIN(*length, LINE_LIMIT + 1);
  *line = (const char *)begin;
  return left == 0 ? READ_END : READ_LINE;
}

void
end_at_bad_line(uint64_t number, const char *line, size_t length, const char *forms)
{
  (void)line, (void)length, (void)forms;
  snprintf(said, sizeof said, "bad input %" PRIu64 "\n", number);
  leave(NULL);
}

void
show_text(const char *text)
{
  snprintf(said, sizeof said, "%s", text);
}

void
tick_network(uint32_t ticks)
{
  fprintf(inputs, "tick %" PRIu32 "\n", ticks);
}

void
feed_mote(uint32_t mote, uint32_t kind, const uint8_t *bytes, size_t length)
{
  if(mote == 0 || mote > found.mote_count || length == 0 || length > (kind == TOARMUTS_FRAME ? 127 : 256)) {
    abort();
  }
  fprintf(inputs, "%" PRIu32 " %s ", mote, kind == TOARMUTS_FRAME ? "frame" : "serial");
  for(size_t i = 0; i < length; i++) {
    fprintf(inputs, "%02x", bytes[i]);
  }
  fputc('\n', inputs);
}

void
finish(int status)
{
  (void)status;
  leave(NULL);
}

void
give_up(int status, const char *format, ...)
{
  (void)status, (void)format;
  abort();
}

void
run_network(void)
{
}

void
flush_transcript(void)
{
}

/* What main alone calls. */
void
add_program(const char *sources, const char *file)
{
  (void)sources, (void)file;
}

void
show_only(unsigned mote)
{
  (void)mote;
}

void
begin_transcript(bool is_quiet, bool is_text)
{
  (void)is_quiet, (void)is_text;
}

void
watch_for_faults(void)
{
}

void
open_console(void)
{
}

void
make_motes(struct network_setup *setup, const char *copies, const void *stack)
{
  (void)setup, (void)copies, (void)stack;
}

void
open_network(const struct network_setup *setup)
{
  (void)setup;
}

/* What was read, as lines. */

static void
write_mote(FILE *file, size_t i)
{
  const struct toarmuts_configuration *sizes = &found.motes[i].configuration;
  fprintf(file, "mote %zu %s --mmem %u --heap %u --header %u", i + 1, found.programs[i], sizes->mmem, sizes->heap, sizes->header);
  if(sizes->has_quota != 0) {
    fprintf(file, " --quota %u", sizes->quota);
  }
  fputc('\n', file);
}

static void
write_link(FILE *file, const struct toarmuts_link *link)
{
  if(link->from == 0 || link->from > found.mote_count || link->to == 0 || link->to > found.mote_count || link->delay == 0) {
    abort();
  }
  fprintf(file, "link %u %u delay %u", link->from, link->to, link->delay);
  if(link->loss == TOARMUTS_LOSS_EVERY) {
    fprintf(file, " every %u", link->number);
  } else if(link->loss == TOARMUTS_LOSS_LOT) {
    fprintf(file, " lot %u seed %" PRIu64, link->number, link->seed);
  }
  fputc('\n', file);
}

/* The lines, allocated: those that set up, and after a separator the inputs. A seed above 2^32 - 1 can't be written as a line. */
static char *
write_lines(const char *fed, bool *can_be_read)
{
  char *text = NULL;
  size_t length;
  FILE *file = open_memstream(&text, &length);
  *can_be_read = true;
  for(size_t i = 0; i < found.mote_count; i++) {
    write_mote(file, i);
  }
  for(size_t i = 0; i < found.link_count; i++) {
    write_link(file, &found.links[i]);
    *can_be_read = *can_be_read && found.links[i].seed <= UINT32_MAX;
  }
  fprintf(file, "room %u\nrounds %u\n%c%s", found.sizes.room, (unsigned)found.sizes.rounds, SEPARATOR, fed);
  fclose(file);
  return text;
}

/* Reads both files. */
static void
read_files(const uint8_t *bytes, size_t length)
{
  const uint8_t *separator = length == 0 ? NULL : memchr(bytes, SEPARATOR, length);
  setup_bytes = bytes;
  setup_length = separator == NULL ? length : (size_t)(separator - bytes);
  script_bytes = bytes + setup_length + (separator != NULL);
  script_length = separator == NULL ? 0 : length - setup_length - 1;
  script_at = 0;
  room_count = 0;
  said[0] = '\0';
  found = (struct network_setup){.sizes = TOARMUTS_NETWORK_DEFAULTS};
  if(setjmp(out) == 0) {
    read_setup(&found, "");
    opened = NULL;
    run_script(0, found.mote_count);
  }
  if(opened != NULL) {
    fclose(opened);
    opened = NULL;
  }
}

/* Reads both files. Returns the lines of what was read, allocated. */
static char *
lines_of(const uint8_t *bytes, size_t length, bool *can_be_read)
{
  char *fed = NULL, *lines;
  size_t fed_length;
  inputs = open_memstream(&fed, &fed_length);
  read_files(bytes, length);
  fclose(inputs);
  lines = write_lines(fed, can_be_read);
  free(fed);
  while(room_count > 0) {
    free(rooms[--room_count]);
  }
  return lines;
}

int LLVMFuzzerTestOneInput(const uint8_t *data, size_t size);

int
LLVMFuzzerTestOneInput(const uint8_t *data, size_t size)
{
  bool can_be_read, can_be_read_again;
  char *lines = lines_of(data, size, &can_be_read), *again;
  if(can_be_read && strcmp(said, "large\n") != 0) {
    again = lines_of((const uint8_t *)lines, strlen(lines), &can_be_read_again);
    if(said[0] != '\0' || strcmp(lines, again) != 0) {
      abort();
    }
    free(again);
  }
  free(lines);
  return 0;
}

#ifdef REPLAY
int
main(void)
{
  static uint8_t bytes[MOST_BYTES];
  size_t length;
  bool can_be_read;
  while(scanf("%zu", &length) == 1 && getchar() == '\n' && length < sizeof bytes && fread(bytes, 1, length, stdin) == length) {
    char *lines = lines_of(bytes, length, &can_be_read);
    printf("%s%s%c", lines, said[0] == '\0' ? "ok\n" : said, '\0');
    free(lines);
  }
  return ferror(stdin) || !feof(stdin);
}
#endif
