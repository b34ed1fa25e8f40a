/* What the driver's parts for Linux share, for one mote and for a network. */
#ifndef LINUX_H_
#define LINUX_H_

#include "../driver.h"

#include <sys/types.h>

/* The GNU C library's other names for `read` and `write`: a program that includes no header of Unix may define functions of these
 * names. */
ssize_t __read(int file, void *bytes, size_t length);
ssize_t __write(int file, const void *bytes, size_t length);

#pragma GCC visibility push(hidden)

/* console.c */
void open_console(void);
void keep_console(void);
void close_console(void);
void renew_console(void);

/* script.c */
enum { LINE_LIMIT = 1024 };
enum reading { READ_LINE, READ_END, READ_TOO_MUCH };
enum reading read_line(int script, const char **line, size_t *length);
bool is_whole_line(void);
void read_without_limit(void);
CC_NORETURN void end_at_bad_line(uint64_t number, const char *line, size_t length, const char *inputs);

/* recorder.c, and replay.c: for one mote. */
struct record_head;
void open_record(const char *name, const struct record_head *head);
struct record_head open_replay(int file);
CC_NORETURN void run_replay(void);

/* transcript.c */
void begin_transcript(bool is_quiet, bool is_text);
void show_only(unsigned mote);
void speak_for(unsigned mote);
bool show_entry_of(unsigned mote);
void show_network_line(void);
void show_text(const char *text);
void show_halt(void);
void flush_transcript(void);
bool delays_signal(int number);

/* faults.c */
void watch_for_faults(void);
void tell_halt(void);
CC_NORETURN void finish(int status);

#pragma GCC visibility pop

#endif
