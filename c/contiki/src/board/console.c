/*
 * What a program prints, by the functions of stdio.h that write on standard output: it becomes a `print` of the mote at a line end, at 64
 * bytes, and before the process makes another call or waits, as on Linux. What it writes on standard error goes to the console alone.
 */
#include "firmware.h"
#include "format.h"

#include <limits.h>
#include <reent.h>
#include <stdio.h>

#undef putchar
#undef putc
#undef getchar
#undef getc

/* The C library's files are none: their addresses count, and ferror finds no error in them. So they may overlap. */
enum { STEP = 8 };
static const uint8_t files[sizeof(FILE) + 2 * STEP] __attribute__((aligned(STEP)));

void
open_console(void)
{
  _REENT->_stdin = (FILE *)(uintptr_t)files;
  _REENT->_stdout = (FILE *)(uintptr_t)(files + STEP);
  _REENT->_stderr = (FILE *)(uintptr_t)(files + 2 * STEP);
}

static char gathered[CHUNK];
static uint32_t gathered_length;

/* It isn't inlined: mostly there is nothing to print, and no room for a call is needed. */
static __attribute__((noinline)) void
print_gathered(void)
{
  struct toarmuts_call call;
  mote_put_numbers(&call, TOARMUTS_CALL_PRINT, (const uint32_t[4]){0});
  call.length = gathered_length;
  memcpy(call.bytes, gathered, gathered_length);
  gathered_length = 0;
  mote_call(&call);
}

void
flush_console(void)
{
  if(gathered_length > 0) {
    print_gathered();
  }
}

static void
gather(const char *bytes, size_t length)
{
  for(size_t i = 0; i < length; i++) {
    gathered[gathered_length++] = bytes[i];
    if(bytes[i] == '\n' || gathered_length == CHUNK) {
      flush_console();
    }
  }
}

static void
write_to(const FILE *file, const char *bytes, size_t length)
{
  if(file != stderr) {
    gather(bytes, length);
    return;
  }
  for(size_t at = 0; at < length; at += CHUNK) {
    output_put(CONSOLE, bytes + at, MIN(length - at, CHUNK));
  }
}

/* Formats. */

struct file_sink {
  struct sink sink;
  const FILE *file;
};

static void
put_into_file(struct sink *sink, const char *bytes, size_t length)
{
  write_to(((struct file_sink *)sink)->file, bytes, length);
}

int
vfprintf(FILE *file, const char *text, va_list arguments)
{
  struct file_sink sink = {{put_into_file, 0}, file};
  va_list copy;
  int count;
  va_copy(copy, arguments);
  count = format(&sink.sink, text, &copy);
  va_end(copy);
  return count;
}

int
vprintf(const char *text, va_list arguments)
{
  return vfprintf(stdout, text, arguments);
}

int
fprintf(FILE *file, const char *text, ...)
{
  va_list arguments;
  int count;
  va_start(arguments, text);
  count = vfprintf(file, text, arguments);
  va_end(arguments);
  return count;
}

int
printf(const char *text, ...)
{
  va_list arguments;
  int count;
  va_start(arguments, text);
  count = vfprintf(stdout, text, arguments);
  va_end(arguments);
  return count;
}

struct buffer_sink {
  struct sink sink;
  char *bytes;
  size_t room;
};

static void
put_into_buffer(struct sink *sink, const char *bytes, size_t length)
{
  struct buffer_sink *buffer = (struct buffer_sink *)sink;
  size_t at = sink->count - length;
  for(size_t i = 0; i < length && at + i + 1 < buffer->room; i++) {
    buffer->bytes[at + i] = bytes[i];
  }
}

int
vsnprintf(char *bytes, size_t room, const char *text, va_list arguments)
{
  struct buffer_sink sink = {{put_into_buffer, 0}, bytes, room};
  va_list copy;
  int count;
  va_copy(copy, arguments);
  count = format(&sink.sink, text, &copy);
  va_end(copy);
  if(room > 0) {
    bytes[sink.sink.count < room ? sink.sink.count : room - 1] = '\0';
  }
  return count;
}

int
snprintf(char *bytes, size_t room, const char *text, ...)
{
  va_list arguments;
  int count;
  va_start(arguments, text);
  count = vsnprintf(bytes, room, text, arguments);
  va_end(arguments);
  return count;
}

int
vsprintf(char *bytes, const char *text, va_list arguments)
{
  return vsnprintf(bytes, INT_MAX, text, arguments);
}

int
sprintf(char *bytes, const char *text, ...)
{
  va_list arguments;
  int count;
  va_start(arguments, text);
  count = vsnprintf(bytes, INT_MAX, text, arguments);
  va_end(arguments);
  return count;
}

/* Bytes. */

int
fputc(int byte, FILE *file)
{
  char it = (char)byte;
  write_to(file, &it, 1);
  return (unsigned char)byte;
}

int
putc(int byte, FILE *file)
{
  return fputc(byte, file);
}

int
putchar(int byte)
{
  return fputc(byte, stdout);
}

int
fputs(const char *text, FILE *file)
{
  write_to(file, text, strlen(text));
  return 1;
}

/* Returns the number of bytes, as that of the GNU C library does. */
int
puts(const char *text)
{
  fputs(text, stdout);
  putchar('\n');
  return (int)strlen(text) + 1;
}

size_t
fwrite(const void *bytes, size_t size, size_t count, FILE *file)
{
  write_to(file, bytes, size * count);
  return size == 0 ? 0 : count;
}

int
fflush(FILE *file)
{
  (void)file;
  return 0;
}

int
setvbuf(FILE *file, char *room, int kind, size_t size)
{
  (void)file;
  (void)room;
  (void)kind;
  (void)size;
  return 0;
}

void
setbuf(FILE *file, char *room)
{
  (void)file;
  (void)room;
}

/* Standard input is empty. */

int
fgetc(FILE *file)
{
  (void)file;
  return EOF;
}

int
getc(FILE *file)
{
  return fgetc(file);
}

int
getchar(void)
{
  return EOF;
}

char *
fgets(char *bytes, int room, FILE *file)
{
  (void)bytes;
  (void)room;
  (void)file;
  return NULL;
}

/* What the C library's sscanf is linked with, and never calls: its own files. */

int _fflush_r(struct _reent *reent, FILE *file);
int _read(int file, char *bytes, int length);
int _write(int file, const char *bytes, int length);
int _lseek(int file, int offset, int from);
int _close(int file);

int
_fflush_r(struct _reent *reent, FILE *file)
{
  (void)reent;
  return fflush(file);
}

int
_read(int file, char *bytes, int length)
{
  (void)file;
  (void)bytes;
  (void)length;
  return -1;
}

int
_write(int file, const char *bytes, int length)
{
  return _read(file, (char *)(uintptr_t)bytes, length);
}

int
_lseek(int file, int offset, int from)
{
  (void)from;
  return _read(file, NULL, offset);
}

int
_close(int file)
{
  return _read(file, NULL, 0);
}
