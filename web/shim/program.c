/*
 * The system calls of the mote's programs: arguments, standard input and output, and one file that can be read. Nothing proves this
 * file: it replaces the C library and the kernel of a native build. All other calls are refused as a system without files refuses
 * them.
 */
#include "shim.h"

enum { NO_SUCH_FILE = 2, BAD_DESCRIPTOR = 9, NO_SEEK = 29, READ_ONLY = 30 };
enum { STANDARD_INPUT = 0, STANDARD_OUTPUT = 1, STANDARD_ERROR = 2, THE_FILE = 3 };

int main(void);

/* Passes bytes that the program writes to the page. */
__attribute__((import_module("env"), import_name("write"))) void page_write(int descriptor, const uint8_t *bytes, size_t length);

struct source {
  const uint8_t *bytes;
  size_t length;
  size_t taken;
};

static struct source input, file;
static const uint8_t *file_name; /* NULL: there is no file */
static const uint8_t *arguments; /* each ends with a byte 0 */
static size_t argument_count;
static int last_error;

static int
refuse(int error)
{
  last_error = error;
  return -1;
}

__attribute__((export_name("page_file"))) void
page_file(const uint8_t *name, const uint8_t *bytes, size_t length)
{
  file_name = name;
  file = (struct source){bytes, length, 0};
}

__attribute__((export_name("page_main"))) int
page_main(const uint8_t *given, size_t count, const uint8_t *bytes, size_t length)
{
  arguments = given;
  argument_count = count;
  input = (struct source){bytes, length, 0};
  return main();
}

int
rattle_errno(void)
{
  return last_error;
}

void
rattle_set_errno(int error)
{
  last_error = error;
}

/* Returns the length of an argument; -1: there is none, -2: it is longer than the buffer. */
int64_t
rattle_arg(uint64_t number, uint8_t *buffer, uint64_t room)
{
  if(number >= argument_count) {
    return -1;
  }
  const uint8_t *argument = arguments;
  while(number > 0) {
    number -= *argument++ == 0;
  }
  uint64_t length = 0;
  for(; argument[length] != 0; length++) {
    if(length == room) {
      return -2;
    }
    buffer[length] = argument[length];
  }
  return (int64_t)length;
}

/* There is no environment. */
int64_t
rattle_env(const uint8_t *name, uint8_t *buffer, uint64_t room)
{
  (void)name, (void)buffer, (void)room;
  return -1;
}

int64_t
rattle_env_at(uint64_t number, uint8_t *buffer, uint64_t room)
{
  (void)number, (void)buffer, (void)room;
  return -1;
}

int64_t
read(int descriptor, uint8_t *buffer, uint64_t room)
{
  if(descriptor != STANDARD_INPUT && descriptor != THE_FILE) {
    return refuse(BAD_DESCRIPTOR);
  }
  struct source *from = descriptor == THE_FILE ? &file : &input;
  size_t left = from->length - from->taken, length = room < left ? (size_t)room : left;
  __builtin_memcpy(buffer, from->bytes + from->taken, length);
  from->taken += length;
  return (int64_t)length;
}

int64_t
write(int descriptor, const uint8_t *bytes, uint64_t length)
{
  if(descriptor != STANDARD_OUTPUT && descriptor != STANDARD_ERROR) {
    return refuse(BAD_DESCRIPTOR);
  }
  page_write(descriptor, bytes, (size_t)length);
  return (int64_t)length;
}

int64_t
__write(int descriptor, const uint8_t *bytes, uint64_t length)
{
  return write(descriptor, bytes, length);
}

static bool
is_the_file(const uint8_t *path)
{
  if(file_name == nullptr) {
    return false;
  }
  size_t at = 0;
  while(path[at] == file_name[at] && path[at] != 0) {
    at++;
  }
  return path[at] == file_name[at];
}

int
open(const uint8_t *path, int flags, ...)
{
  const int access = 3;
  if((flags & access) != 0) {
    return refuse(READ_ONLY);
  }
  file.taken = 0;
  return is_the_file(path) ? THE_FILE : refuse(NO_SUCH_FILE);
}

int
close(int descriptor)
{
  return descriptor == THE_FILE ? 0 : refuse(BAD_DESCRIPTOR);
}

/* Of struct statx of Linux: stx_mask, stx_nlink, stx_mode, stx_size. */
int
statx(int folder, const uint8_t *path, int flags, unsigned int mask, uint8_t *to)
{
  const uint32_t basic = 0x7ff;
  const uint16_t regular = 0100644;
  (void)flags;
  if(folder != THE_FILE && !is_the_file(path)) {
    return refuse(NO_SUCH_FILE);
  }
  __builtin_memset(to, 0, 256);
  *(uint32_t *)to = mask & basic;
  *(uint32_t *)(to + 16) = 1;
  *(uint16_t *)(to + 28) = regular;
  *(uint64_t *)(to + 40) = file.length;
  return 0;
}

int64_t
lseek(int descriptor, int64_t offset, int whence)
{
  (void)descriptor, (void)offset, (void)whence;
  return refuse(NO_SEEK);
}

/* A program first asks whether the processor has what x86-64-v2 has. No instruction of that is in a module of WebAssembly. */
const void *
__x86_get_cpuid_feature_leaf(int leaf)
{
  static uint32_t all[16];
  (void)leaf;
  __builtin_memset(all, 0xff, sizeof all);
  return all;
}

int64_t
__sysv_signal(int number, int64_t handler)
{
  (void)number, (void)handler;
  return 0;
}

/* What changes files: there is no file that can be changed. */
#define REFUSED(name, ...)    \
  int name(__VA_ARGS__)       \
  {                           \
    return refuse(READ_ONLY); \
  }
REFUSED(rename, const uint8_t *, const uint8_t *)
REFUSED(unlink, const uint8_t *)
REFUSED(chmod, const uint8_t *, int)
REFUSED(fchmod, int, int)
REFUSED(flock, int, int)
REFUSED(fsync, int)
REFUSED(fdatasync, int)
REFUSED(ftruncate, int, int64_t)

void *
realpath(const uint8_t *path, uint8_t *to)
{
  (void)path, (void)to;
  refuse(READ_ONLY);
  return nullptr;
}
