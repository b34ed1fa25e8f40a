/* The record of a run on Linux: a file, to which each line is written before the mote has it. */
#define _XOPEN_SOURCE 700
#include "linux.h"

#include "../record.h"

#include <errno.h>
#include <fcntl.h>

static int record = -1;

void
open_record(const char *name, const struct record_head *head)
{
  record = open(name, O_WRONLY | O_CREAT | O_TRUNC | O_CLOEXEC, 0666);
  if(record < 0) {
    give_up(STATUS_WRITE_FAILED, "%s can't be written", name);
  }
  record_head(head);
}

bool
is_recording(void)
{
  return record >= 0;
}

void
put_record(const void *bytes, size_t length)
{
  size_t written = 0;
  while(written < length) {
    ssize_t now = __write(record, (const char *)bytes + written, length - written);
    if(now < 0 && errno != EINTR) {
      record = -1;
      flush_transcript();
      give_up(STATUS_WRITE_FAILED, "the record can't be written");
    }
    written += now < 0 ? 0 : (size_t)now;
  }
}
