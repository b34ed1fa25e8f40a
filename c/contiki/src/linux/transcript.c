/* The transcript on standard output, through its own buffer, so that its end isn't lost when a program crashes. */
#include "linux.h"

#include <errno.h>
#include <poll.h>
#include <signal.h>
#include <stdatomic.h>
#include <unistd.h>

enum { ROOM = 1 << 16, LINE_ROOM = 680, SPEAKER_ROOM = 12, PIECE = 4096, PATIENCE = 1000 };

/* The number of lines of the transcript, with those that are left out. */
static uint64_t line_count;

static bool shows_prints_alone; /* the turns that print or send, and what was sent */
static bool shows_text;         /* only what was printed */
static unsigned only_mote;      /* the only mote of a network whose lines are shown, or 0 */

/* In a network: the mote whose lines follow, and whether they are left out. */
static unsigned speaker;
static bool is_left_out;

/* What isn't written yet, and room for a line after it. */
static char room[ROOM + LINE_ROOM];
static size_t used;

/* Whether the buffer is being changed or written, and the signal that arrived meanwhile and must end the run, or 0. */
static volatile sig_atomic_t is_busy, late_signal;

/* A signal ends the run: output that nobody reads is dropped, so that the run ends. */
static bool is_hasty;

void
begin_transcript(bool is_quiet, bool is_text)
{
  shows_prints_alone = is_quiet;
  shows_text = is_text;
}

/* Shows the lines of only one mote of a network. */
void
show_only(unsigned mote)
{
  only_mote = mote;
}

/* The lines that follow are those of this mote of a network. */
void
speak_for(unsigned mote)
{
  speaker = mote;
  is_left_out = only_mote != 0 && mote != only_mote;
}

uint64_t
shown_lines(void)
{
  return line_count;
}

/* Whether a signal that ends the run arrives while the buffer is being changed: then it is raised again after that. */
bool
delays_signal(int number)
{
  if(is_busy) {
    late_signal = number;
    return true;
  }
  is_hasty = true;
  return false;
}

static void
end_busy(void)
{
  is_busy = 0;
  if(late_signal != 0) {
    int number = late_signal;
    late_signal = 0;
    raise(number);
  }
}

/* As `poll`. */
int __poll(struct pollfd *files, nfds_t count, int patience);

static ssize_t
write_piece(const char *bytes, size_t length)
{
  struct pollfd out = {.fd = STDOUT_FILENO, .events = POLLOUT};
  if(!is_hasty) {
    return __write(STDOUT_FILENO, bytes, length);
  }
  return __poll(&out, 1, PATIENCE) > 0 ? __write(STDOUT_FILENO, bytes, MIN(length, PIECE)) : (ssize_t)length;
}

/* Calls only poll and write, since a handler of signals may call this. If nobody reads the output, a signal ends the wait. */
static void
write_room(void)
{
  size_t written = 0;
  while(written < used && late_signal == 0) {
    ssize_t now = write_piece(room + written, used - written);
    if(now < 0 && errno != EINTR) {
      used = 0;
      end_busy();
      give_up(STATUS_WRITE_FAILED, "write failed");
    }
    written += now < 0 ? 0 : (size_t)now;
  }
  used = 0;
}

void
flush_transcript(void)
{
  is_busy = 1;
  write_room();
  end_busy();
}

static void
put_bytes(const void *bytes, size_t length)
{
  is_busy = 1;
  if(used + length > ROOM) {
    write_room();
  }
  memcpy(room + used, bytes, length);
  used += length;
  end_busy();
}

/* Has the library write the line of the last entry after the transcript so far. It is no part of that until it is kept. Returns its length
 * with its end. */
static inline size_t
take_line(void)
{
  uint64_t length;
  uint32_t status = last_line((uint8_t *)room + used, LINE_ROOM - 1, &length);
  if(status != 0) {
    stop("the mote returns no line: status %u", status);
  }
  room[used + length] = '\n';
  return (size_t)length + 1;
}

/* The bytes of the mote's number in front of that line. */
static size_t
number_length(void)
{
  return speaker == 0 ? 0 : (size_t)(strchr(room + used, ' ') + 1 - (room + used));
}

/* Adds that line where it can't stay in its place: without the number, if the transcript is that of one mote of a network. */
static void
move_line(size_t length)
{
  size_t front = only_mote == 0 ? 0 : number_length();
  const char *line = room + used + front;
  length -= front;
  is_busy = 1;
  if(used + length > ROOM) {
    write_room();
  }
  memmove(room + used, line, length);
  used += length;
  end_busy();
}

/* Adds that line to the transcript. A handler of signals finds it there whole, or not at all. */
static inline void
keep_line(size_t length)
{
  if(only_mote != 0 || used + length > ROOM) {
    move_line(length);
  } else {
    atomic_signal_fence(memory_order_release);
    used += length;
  }
}

/* The number of the mote that prints, with a space. */
static void
put_speaker(void)
{
  static unsigned named;
  static char text[SPEAKER_ROOM];
  static size_t length;
  if(named != speaker) {
    named = speaker;
    length = (size_t)snprintf(text, sizeof text, "%u ", speaker);
  }
  put_bytes(text, length);
}

/* What a mote prints. In a network each line begins with its number, and an unfinished line ends when another mote prints. It isn't
 * inlined: otherwise each turn of a whole transcript would save the registers that this needs. */
static __attribute__((noinline)) void
put_text(const uint8_t *bytes, size_t length)
{
  static unsigned owner;
  static bool is_begun;
  if(speaker == 0 || only_mote != 0) {
    put_bytes(bytes, length);
    return;
  }
  if(is_begun && owner != speaker) {
    put_bytes("\n", 1);
    is_begun = false;
  }
  owner = speaker;
  while(length > 0) {
    const uint8_t *line_end = memchr(bytes, '\n', length);
    size_t part = line_end == NULL ? length : (size_t)(line_end - bytes) + 1;
    if(!is_begun) {
      put_speaker();
    }
    put_bytes(bytes, part);
    is_begun = line_end == NULL;
    bytes += part;
    length -= part;
  }
}

/* A turn, with its call. */
void
show_turn(const struct toarmuts_call *call)
{
  bool prints = call->kind == TOARMUTS_CALL_PRINT;
  line_count++;
  if(is_left_out) {
    return;
  }
  if(shows_text) {
    if(prints) {
      put_text(call->bytes, call->length);
    }
  } else if(!shows_prints_alone || prints || call->kind == TOARMUTS_CALL_PACKET_SEND) {
    keep_line(take_line());
  }
}

/* Whether the line that was taken, of no turn, is the halt: those of inputs and notes end with a digit. */
static bool
is_halt(size_t length)
{
  return room[used + length - 2] == 't';
}

/* Whether that line is in a quiet transcript. */
static bool
is_in_quiet(size_t length)
{
  static const char sent[] = "note sent ";
  return is_halt(length) || strncmp(room + used + number_length(), sent, sizeof sent - 1) == 0;
}

/* An input, a note or the halt. */
void
show_entry(void)
{
  line_count++;
  if(!shows_text) {
    size_t length = take_line();
    if(!shows_prints_alone || is_in_quiet(length)) {
      keep_line(length);
    }
  }
}

/* The same of a mote of a network. Returns whether it is the mote's halt: the library tells that by the line alone. */
bool
show_entry_of(unsigned mote)
{
  size_t length = take_line();
  bool halts = is_halt(length);
  speak_for(mote);
  line_count++;
  if(!is_left_out && !shows_text && (!shows_prints_alone || is_in_quiet(length))) {
    keep_line(length);
  }
  return halts;
}

/* A line that is no mote's. */
void
show_network_line(void)
{
  line_count++;
  if(!shows_text && !shows_prints_alone && only_mote == 0) {
    keep_line(take_line());
  }
}

/* The line after the last entry. */
void
show_text(const char *text)
{
  if(!shows_text) {
    put_bytes(text, strlen(text));
  }
}

/* The end of a network's transcript, if an input took all its rounds. */
void
show_halt(void)
{
  if(only_mote == 0) {
    show_text("halt\n");
  }
}
