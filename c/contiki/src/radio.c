/* Frames: who receives them, and how they are sent. What they mean is a matter of the layer above, NullNet or IPv6. */
#include "driver.h"
#include "radio.h"

#include <stdlib.h>

/* Whether the radio is on, if the program names it: a module of its own (modules/mote-radio.c). */
extern const bool mote_radio_is_on __attribute__((weak));

static radio_callback frame_callback;

/* The process that receives frames, or NULL; whether there was one; and the one that must follow it, or NULL. */
static const struct process *receiver, *follower;
static bool had_receiver;

/* `packet-open`, unless another process is the receiver. */
static void
open_packets(void)
{
  if(receiver == NULL && refusal_of(MOTE_ASK(TOARMUTS_CALL_PACKET_OPEN, 0)) == 0) {
    receiver = activation->process;
    had_receiver = true;
    follower = NULL;
  }
}

void
mote_radio_set_callback(radio_callback callback)
{
  frame_callback = callback;
  if(callback != NULL) {
    open_packets();
  }
}

void
forget_receiver(const struct process *p)
{
  if(p == receiver) {
    receiver = NULL;
  }
  if(p == follower) {
    follower = NULL;
  }
}

/*
 * The callback outlives the process that set it. When the others receive EXITED, the mote still has that process as the receiver: so
 * the first of them posts itself an event, and becomes the receiver then. True if a process received that event.
 */
bool
receive_again(void)
{
  const struct toarmuts_turn *turn = activation->turn;
  if(!had_receiver || turn->event == PROCESS_EVENT_EXIT) {
    return false;
  }
  if(turn->event != PROCESS_EVENT_EXITED) {
    open_packets();
    return turn->event == ERRAND_EVENT;
  }
  forget_receiver(process_of(turn->number));
  if(receiver == NULL && follower == NULL && refusal_of(MOTE_ASK(TOARMUTS_CALL_POST, activation->process->number, ERRAND_EVENT)) == 0) {
    follower = activation->process;
  }
  return false;
}

/* The active process has ended another one. If that was or should become the receiver, and there is no other, it is the receiver now. */
void
follow_receiver(void)
{
  if(had_receiver && follower == NULL) {
    open_packets();
  }
}

/* Whether frames are for a callback, and not for the process's thread. */
bool
takes_frames(void)
{
  return had_receiver;
}

/* Whether a process is the last one, and frames are for a callback, which needs activations. */
static bool
is_needed(const struct process *p)
{
  return had_receiver && frame_callback != NULL && runs_alone(p);
}

/* Before the active process ends: if frames need it, it becomes the receiver where there is none. */
void
keep_receiver(const struct process *p)
{
  if(is_needed(p)) {
    open_packets();
  }
}

/* Whether a process that ends stays in the mote, since it receives frames that need it. */
bool
stays_for_frames(const struct process *p)
{
  return receiver == p && is_needed(p);
}

/* Reads the first frame; false if there is none of this length. */
static bool
read_frame(uint8_t *bytes, size_t length)
{
  for(size_t at = 0; at < length; at += CHUNK) {
    size_t size = MIN(length - at, CHUNK);
    const struct toarmuts_turn *answer = MOTE_ASK(TOARMUTS_CALL_PACKET_READ, (uint32_t)at, (uint32_t)size);
    if(refusal_of(answer) != 0) {
      return false;
    }
    memcpy(bytes + at, answer->bytes, size);
  }
  return true;
}

/* Calls the callback, unless the frame is for another mote. */
static void
call_back(const uint8_t *bytes, size_t length)
{
  size_t header;
  if(take_header(bytes, length, &header) && frame_callback != NULL) {
    frame_callback(bytes, length, header);
  }
}

/* `packet-read`, `packet-done`: reads and frees the frame, and then calls the callback. While the radio is off, it only frees the frame. */
void
take_frame(size_t length)
{
  uint8_t *bytes;
  if(&mote_radio_is_on != NULL && !mote_radio_is_on) {
    MOTE_ASK(TOARMUTS_CALL_PACKET_DONE, 0);
    return;
  }
  bytes = malloc(length + 1);
  if(bytes == NULL) {
    give_up(STATUS_NO_MEMORY, "out of memory");
  }
  if(read_frame(bytes, length)) {
    MOTE_ASK(TOARMUTS_CALL_PACKET_DONE, 0);
    call_back(bytes, length);
  }
  free(bytes);
}

/* `mmem-write` of the whole frame. */
static void
write_frame(unsigned handle, const uint8_t *bytes, size_t length)
{
  for(size_t at = 0; at < length; at += CHUNK) {
    struct toarmuts_call call = {.kind = TOARMUTS_CALL_MMEM_WRITE, .numbers = {handle, (uint32_t)at}};
    call.length = (uint32_t)MIN(length - at, CHUNK);
    memcpy(call.bytes, bytes + at, call.length);
    mote_call(&call);
  }
}

/* `mmem-alloc`, `mmem-write`, `packet-send`, `mmem-free`: the mote sends the content of a managed block. */
bool
mote_radio_send(const uint8_t *frame, size_t length)
{
  unsigned handle = free_handle();
  if(check_late(refusal_of(MOTE_ASK(TOARMUTS_CALL_MMEM_ALLOC, handle, (uint32_t)length)) != 0)) {
    return false;
  }
  write_frame(handle, frame, length);
  MOTE_ASK(TOARMUTS_CALL_PACKET_SEND, handle);
  MOTE_ASK(TOARMUTS_CALL_MMEM_FREE, handle);
  return true;
}

/* Ends the program where a frame can't have this many of its bytes after the header. */
static void
check_frame(size_t header, size_t length)
{
  if(header == 0 && (length == 0 || length > LINE_BYTES)) {
    stop("a frame of %zu bytes can't be sent: frames have 1 to 127", length);
  } else if(length > LINE_BYTES - header) {
    stop("a frame of %zu bytes can't be sent: with its header, of %zu bytes, it has at most 127", length, header);
  }
}

bool
mote_radio_send_bytes(const linkaddr_t *to, const uint8_t *bytes, size_t length)
{
  size_t header = is_in_network() ? header_length(to) : 0;
  uint8_t frame[LINE_BYTES];
  check_frame(header, length);
  if(header > 0) {
    write_header(frame, to);
  }
  if(length > 0) {
    memcpy(frame + header, bytes, length);
  }
  return mote_radio_send(frame, header + length);
}

size_t
mote_radio_write_header(uint8_t *header, const linkaddr_t *to)
{
  write_header(header, to);
  return header_length(to);
}

clock_time_t
mote_radio_clock(void)
{
  return clock_now();
}
