/*
 * Frames, and that they arrive: IEEE 802.15.4-2015. Each frame to one mote asks for an acknowledgement, and is sent again until that has
 * come, eight times at most. There is no CSMA: a mote can't hear whether another one sends, and frames don't collide.
 *
 * An acknowledgement is the enhanced one of frames of 2015, with the receiver's address. The immediate one of frames of 2006 has only a
 * sequence number: on a radio it comes within 200 us, but here ticks later, together with those for other motes.
 */
#include "stack.h"

#include "mote.h"
#include "net/packetbuf.h"

#include "sys/log.h"
#define LOG_MODULE "MAC"
#define LOG_LEVEL mote_ipv6_settings.log_mac

#include "rpl.h"

enum { FRAMES = 16, TRIES = 8, SEEN = 32, SEQUENCE_AT = 2, PAN_AT = 3, ASKED = 0x20 };
enum { ACK = 0x02, ACK_TO_ONE = 0x2c, ACK_ADDRESS_AT = 5, ACK_SIZE = ACK_ADDRESS_AT + LINKADDR_SIZE };

/* A frame that waits for its acknowledgement. */
struct waiting {
  linkaddr_t to;
  clock_time_t due;
  uint8_t length, tries; /* no frame waits where tries is 0 */
  uint8_t bytes[MOST_FRAME];
};

static struct waiting *waiting;
static struct ctimer retry_timer;
static bool must_arm;

/* The last frames that arrived, to find those that come a second time. */
static struct seen {
  linkaddr_t from;
  clock_time_t when;
  uint8_t sequence;
} * seen;
static unsigned last_seen;

static void retry(void *ptr);

void
start_mac(void)
{
  waiting = take_room(FRAMES, sizeof *waiting);
  seen = take_room(SEEN, sizeof *seen);
}

/* Sets the timer for the first frame that is due. */
static void
arm_retries(void)
{
  const struct waiting *first = NULL;
  clock_time_t now = mote_radio_clock();
  for(unsigned i = 0; i < FRAMES; i++) {
    if(waiting[i].tries > 0 && (first == NULL || waiting[i].due < first->due)) {
      first = &waiting[i];
    }
  }
  if(first == NULL) {
    ctimer_stop(&retry_timer);
  } else {
    ctimer_set(&retry_timer, first->due > now ? first->due - now : 0, retry, NULL);
  }
}

/* The same in this process's next activation, if another one is active: the timer is this process's. */
static void
arm_soon(void)
{
  if(mote_told()->process == tcpip_process.number && PROCESS_CURRENT() == &tcpip_process) {
    arm_retries();
  } else {
    must_arm = true;
    process_poll(&tcpip_process);
  }
}

void
work_mac(void)
{
  if(must_arm) {
    must_arm = false;
    arm_retries();
  }
}

static bool
send_frame(const uint8_t *bytes, size_t length)
{
  bool is_sent = mote_radio_send(bytes, length);
  if(is_sent) {
    uip_stat.mac.sent++;
  } else {
    LOG_WARN("a frame isn't sent: managed memory has no room for its %zu bytes\n", length);
  }
  return is_sent;
}

static void
try_once(struct waiting *one)
{
  one->tries++;
  one->due = mote_radio_clock() + mote_radio_round_trip() + 1;
  send_frame(one->bytes, one->length);
}

/* Sends a frame again, or gives it up. */
static void
try_again(struct waiting *one)
{
  if(one->tries < TRIES) {
    uip_stat.mac.again++;
    try_once(one);
    return;
  }
  one->tries = 0;
  uip_stat.mac.lost++;
  LOG_INFO("a frame is given up after %d tries, to ", TRIES);
  LOG_INFO_LLADDR(&one->to);
  LOG_INFO_("\n");
  note_tries(&one->to, TRIES, false);
  report_link_failure(&one->to);
}

static void
retry(void *ptr)
{
  clock_time_t now = mote_radio_clock();
  (void)ptr;
  for(unsigned i = 0; i < FRAMES; i++) {
    if(waiting[i].tries > 0 && waiting[i].due <= now) {
      try_again(&waiting[i]);
    }
  }
  arm_retries();
}

/* Whether a number is that of a frame that waits: an acknowledgement has no more than the number. */
static bool
is_number_taken(uint8_t sequence)
{
  bool is_taken = false;
  for(unsigned i = 0; i < FRAMES; i++) {
    is_taken |= waiting[i].tries > 0 && waiting[i].bytes[SEQUENCE_AT] == sequence;
  }
  return is_taken;
}

/* A free slot for a frame, or NULL. */
static struct waiting *
free_waiting(void)
{
  for(unsigned i = 0; i < mote_ipv6_settings.frames; i++) {
    if(waiting[i].tries == 0) {
      return &waiting[i];
    }
  }
  LOG_INFO("a frame isn't sent: %u others wait for their acknowledgement\n", mote_ipv6_settings.frames);
  return NULL;
}

/* Whether this many frames to one mote may wait, beside those that do. */
bool
has_slots(size_t frames)
{
  size_t unused = 0;
  for(unsigned i = 0; i < mote_ipv6_settings.frames; i++) {
    unused += waiting[i].tries == 0;
  }
  return frames <= unused;
}

/* True if the frame is sent, or waits to be sent again. */
bool
transmit(const uint8_t *bytes, size_t length, const linkaddr_t *to)
{
  uint8_t frame[MOST_FRAME];
  struct waiting *one = to == NULL ? NULL : free_waiting();
  size_t header;
  if(to != NULL && one == NULL) {
    return false;
  }
  do {
    header = mote_radio_write_header(frame, to);
  } while(is_number_taken(frame[SEQUENCE_AT]));
  memcpy(frame + header, bytes, length);
  if(to == NULL) {
    return send_frame(frame, header + length);
  }
  one->to = *to;
  one->length = (uint8_t)(header + length);
  memcpy(one->bytes, frame, header + length);
  try_once(one);
  arm_soon();
  return true;
}

/* An acknowledgement (section 7.3.3). Addresses have the low byte first. */
static void
send_ack(const uint8_t *frame, const linkaddr_t *to)
{
  uint8_t ack[ACK_SIZE] = {ACK, ACK_TO_ONE, frame[SEQUENCE_AT], frame[PAN_AT], frame[PAN_AT + 1]};
  for(unsigned i = 0; i < LINKADDR_SIZE; i++) {
    ack[ACK_ADDRESS_AT + i] = to->u8[LINKADDR_SIZE - 1 - i];
  }
  send_frame(ack, sizeof ack);
}

static void
take_ack(const uint8_t *frame)
{
  for(unsigned i = 0; i < LINKADDR_SIZE; i++) {
    if(frame[ACK_ADDRESS_AT + i] != linkaddr_node_addr.u8[LINKADDR_SIZE - 1 - i]) {
      return;
    }
  }
  for(unsigned i = 0; i < FRAMES; i++) {
    /* The number, and the PAN after it. */
    if(waiting[i].tries > 0 && memcmp(waiting[i].bytes + SEQUENCE_AT, frame + SEQUENCE_AT, 3) == 0) {
      unsigned tries = waiting[i].tries;
      waiting[i].tries = 0;
      note_tries(&waiting[i].to, tries, true);
    }
  }
  arm_soon();
}

/* Whether a frame came before, in the time in which it may be repeated: later the sender's numbers begin anew. Notes it. */
static bool
is_seen(const linkaddr_t *from, uint8_t sequence)
{
  clock_time_t now = mote_radio_clock(), age = TRIES * (mote_radio_round_trip() + 1);
  for(unsigned i = 0; i < SEEN; i++) {
    if(seen[i].sequence == sequence && now - seen[i].when <= age && linkaddr_cmp(&seen[i].from, from)) {
      return true;
    }
  }
  last_seen = (last_seen + 1) % SEEN;
  seen[last_seen].from = *from;
  seen[last_seen].when = now;
  seen[last_seen].sequence = sequence;
  return false;
}

/* A frame has arrived that is for this mote or for all, or has no header of 2015. */
void
hear_frame(const uint8_t *frame, size_t length, size_t header)
{
  linkaddr_t from = *packetbuf_addr(PACKETBUF_ADDR_SENDER), to = *packetbuf_addr(PACKETBUF_ADDR_RECEIVER);
  bool is_for_one = !linkaddr_cmp(&to, &linkaddr_null);
  if(header == 0 && length == ACK_SIZE && frame[0] == ACK && frame[1] == ACK_TO_ONE) {
    take_ack(frame);
    return;
  }
  if(header == 0 || linkaddr_cmp(&from, &linkaddr_null) || linkaddr_cmp(&from, &linkaddr_node_addr)) {
    uip_stat.mac.drop++;
    LOG_INFO("a frame of %zu bytes is dropped: it has no header of 2015 from another mote\n", length);
    return;
  }
  uip_stat.mac.recv++;
  if(is_for_one && (frame[0] & ASKED) != 0) {
    send_ack(frame, &from);
  }
  if(!is_for_one || !is_seen(&from, frame[SEQUENCE_AT])) {
    take_6lowpan(frame + header, length - header, &from, &to);
  }
}
