/*
 * When a mote sends RPL's messages, and what it does with those that aren't about the DODAG itself: DIO by a trickle timer (RFC 6206; RFC
 * 6550, section 8.3), DAO (section 9) until the root has acknowledged, DIS (section 8.3) until it has joined, and later to a silent parent.
 */
#include "rpl.h"

#include "lib/trickle-timer.h"

#include "sys/log.h"
#define LOG_MODULE "RPL"
#define LOG_LEVEL mote_ipv6_settings.log_rpl

/* In seconds, and how often the parent is asked. */
enum { PROBE_TIMEOUT = 2, PROBE_TRIES = 5 };

/* In ticks: timers of the mote are a bit longer. */
enum { LONGEST_TIMER = INT32_MAX };

static struct trickle_timer dio_timer;
static struct ctimer dis_timer, dao_timer;
static uint8_t dao_sequence, dao_tries, probes;

/* DIO. */

static void
tell_all(void *ptr, uint8_t suppress)
{
  (void)ptr;
  if(suppress == TRICKLE_TIMER_TX_OK && rpl.has_dag) {
    send_dio(&rpl.dio, NULL);
  }
}

/* Begins with the least interval, or goes back to it. */
void
reset_trickle(void)
{
  if(!trickle_timer_is_running(&dio_timer)) {
    trickle_timer_config(&dio_timer, (contiki_clock_second << rpl.dio.least_interval) / 1000, rpl.dio.doublings, rpl.dio.redundancy);
    trickle_timer_set(&dio_timer, tell_all, NULL);
  }
  trickle_timer_inconsistency(&dio_timer);
}

void
note_consistent(void)
{
  trickle_timer_consistency(&dio_timer);
}

void
stop_dios(void)
{
  trickle_timer_stop(&dio_timer);
}

/* DAO. */

/* The root has no room for the mote, or frames are lost: whether the parent is there, `ask` finds out. */
static void
rest_from_daos(void (*then)(void *ptr))
{
  rpl.is_reachable = false;
  dao_tries = 0;
  ctimer_set(&dao_timer, mote_ipv6_settings.probing_interval + random_below(mote_ipv6_settings.dao_delay), then, NULL);
}

static void
tell_root(void *ptr)
{
  const uip_ds6_addr_t *own = uip_ds6_get_global(ADDR_PREFERRED);
  struct rpl_dao dao = {.instance = rpl.dio.instance, .wants_answer = true, .lifetime = rpl.dio.default_lifetime};
  (void)ptr;
  if(!has_joined() || rpl.parent == NULL || own == NULL) {
    return;
  }
  if(dao_tries == mote_ipv6_settings.dao_tries) {
    rest_from_daos(tell_root);
    return;
  }
  dao_tries++;
  dao_sequence = next_count(dao_sequence);
  dao.sequence = dao_sequence;
  dao.target = own->ipaddr;
  dao.parent = link_local_of(&rpl.parent->link);
  dao.parent = with_prefix(&rpl.dio.prefix, dao.parent.u8 + IID_AT);
  ctimer_set(&dao_timer, mote_ipv6_settings.dao_timeout, tell_root, NULL);
  send_dao(&dao);
}

void
schedule_dao(void)
{
  clock_time_t delay = mote_ipv6_settings.dao_delay;
  dao_tries = 0;
  ctimer_set(&dao_timer, delay / 2 + random_below(delay), tell_root, NULL);
}

void
stop_daos(void)
{
  ctimer_stop(&dao_timer);
}

/* The root has a route. The mote tells it again before the route's lifetime ends. */
void
take_dao_ack(uint8_t instance, uint8_t sequence, uint8_t status)
{
  clock_time_t longest = (clock_time_t)rpl.dio.default_lifetime * rpl.dio.lifetime_unit * contiki_clock_second;
  clock_time_t lifetime = MIN(longest, (clock_time_t)LONGEST_TIMER);
  if(!has_joined() || rpl.is_root || instance != rpl.dio.instance || sequence != dao_sequence || status >= 128) {
    return;
  }
  if(!rpl.is_reachable) {
    LOG_INFO("the root has a route to this mote\n");
  }
  rpl.is_reachable = true;
  dao_tries = 0;
  ctimer_stop(&dao_timer);
  if(rpl.dio.default_lifetime != FOR_EVER) {
    ctimer_set(&dao_timer, lifetime / 2 + random_below(lifetime / 4 + 1), tell_root, NULL);
  }
}

/* The root notes a mote's parent. If there is no room for it, nothing is answered, and the mote tells it again later. */
void
take_dao(const struct rpl_dao *dao)
{
  uint32_t lifetime = dao->lifetime == FOR_EVER ? UIP_SR_INFINITE_LIFETIME : (uint32_t)dao->lifetime * rpl.dio.lifetime_unit;
  if(!rpl.is_root || dao->instance != rpl.dio.instance) {
    return;
  }
  if(dao->lifetime == 0) {
    expire_node(&dao->target);
  } else if(update_node(&dao->target, &dao->parent, lifetime) && dao->wants_answer) {
    send_dao_ack(dao, 0);
  }
}

/* DIS. */

/* Asks all for their DIO until the mote has joined; then a silent parent whether it is there. */
static void
ask(void *ptr)
{
  clock_time_t next = PROBE_TIMEOUT * contiki_clock_second, interval = mote_ipv6_settings.probing_interval;
  (void)ptr;
  if(rpl.is_root) {
    return;
  }
  if(!has_joined()) {
    send_dis(NULL);
    next = mote_ipv6_settings.dis_interval / 2 + random_below(mote_ipv6_settings.dis_interval);
  } else if(seconds() - rpl.parent->heard < interval / contiki_clock_second) {
    probes = 0;
    next = interval + random_below(contiki_clock_second);
  } else if(probes == PROBE_TRIES) {
    lose_parent();
    if(rpl.parent != NULL) {
      ask_after(next);
    }
    return;
  } else {
    probes++;
    send_dis(&rpl.parent->link);
  }
  ctimer_set(&dis_timer, next, ask, NULL);
}

void
ask_after(clock_time_t delay)
{
  probes = 0;
  ctimer_set(&dis_timer, delay, ask, NULL);
}

/* The parent may be gone: it counts as silent. */
void
ask_parent(void)
{
  rpl.parent->heard = (uint32_t)(seconds() - mote_ipv6_settings.probing_interval / contiki_clock_second);
  ask_after(PROBE_TIMEOUT * contiki_clock_second);
}

void
stop_asking(void)
{
  ctimer_stop(&dis_timer);
}

/* Whether the parent is being asked. */
bool
is_asking(void)
{
  return probes > 0;
}

void
take_dis(const linkaddr_t *from, bool was_for_all)
{
  if(has_joined()) {
    if(was_for_all) {
      reset_trickle();
    } else {
      send_dio(&rpl.dio, from);
    }
  }
}
