/*
 * RPL (RFC 6550), mode 1: one DODAG, whose root alone knows routes. Motes join by DIOs of their neighbours, tell the root their parent by a
 * DAO, and are reachable when it answers. The rank is that of an objective function (rpl-objective.c).
 *
 * A mote that loses its parent, and hears no neighbour with a rank that is low enough, detaches, tells that its rank is infinite, and joins
 * again. So it needs no limit to how far a rank may rise (DAGMaxRankIncrease 0).
 */
#include "rpl.h"

#include "lib/trickle-timer.h"

#include "sys/log.h"
#define LOG_MODULE "RPL"
#define LOG_LEVEL mote_ipv6_settings.log_rpl

/* In seconds: a mote without a network asks at first after one more than a random part of this. */
enum { FIRST_DIS = 5, PATIENCE = 60 };

/* Of section 7.2: a counter is circular up to here, and begins above. */
enum { CIRCLE = 128, WINDOW = 16 };

struct rpl rpl;

/* What is left to do for this process, since another one asked for it. */
static bool must_start, must_leave, must_forget, must_repair, must_reset;

/* When the root asked all motes for their DAOs, and the seconds that it waits until it asks again. */
static unsigned long asked_at, patience;

/* What is known. */

bool
has_dag(void)
{
  return rpl.has_dag;
}

bool
is_root(void)
{
  return rpl.is_root;
}

uint16_t
own_rank(void)
{
  return rpl.has_dag ? rpl.dio.rank : INFINITE_RANK;
}

const struct rpl_neighbor *
preferred_parent(void)
{
  return rpl.parent;
}

bool
has_joined(void)
{
  return own_rank() != INFINITE_RANK;
}

/* Counters that are more than a window apart can't be compared: neither is newer. */
bool
is_newer(uint8_t a, uint8_t b)
{
  int ahead = a < CIRCLE ? (a - b) & (CIRCLE - 1) : a - b;
  if((a < CIRCLE) != (b < CIRCLE)) {
    return a < CIRCLE ? 2 * CIRCLE + a - b <= WINDOW : 2 * CIRCLE + b - a > WINDOW;
  }
  return ahead > 0 && ahead <= WINDOW;
}

uint8_t
next_count(uint8_t a)
{
  return a < CIRCLE ? (uint8_t)((a + 1) & (CIRCLE - 1)) : (uint8_t)(a + 1);
}

/* The DODAG. */

/* The mote has no parent any more. */
static void
detach(void)
{
  rpl.is_reachable = false;
  free_neighbors();
  stop_daos();
  if(has_joined()) {
    LOG_INFO("the mote leaves its network\n");
    rpl.dio.rank = INFINITE_RANK;
    send_dio(&rpl.dio, NULL);
  }
  stop_dios();
  ask_after(contiki_clock_second + random_below(FIRST_DIS * contiki_clock_second));
}

/* The mote's rank by its parent. */
static void
take_rank(uint16_t rank)
{
  if(rpl.dio.rank == rank) {
    return;
  }
  rpl.dio.rank = rank;
  rpl.lowest_rank = MIN(rpl.lowest_rank, rank);
  if(is_another_rank(rank)) {
    rpl.told_rank = rank;
    reset_trickle();
  }
}

static void
choose_parent(void)
{
  struct rpl_neighbor *best = best_neighbor();
  if(best == NULL) {
    detach();
    return;
  }
  if(best != rpl.parent) {
    LOG_INFO("the parent is ");
    LOG_INFO_LLADDR(&best->link);
    LOG_INFO_("\n");
    rpl.parent = best;
    schedule_dao();
  }
  take_rank(rank_by(best));
}

/* The cost of a link has changed. */
void
review_parent(void)
{
  if(has_joined() && !rpl.is_root) {
    choose_parent();
  }
}

/* The parent doesn't answer. */
void
lose_parent(void)
{
  struct rpl_neighbor *parent = rpl.parent;
  rpl.parent = NULL;
  if(parent != NULL) {
    free_neighbor(parent);
  }
  choose_parent();
}

/* The mote's one global address is this from now on. */
static void
take_address(const uip_ipaddr_t *own)
{
  uip_ds6_addr_t *old = uip_ds6_get_global(-1);
  uip_ipaddr_t address = *own;
  if(old != NULL && !uip_ipaddr_cmp(&old->ipaddr, own)) {
    uip_ds6_addr_rm(old);
  }
  uip_ds6_addr_add(&address, 0, ADDR_AUTOCONF);
}

/* Takes part in the DODAG, or the version of it, that a DIO is of. */
static void
join(const struct rpl_dio *dio, const linkaddr_t *from)
{
  uip_ipaddr_t own = link_local_of(&linkaddr_node_addr);
  free_neighbors();
  stop_dios();
  rpl.dio = *dio;
  rpl.dio.rank = rpl.lowest_rank = rpl.told_rank = INFINITE_RANK;
  rpl.has_dag = true;
  rpl.is_reachable = false;
  own = with_prefix(&dio->prefix, own.u8 + IID_AT);
  take_address(&own);
  LOG_INFO("the mote joins version %u of the network of ", dio->version);
  LOG_INFO_6ADDR(&dio->dag_id);
  LOG_INFO_("\n");
  note_neighbor(from, dio);
  choose_parent();
  if(has_joined()) {
    ask_after(mote_ipv6_settings.probing_interval + random_below(contiki_clock_second));
  }
}

/* A DIO of the mote's own DODAG and version. */
static void
take_consistent(const struct rpl_dio *dio, const linkaddr_t *from)
{
  const struct rpl_neighbor *known = find_neighbor(from);
  bool is_lost = dio->rank == INFINITE_RANK;
  bool is_reset = known != NULL && known == rpl.parent && is_newer(dio->dtsn, known->dtsn);
  if(!is_lost) {
    note_consistent();
  } else if(known == NULL || known != rpl.parent) {
    /* It looks for a parent. */
    reset_trickle();
  }
  if(rpl.is_root && is_newer(dio->dtsn, rpl.dio.dtsn)) {
    /* From before the root was started again. */
    rpl.dio.dtsn = dio->dtsn;
  }
  if(rpl.is_root || (known == NULL && is_lost)) {
    return;
  }
  note_neighbor(from, dio);
  choose_parent();
  if(is_reset && rpl.parent == known) {
    /* The motes below learn it soon (section 9.6). */
    rpl.dio.dtsn = next_count(rpl.dio.dtsn);
    schedule_dao();
    reset_trickle();
  }
}

/* Whether a DIO has all that the mote needs to join. */
static bool
can_join(const struct rpl_dio *dio)
{
  return dio->has_configuration && dio->has_prefix && !uip_is_addr_mcast(&dio->dag_id) && dio->hop_rank_increase > 0 &&
         dio->rank < INFINITE_RANK - dio->hop_rank_increase && dio->lifetime_unit > 0 && dio->default_lifetime > 0 &&
         dio->least_interval <= 20 && TRICKLE_TIMER_IPAIR_IS_VALID((contiki_clock_second << dio->least_interval) / 1000, dio->doublings);
}

void
take_dio(const struct rpl_dio *dio, const linkaddr_t *from)
{
  if(dio->instance != RPL_INSTANCE || dio->mode != NON_STORING ||
     (dio->has_configuration && dio->objective != OF0 && dio->objective != MRHOF)) {
    return;
  }
  if(!has_joined()) {
    if(can_join(dio)) {
      join(dio, from);
    }
  } else if(!uip_ipaddr_cmp(&dio->dag_id, &rpl.dio.dag_id)) {
    return;
  } else if(dio->version == rpl.dio.version) {
    take_consistent(dio, from);
  } else if(is_newer(rpl.dio.version, dio->version)) {
    reset_trickle();
  } else if(rpl.is_root) {
    /* From before the root was started again. */
    rpl.dio.version = next_count(dio->version);
    reset_trickle();
  } else if(is_newer(dio->version, rpl.dio.version) && can_join(dio)) {
    join(dio, from);
  }
}

void
report_rank_error(void)
{
  must_reset = true;
  process_poll(&tcpip_process);
}

/*
 * The root has no route to a mote of its network: perhaps it has begun anew, and forgotten all routes, of which motes tell it only before
 * their lifetime ends. So it asks for them (section 9.6), at once, and later each time after twice as long.
 */
void
report_missing_route(const uip_ipaddr_t *destination)
{
  unsigned long longest = (unsigned long)rpl.dio.default_lifetime * rpl.dio.lifetime_unit;
  if(memcmp(destination, &rpl.dio.prefix, IID_AT) != 0 || (patience > 0 && seconds() - asked_at < patience)) {
    return;
  }
  asked_at = seconds();
  patience = patience == 0 ? PATIENCE : MIN(2 * patience, MAX(longest, (unsigned long)PATIENCE));
  rpl.dio.dtsn = next_count(rpl.dio.dtsn);
  must_reset = true;
  process_poll(&tcpip_process);
}

/* A frame to a mote was never acknowledged: if that is the parent, it is asked whether it is there. */
void
report_link_failure(const linkaddr_t *link)
{
  if(rpl.parent != NULL && linkaddr_cmp(&rpl.parent->link, link) && !is_asking()) {
    ask_parent();
  }
}

/* What programs ask for (routing.c): at once, but for what needs this process's timers and blocks. */

/* A network that the mote was the root of before, or took part in, begins a new version. */
void
become_root(const struct rpl_dio *dio, const uip_ipaddr_t *own)
{
  bool is_again = uip_ipaddr_cmp(&rpl.dio.dag_id, &dio->dag_id);
  uint8_t version = next_count(rpl.dio.version), dtsn = next_count(rpl.dio.dtsn);
  rpl.parent = NULL;
  rpl.dio = *dio;
  rpl.dio.version = is_again ? version : dio->version;
  rpl.dio.dtsn = is_again ? dtsn : dio->dtsn;
  rpl.has_dag = rpl.is_root = rpl.is_reachable = true;
  take_address(own);
  set_root_node(own);
  must_forget |= must_leave;
  must_leave = false;
  must_start = true;
  process_poll(&tcpip_process);
}

bool
is_leaving(void)
{
  return must_leave;
}

void
ask_to_leave(void)
{
  must_leave = true;
  process_poll(&tcpip_process);
}

void
ask_to_repair(void)
{
  must_repair = true;
  process_poll(&tcpip_process);
}

void
ask_for_new_version(void)
{
  rpl.dio.version = next_count(rpl.dio.version);
  rpl.dio.dtsn = next_count(rpl.dio.dtsn);
  must_reset = true;
  process_poll(&tcpip_process);
}

/* The process. */

void
start_rpl(void)
{
  clock_time_t interval = mote_ipv6_settings.dis_interval;
  ask_after(interval / 2 + random_below(interval));
}

/* The mote leaves the network, and looks for another. A root's DIO says that its rank is infinite. */
static void
leave_now(void)
{
  detach();
  free_nodes();
  uip_ds6_addr_rm(uip_ds6_get_global(-1));
  rpl.has_dag = rpl.is_root = false;
}

static void
start_now(void)
{
  if(must_forget) {
    must_forget = false;
    free_nodes();
    set_root_node(&rpl.dio.dag_id);
  }
  free_neighbors();
  stop_asking();
  stop_daos();
  stop_dios();
  reset_trickle();
}

/* The process was polled. */
void
work_rpl(void)
{
  if(must_leave) {
    must_leave = must_start = false;
    leave_now();
  }
  if(must_start) {
    must_start = false;
    start_now();
  }
  if(must_repair) {
    must_repair = false;
    if(!rpl.is_root) {
      detach();
    }
  }
  if(must_reset) {
    must_reset = false;
    if(has_joined()) {
      reset_trickle();
    }
  }
}
