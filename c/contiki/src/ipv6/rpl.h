/* What the parts of RPL share (stack.h says which these are), and what IPv6 asks it. */
#ifndef RPL_H_
#define RPL_H_

#include "stack.h"

#pragma GCC visibility push(hidden)

enum { RPL_INSTANCE = 0, NON_STORING = 1, OF0 = 0, MRHOF = 1, INFINITE_RANK = 0xffff, FOR_EVER = 0xff, MOST_HOPS = 64 };

struct rpl_neighbor {
  struct rpl_neighbor *next;
  linkaddr_t link;
  uint32_t heard; /* the second of the clock */
  uint16_t rank;
  uint8_t dtsn;
};

/* A DIO, or what the mote's own next one says. */
struct rpl_dio {
  uint8_t instance, version, mode, dtsn;
  uint16_t rank;
  uip_ipaddr_t dag_id;
  bool has_configuration, has_prefix;
  uint8_t doublings, least_interval, redundancy, default_lifetime;
  uint16_t max_rank_increase, hop_rank_increase, objective, lifetime_unit;
  uip_ipaddr_t prefix;
};

struct rpl_dao {
  uint8_t instance, sequence, lifetime;
  bool wants_answer;
  uip_ipaddr_t target, parent;
};

/* The mote's place in the network. */
struct rpl {
  struct rpl_dio dio; /* what its DIOs say */
  bool has_dag, is_root, is_reachable;
  uint16_t lowest_rank; /* of this version */
  uint16_t told_rank;   /* which its neighbours know, or hear soon */
  struct rpl_neighbor *parent;
};

extern struct rpl rpl;

/* rpl.c */
void start_rpl(void);
void work_rpl(void);
bool has_dag(void);
bool is_root(void);
bool has_joined(void);
uint16_t own_rank(void);
const struct rpl_neighbor *preferred_parent(void);
void become_root(const struct rpl_dio *dio, const uip_ipaddr_t *own);
void ask_to_leave(void);
bool is_leaving(void);
void ask_to_repair(void);
void ask_for_new_version(void);
void report_rank_error(void);
void report_missing_route(const uip_ipaddr_t *destination);
void report_link_failure(const linkaddr_t *link);
void lose_parent(void);
void review_parent(void);
void take_dio(const struct rpl_dio *dio, const linkaddr_t *from);

/* The counters of RFC 6550, section 7.2. */
bool is_newer(uint8_t a, uint8_t b);
uint8_t next_count(uint8_t a);

/* rpl-neighbors.c */
void free_neighbors(void);
void free_neighbor(struct rpl_neighbor *one);
struct rpl_neighbor *find_neighbor(const linkaddr_t *link);
struct rpl_neighbor *note_neighbor(const linkaddr_t *link, const struct rpl_dio *dio);
struct rpl_neighbor *best_neighbor(void);

/* rpl-objective.c */
void note_tries(const linkaddr_t *link, unsigned tries, bool is_acknowledged);
uint16_t rank_by(const struct rpl_neighbor *one);
bool may_be_parent(const struct rpl_neighbor *one);
bool is_better(const struct rpl_neighbor *one, const struct rpl_neighbor *other);
bool is_another_rank(uint16_t rank);

/* rpl-timers.c */
void reset_trickle(void);
void note_consistent(void);
void stop_dios(void);
void schedule_dao(void);
void stop_daos(void);
void ask_after(clock_time_t delay);
void ask_parent(void);
void stop_asking(void);
bool is_asking(void);
void take_dis(const linkaddr_t *from, bool was_for_all);
void take_dao(const struct rpl_dao *dao);
void take_dao_ack(uint8_t instance, uint8_t sequence, uint8_t status);

/* rpl-messages.c */
enum { RPL_DIS = 0, RPL_DIO = 1, RPL_DAO = 2, RPL_DAO_ACK = 3 };
bool input_rpl(const struct packet *packet, size_t at, const linkaddr_t *from);
void send_dis(const linkaddr_t *to);
void send_dio(const struct rpl_dio *dio, const linkaddr_t *to);
void send_dao(const struct rpl_dao *dao);
void send_dao_ack(const struct rpl_dao *dao, uint8_t status);

/* uip-sr.c: false if the table is full. The path has the identifiers from the first hop to the mote itself: its length, or 0 if there is
 * none. */
bool update_node(const uip_ipaddr_t *child, const uip_ipaddr_t *parent, uint32_t lifetime);
void expire_node(const uip_ipaddr_t *child);
void set_root_node(const uip_ipaddr_t *address);
void free_nodes(void);
unsigned path_to(const uip_ipaddr_t *addr, const uint8_t **path);

#pragma GCC visibility pop

#endif
