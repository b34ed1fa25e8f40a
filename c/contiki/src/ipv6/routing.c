/* routing.h: what programs ask of RPL. */
#include "net/routing/routing.h"

#include "rpl.h"

/* The first version of a root's network, and the first DTSN (RFC 6550, section 7.2). */
enum { FIRST_COUNT = 240 };

/* The root's prefix and the end of its address, if the program sets them. */
static uip_ipaddr_t root_prefix, root_iid;
static bool has_root_prefix, has_root_iid;

static void
do_nothing(void)
{
}

static void
set_root_prefix(uip_ipaddr_t *prefix, uip_ipaddr_t *iid)
{
  has_root_prefix = prefix != NULL;
  has_root_iid = iid != NULL;
  root_prefix = has_root_prefix ? *prefix : root_prefix;
  root_iid = has_root_iid ? *iid : root_iid;
}

static int
start_root(void)
{
  uip_ipaddr_t own = link_local_of(&linkaddr_node_addr), prefix = has_root_prefix ? root_prefix : *uip_ds6_default_prefix();
  struct rpl_dio dio = {
    .instance = RPL_INSTANCE,
    .version = FIRST_COUNT,
    .mode = NON_STORING,
    .dtsn = FIRST_COUNT,
    .rank = mote_ipv6_settings.hop_rank_increase,
    .has_configuration = true,
    .has_prefix = true,
    .doublings = mote_ipv6_settings.dio_doublings,
    .least_interval = mote_ipv6_settings.dio_interval,
    .redundancy = mote_ipv6_settings.dio_redundancy,
    .hop_rank_increase = mote_ipv6_settings.hop_rank_increase,
    .objective = mote_ipv6_settings.objective,
    .default_lifetime = mote_ipv6_settings.lifetime,
    .lifetime_unit = mote_ipv6_settings.lifetime_unit,
  };
  if(rpl.is_root && !is_leaving()) {
    return 0;
  }
  dio.dag_id = with_prefix(&prefix, has_root_iid ? root_iid.u8 + IID_AT : own.u8 + IID_AT);
  memset(prefix.u8 + IID_AT, 0, IID_SIZE);
  dio.prefix = prefix;
  become_root(&dio, &dio.dag_id);
  return 0;
}

static int
node_is_root(void)
{
  return rpl.is_root;
}

static int
root_address(uip_ipaddr_t *ipaddr)
{
  if(has_joined() && ipaddr != NULL) {
    *ipaddr = rpl.dio.dag_id;
  }
  return has_joined();
}

static int
sr_node_address(uip_ipaddr_t *addr, const uip_sr_node_t *node)
{
  if(!has_joined() || addr == NULL || node == NULL) {
    return 0;
  }
  *addr = with_prefix(&rpl.dio.prefix, node->link_identifier);
  return 1;
}

static int
node_has_joined(void)
{
  return has_joined();
}

static int
node_is_reachable(void)
{
  return has_joined() && rpl.is_reachable;
}

static void
repair_all(const char *str)
{
  (void)str;
  if(rpl.is_root) {
    ask_for_new_version();
  }
}

static void
repair_own(const char *str)
{
  (void)str;
  ask_to_repair();
}

static uint8_t
is_leaf(void)
{
  return 0;
}

const struct routing_driver rpl_lite_driver = {
  .name = "RPL Lite",
  .init = do_nothing,
  .root_set_prefix = set_root_prefix,
  .root_start = start_root,
  .node_is_root = node_is_root,
  .get_root_ipaddr = root_address,
  .get_sr_node_ipaddr = sr_node_address,
  .leave_network = ask_to_leave,
  .node_has_joined = node_has_joined,
  .node_is_reachable = node_is_reachable,
  .global_repair = repair_all,
  .local_repair = repair_own,
  .is_in_leaf_mode = is_leaf,
};
