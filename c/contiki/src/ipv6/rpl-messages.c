/* RPL's messages as bytes: RFC 6550, section 6. */
#include "rpl.h"

enum { PAD1 = 0, CONFIGURATION = 4, TARGET = 5, TRANSIT = 6, PREFIX = 8 };
enum { CONFIGURATION_SIZE = 14, TARGET_SIZE = 18, TRANSIT_SIZE = 20, PREFIX_SIZE = 30 };
enum { DIS_BASE = 2, DIO_BASE = 24, DAO_BASE = 4, DAO_ACK_BASE = 4 };
enum { MODE_SHIFT = 3, WANTS_ACK = 0x80, HAS_DAG_ID = 0x40, AUTONOMOUS = 0x40, PREFIX_BITS = 64 };

/* ff02::1a */
static const uip_ipaddr_t all_rpl_nodes = {{0xff, 2, [15] = 0x1a}};

static uip_ipaddr_t
address_of(const linkaddr_t *to)
{
  return to == NULL ? all_rpl_nodes : link_local_of(to);
}

/* An option, of which `size` bytes follow its first two; returns the place after it. */
static uint8_t *
begin_option(uint8_t *at, uint8_t type, uint8_t size)
{
  memset(at, 0, 2 + (size_t)size);
  at[0] = type;
  at[1] = size;
  return at + 2;
}

/* Sending. */

void
send_dis(const linkaddr_t *to)
{
  uip_ipaddr_t destination = address_of(to);
  output_icmp(ICMP_RPL, RPL_DIS, (uint8_t[2]){0}, 2, &destination);
}

static uint8_t *
put_configuration(uint8_t *at, const struct rpl_dio *dio)
{
  uint8_t *option = begin_option(at, CONFIGURATION, CONFIGURATION_SIZE);
  option[1] = dio->doublings;
  option[2] = dio->least_interval;
  option[3] = dio->redundancy;
  put16(option + 4, dio->max_rank_increase);
  put16(option + 6, dio->hop_rank_increase);
  put16(option + 8, dio->objective);
  option[11] = dio->default_lifetime;
  put16(option + 12, dio->lifetime_unit);
  return option + CONFIGURATION_SIZE;
}

static uint8_t *
put_prefix(uint8_t *at, const struct rpl_dio *dio)
{
  uint8_t *option = begin_option(at, PREFIX, PREFIX_SIZE);
  option[0] = PREFIX_BITS;
  option[1] = AUTONOMOUS;
  put32(option + 2, UINT32_MAX);
  put32(option + 6, UINT32_MAX);
  memcpy(option + 14, &dio->prefix, PREFIX_BITS / 8);
  return option + PREFIX_SIZE;
}

void
send_dio(const struct rpl_dio *dio, const linkaddr_t *to)
{
  uint8_t body[DIO_BASE + 2 + CONFIGURATION_SIZE + 2 + PREFIX_SIZE] = {dio->instance, dio->version}, *end;
  uip_ipaddr_t destination = address_of(to);
  put16(body + 2, dio->rank);
  body[4] = (uint8_t)(dio->mode << MODE_SHIFT);
  body[5] = dio->dtsn;
  memcpy(body + 8, &dio->dag_id, ADDRESS_SIZE);
  end = put_prefix(put_configuration(body + DIO_BASE, dio), dio);
  output_icmp(ICMP_RPL, RPL_DIO, body, (size_t)(end - body), &destination);
}

void
send_dao(const struct rpl_dao *dao)
{
  uint8_t body[DAO_BASE + ADDRESS_SIZE + 2 + TARGET_SIZE + 2 + TRANSIT_SIZE] = {
    dao->instance, (dao->wants_answer ? WANTS_ACK : 0) | HAS_DAG_ID, 0, dao->sequence};
  uint8_t *option;
  memcpy(body + DAO_BASE, &rpl.dio.dag_id, ADDRESS_SIZE);
  option = begin_option(body + DAO_BASE + ADDRESS_SIZE, TARGET, TARGET_SIZE);
  option[1] = 128;
  memcpy(option + 2, &dao->target, ADDRESS_SIZE);
  option = begin_option(option + TARGET_SIZE, TRANSIT, TRANSIT_SIZE);
  option[2] = dao->sequence;
  option[3] = dao->lifetime;
  memcpy(option + 4, &dao->parent, ADDRESS_SIZE);
  output_icmp(ICMP_RPL, RPL_DAO, body, sizeof body, &rpl.dio.dag_id);
}

void
send_dao_ack(const struct rpl_dao *dao, uint8_t status)
{
  output_icmp(ICMP_RPL, RPL_DAO_ACK, (uint8_t[4]){dao->instance, 0, dao->sequence, status}, 4, &dao->target);
}

/* Receiving. What is malformed is not read. */

/* The next option's content, and its type and size; NULL at the end, or where it is cut off. */
static const uint8_t *
next_option(const uint8_t **at, const uint8_t *end, uint8_t *type, uint8_t *size)
{
  const uint8_t *option;
  while(*at < end && **at == PAD1) {
    (*at)++;
  }
  if(end - *at < 2 || end - *at < 2 + (*at)[1]) {
    return NULL;
  }
  option = *at;
  *type = option[0];
  *size = option[1];
  *at += 2 + *size;
  return option + 2;
}

/* Whether the options of a message end where it does. */
static bool
are_options_whole(const uint8_t *at, const uint8_t *end)
{
  uint8_t type, size;
  while(next_option(&at, end, &type, &size) != NULL) {
  }
  return at == end;
}

/* Whether motes may have addresses with this prefix (RFC 4862, section 5.5.3). */
static bool
is_usable(const uip_ipaddr_t *prefix)
{
  return !uip_is_addr_linklocal(prefix) && !uip_is_addr_mcast(prefix) && !uip_is_addr_unspecified(prefix);
}

static bool
read_dis(const uint8_t *body, const uint8_t *end, const linkaddr_t *from, bool was_for_all)
{
  if(end - body < DIS_BASE || !are_options_whole(body + DIS_BASE, end)) {
    return false;
  }
  take_dis(from, was_for_all);
  return true;
}

static void
read_dio_options(struct rpl_dio *dio, const uint8_t *at, const uint8_t *end)
{
  const uint8_t *option;
  uint8_t type, size;
  while((option = next_option(&at, end, &type, &size)) != NULL) {
    if(type == CONFIGURATION && size == CONFIGURATION_SIZE) {
      dio->has_configuration = true;
      dio->doublings = option[1];
      dio->least_interval = option[2];
      dio->redundancy = option[3];
      dio->max_rank_increase = get16(option + 4);
      dio->hop_rank_increase = get16(option + 6);
      dio->objective = get16(option + 8);
      dio->default_lifetime = option[11];
      dio->lifetime_unit = get16(option + 12);
    } else if(type == PREFIX && size == PREFIX_SIZE && option[0] == PREFIX_BITS && (option[1] & AUTONOMOUS) != 0) {
      dio->prefix = get_address(option + 14);
      memset(dio->prefix.u8 + IID_AT, 0, IID_SIZE);
      dio->has_prefix = is_usable(&dio->prefix);
    }
  }
}

static bool
read_dio(const uint8_t *body, const uint8_t *end, const linkaddr_t *from)
{
  struct rpl_dio dio;
  if(end - body < DIO_BASE || !are_options_whole(body + DIO_BASE, end)) {
    return false;
  }
  dio = (struct rpl_dio){
    .instance = body[0], .version = body[1], .rank = get16(body + 2), .mode = body[4] >> MODE_SHIFT & 7, .dtsn = body[5]};
  dio.dag_id = get_address(body + 8);
  read_dio_options(&dio, body + DIO_BASE, end);
  take_dio(&dio, from);
  return true;
}

static void
read_dao_options(struct rpl_dao *dao, const uint8_t *at, const uint8_t *end)
{
  bool has_target = false, has_parent = false;
  const uint8_t *option;
  uint8_t type, size;
  while((option = next_option(&at, end, &type, &size)) != NULL) {
    if(type == TARGET && size == TARGET_SIZE && option[1] == 128) {
      dao->target = get_address(option + 2);
      has_target = true;
    } else if(type == TRANSIT && size == TRANSIT_SIZE) {
      dao->lifetime = option[3];
      dao->parent = get_address(option + 4);
      has_parent = true;
    }
  }
  if(has_target && has_parent) {
    take_dao(dao);
  }
}

/* One that names another DODAG is ignored. */
static bool
read_dao(const uint8_t *body, const uint8_t *end)
{
  struct rpl_dao dao;
  bool is_named = end - body >= DAO_BASE && (body[1] & HAS_DAG_ID) != 0;
  size_t base = is_named ? DAO_BASE + ADDRESS_SIZE : DAO_BASE;
  if((size_t)(end - body) < base || !are_options_whole(body + base, end)) {
    return false;
  }
  if(!is_named || memcmp(body + DAO_BASE, &rpl.dio.dag_id, ADDRESS_SIZE) == 0) {
    dao = (struct rpl_dao){.instance = body[0], .wants_answer = (body[1] & WANTS_ACK) != 0, .sequence = body[3]};
    read_dao_options(&dao, body + base, end);
  }
  return true;
}

static bool
read_dao_ack(const uint8_t *body, const uint8_t *end)
{
  if(end - body < DAO_ACK_BASE) {
    return false;
  }
  take_dao_ack(body[0], body[2], body[3]);
  return true;
}

/* DIS and DIO are from a neighbour, by its address of the link (section 6). */
bool
input_rpl(const struct packet *packet, size_t at, const linkaddr_t *from)
{
  const uint8_t *body = packet->bytes + at + UIP_ICMPH_LEN, *end = packet->bytes + packet->length;
  uip_ipaddr_t source = get_address(packet->bytes + SRC_AT);
  bool is_near = uip_is_addr_linklocal(&source);
  switch(packet->bytes[at + 1]) {
  case RPL_DIS:
    return is_near && read_dis(body, end, from, packet->bytes[DST_AT] == 0xff);
  case RPL_DIO:
    return is_near && read_dio(body, end, from);
  case RPL_DAO:
    return read_dao(body, end);
  case RPL_DAO_ACK:
    return read_dao_ack(body, end);
  default:
    return false;
  }
}
