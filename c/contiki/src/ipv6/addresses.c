/* Addresses: uip.h and uip-ds6.h. Their ends are made of link-layer addresses by RFC 4291, appendix A; the choice between a mote's two
 * addresses is a part of RFC 6724, section 5. */
#include "rpl.h"

enum { UNIVERSAL = 0x02 };

uip_lladdr_t uip_lladdr;
uip_ds6_netif_t uip_ds6_if;

static const uip_ip6addr_t default_prefix = {{0xfd}}, link_local_prefix = {{0xfe, 0x80}};

/* Identifiers. */

uip_ipaddr_t
with_prefix(const uip_ipaddr_t *prefix, const uint8_t *iid)
{
  uip_ipaddr_t address = *prefix;
  memcpy(address.u8 + IID_AT, iid, IID_SIZE);
  return address;
}

uip_ipaddr_t
link_local_of(const linkaddr_t *link)
{
  uip_ipaddr_t address = with_prefix(&link_local_prefix, link->u8);
  address.u8[IID_AT] ^= UNIVERSAL;
  return address;
}

linkaddr_t
link_of(const uip_ipaddr_t *address)
{
  linkaddr_t link;
  memcpy(link.u8, address->u8 + IID_AT, LINKADDR_SIZE);
  link.u8[0] ^= UNIVERSAL;
  return link;
}

void
uip_ds6_set_addr_iid(uip_ipaddr_t *ipaddr, const uip_lladdr_t *lladdr)
{
  memcpy(ipaddr->u8 + IID_AT, lladdr, IID_SIZE);
  ipaddr->u8[IID_AT] ^= UNIVERSAL;
}

void
uip_ds6_set_lladdr_from_iid(uip_lladdr_t *lladdr, const uip_ipaddr_t *ipaddr)
{
  memcpy(lladdr, ipaddr->u8 + IID_AT, IID_SIZE);
  lladdr->addr[0] ^= UNIVERSAL;
}

/* The mote's own. */

const uip_ip6addr_t *
uip_ds6_default_prefix(void)
{
  return &default_prefix;
}

void
start_addresses(void)
{
  uip_ipaddr_t address = link_local_of(&linkaddr_node_addr);
  memcpy(&uip_lladdr, &linkaddr_node_addr, sizeof uip_lladdr);
  uip_ds6_if.link_mtu = MOST_PACKET;
  uip_ds6_if.cur_hop_limit = mote_ipv6_settings.hop_limit;
  uip_ds6_addr_add(&address, 0, ADDR_AUTOCONF);
}

uip_ds6_addr_t *
uip_ds6_addr_lookup(uip_ipaddr_t *ipaddr)
{
  for(unsigned i = 0; i < UIP_DS6_ADDR_NB; i++) {
    uip_ds6_addr_t *own = &uip_ds6_if.addr_list[i];
    if(own->isused && uip_ipaddr_cmp(&own->ipaddr, ipaddr)) {
      return own;
    }
  }
  return NULL;
}

uip_ds6_addr_t *
uip_ds6_addr_add(uip_ipaddr_t *ipaddr, unsigned long vlifetime, uint8_t type)
{
  uip_ds6_addr_t *own = uip_ds6_addr_lookup(ipaddr);
  for(unsigned i = 0; own == NULL && i < UIP_DS6_ADDR_NB; i++) {
    if(!uip_ds6_if.addr_list[i].isused) {
      own = &uip_ds6_if.addr_list[i];
    }
  }
  if(own != NULL) {
    *own = (uip_ds6_addr_t){.isused = 1, .ipaddr = *ipaddr, .state = ADDR_PREFERRED, .type = type, .isinfinite = vlifetime == 0};
  }
  return own;
}

void
uip_ds6_addr_rm(uip_ds6_addr_t *addr)
{
  if(addr != NULL) {
    addr->isused = 0;
  }
}

static uip_ds6_addr_t *
find_own(int8_t state, bool is_link_local)
{
  for(unsigned i = 0; i < UIP_DS6_ADDR_NB; i++) {
    uip_ds6_addr_t *own = &uip_ds6_if.addr_list[i];
    if(own->isused && (state == -1 || own->state == state) && uip_is_addr_linklocal(&own->ipaddr) == is_link_local) {
      return own;
    }
  }
  return NULL;
}

uip_ds6_addr_t *
uip_ds6_get_link_local(int8_t state)
{
  return find_own(state, true);
}

uip_ds6_addr_t *
uip_ds6_get_global(int8_t state)
{
  return find_own(state, false);
}

/* All nodes, all routers, and all RPL nodes of the link (ff02::1, ff02::2, ff02::1a). */
bool
uip_ds6_is_my_maddr(const uip_ipaddr_t *ipaddr)
{
  static const uint8_t groups[] = {1, 2, 0x1a};
  uip_ipaddr_t group = {{0xff, 2}};
  for(unsigned i = 0; i < sizeof groups; i++) {
    group.u8[15] = groups[i];
    if(uip_ipaddr_cmp(&group, ipaddr)) {
      return true;
    }
  }
  return false;
}

void
uip_ds6_select_src(uip_ipaddr_t *src, uip_ipaddr_t *dst)
{
  bool is_near = uip_is_addr_linklocal(dst) || (uip_is_addr_mcast(dst) && (dst->u8[1] & 0x0f) <= 2);
  const uip_ds6_addr_t *own = is_near ? NULL : uip_ds6_get_global(ADDR_PREFERRED);
  own = own == NULL ? uip_ds6_get_link_local(ADDR_PREFERRED) : own;
  *src = own == NULL ? uip_all_zeroes_addr : own->ipaddr;
}

const uip_ipaddr_t *
uip_ds6_defrt_choose(void)
{
  static uip_ipaddr_t address;
  if(preferred_parent() == NULL) {
    return NULL;
  }
  address = link_local_of(&preferred_parent()->link);
  return &address;
}
