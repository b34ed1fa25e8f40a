/*
 * The objective functions, of which the root chooses one: OF0 (RFC 6552), by which each hop costs the same, and MRHOF (RFC 6719), by which
 * it costs the expected transmissions of a frame (ETX, in 128ths). Without metric containers the cost of a path is the rank (section 3.5).
 *
 * A mote takes a new parent only if that has a lower rank than the mote ever had in this version. Motes below it never have one, so no loop
 * arises, although by MRHOF a mote's rank rises with that of its parent, and with the cost of the link.
 */
#include "rpl.h"

/* Of Contiki-NG; but the greatest cost of a path is that of RFC 6719, section 5. */
enum { ETX = 128, FIRST_ETX = 2 * ETX, LOST_ETX = 12 * ETX, MOST_ETX = 8 * ETX, MOST_COST = 32768, THRESHOLD = 96 };

/* How much a frame counts, in hundredths: the first ones on a link count more. */
enum { SHARE = 10, FIRST_SHARE = 25, FIRST_FRAMES = 4, WHOLE = 100 };

/* The links on which frames were sent last; as many as there may be neighbours. */
enum { LINKS = 20 };

static struct link_cost {
  linkaddr_t link;
  uint16_t etx;
  uint8_t frames;
} * links;
static unsigned last_link;

static bool
uses_etx(void)
{
  return rpl.dio.objective == MRHOF;
}

static struct link_cost *
find_link(const linkaddr_t *link)
{
  unsigned i = 0;
  if(links == NULL) {
    links = take_room(LINKS, sizeof *links);
  }
  while(i < LINKS && !linkaddr_cmp(&links[i].link, link)) {
    i++;
  }
  return i < LINKS ? &links[i] : NULL;
}

static uint16_t
etx_of(const linkaddr_t *link)
{
  const struct link_cost *known = find_link(link);
  return known == NULL ? FIRST_ETX : known->etx;
}

/* A frame to a mote was acknowledged after some tries, or never. */
void
note_tries(const linkaddr_t *link, unsigned tries, bool is_acknowledged)
{
  struct link_cost *one;
  uint32_t share, etx = is_acknowledged ? tries * ETX : LOST_ETX;
  if(!uses_etx()) {
    return;
  }
  one = find_link(link);
  if(one == NULL) {
    last_link = (last_link + 1) % LINKS;
    one = &links[last_link];
    *one = (struct link_cost){.link = *link, .etx = FIRST_ETX};
  }
  share = one->frames < FIRST_FRAMES ? FIRST_SHARE : SHARE;
  one->frames = (uint8_t)MIN(one->frames + 1, FIRST_FRAMES);
  one->etx = (uint16_t)((one->etx * (WHOLE - share) + etx * share) / WHOLE);
  review_parent();
}

static uint32_t
cost_by(const struct rpl_neighbor *one)
{
  return one->rank + (uint32_t)(uses_etx() ? etx_of(&one->link) : rpl.dio.hop_rank_increase);
}

/* The mote's rank if a neighbour is its parent: by MRHOF at least the next multiple of the least step (section 3.3). */
uint16_t
rank_by(const struct rpl_neighbor *one)
{
  uint32_t step = rpl.dio.hop_rank_increase, cost = cost_by(one), least = step * (one->rank / step + 1);
  return (uint16_t)(uses_etx() ? MAX(cost, least) : cost);
}

/* Whether a neighbour may be the parent. */
bool
may_be_parent(const struct rpl_neighbor *one)
{
  uint32_t step = rpl.dio.hop_rank_increase, cost = cost_by(one);
  if(one->rank >= INFINITE_RANK - step) {
    return false;
  }
  if(!uses_etx()) {
    return cost <= own_rank();
  }
  return (one == rpl.parent || one->rank < rpl.lowest_rank) && etx_of(&one->link) <= MOST_ETX && cost <= MOST_COST;
}

/* Whether a neighbour is a better parent than another one. The present parent is left only for one that is better by a threshold (section
 * 3.2.2). */
bool
is_better(const struct rpl_neighbor *one, const struct rpl_neighbor *other)
{
  uint32_t least = uses_etx() && other == rpl.parent ? THRESHOLD : 1;
  return cost_by(one) + least <= cost_by(other);
}

/* Whether neighbours must learn soon of a rank that was another one when they heard it last: by MRHOF if it has changed by a step. */
bool
is_another_rank(uint16_t rank)
{
  return !uses_etx() || rank >= rpl.told_rank + rpl.dio.hop_rank_increase || rank + rpl.dio.hop_rank_increase <= rpl.told_rank;
}
