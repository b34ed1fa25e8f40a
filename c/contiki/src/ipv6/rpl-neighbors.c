/* The neighbours whose DIOs a mote has heard (RFC 6550, section 8.2.1), each in a block of the heap. One of them is the parent. */
#include "rpl.h"

#include "sys/log.h"
#define LOG_MODULE "RPL"
#define LOG_LEVEL mote_ipv6_settings.log_rpl

LIST(neighbors);

void
free_neighbor(struct rpl_neighbor *one)
{
  list_remove(neighbors, one);
  heapmem_free(one);
}

void
free_neighbors(void)
{
  rpl.parent = NULL;
  while(list_head(neighbors) != NULL) {
    free_neighbor(list_head(neighbors));
  }
}

struct rpl_neighbor *
find_neighbor(const linkaddr_t *link)
{
  struct rpl_neighbor *one = list_head(neighbors);
  while(one != NULL && !linkaddr_cmp(&one->link, link)) {
    one = one->next;
  }
  return one;
}

/* Makes room: the one with the greatest rank leaves, unless that is not above a rank. */
static void
forget_worst(uint16_t rank)
{
  struct rpl_neighbor *worst = NULL;
  for(struct rpl_neighbor *one = list_head(neighbors); one != NULL; one = one->next) {
    if(one != rpl.parent && one->rank > rank && (worst == NULL || one->rank > worst->rank)) {
      worst = one;
    }
  }
  if(worst != NULL) {
    free_neighbor(worst);
  }
}

static struct rpl_neighbor *
add_neighbor(const linkaddr_t *link, uint16_t rank)
{
  struct rpl_neighbor *one;
  if(list_length(neighbors) >= mote_ipv6_settings.neighbors) {
    forget_worst(rank);
  }
  if(list_length(neighbors) >= mote_ipv6_settings.neighbors) {
    return NULL;
  }
  one = heapmem_alloc(sizeof *one);
  if(one == NULL) {
    LOG_WARN("a neighbour isn't noted: the heap has no room\n");
    return NULL;
  }
  memset(one, 0, sizeof *one);
  one->link = *link;
  list_add(neighbors, one);
  return one;
}

/* Notes what a neighbour says; NULL if there is no room for it. */
struct rpl_neighbor *
note_neighbor(const linkaddr_t *link, const struct rpl_dio *dio)
{
  struct rpl_neighbor *one = find_neighbor(link);
  if(one == NULL) {
    one = add_neighbor(link, dio->rank);
  }
  if(one != NULL) {
    one->rank = dio->rank;
    one->dtsn = dio->dtsn;
    one->heard = (uint32_t)seconds();
  }
  return one;
}

/* The best one that may be the parent, or NULL: the present parent, if none is better (RFC 6552, section 4.2). */
struct rpl_neighbor *
best_neighbor(void)
{
  struct rpl_neighbor *best = rpl.parent != NULL && may_be_parent(rpl.parent) ? rpl.parent : NULL;
  for(struct rpl_neighbor *one = list_head(neighbors); one != NULL; one = one->next) {
    if(may_be_parent(one) && (best == NULL || is_better(one, best))) {
      best = one;
    }
  }
  return best;
}
