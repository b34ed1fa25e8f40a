/*
 * The root's table of motes, and their routes (RFC 6550, section 9.7). The nodes are in blocks of the heap, of this process, each with
 * several. A node's parent has a node, too, perhaps without a parent of its own: then there is no route.
 */
#include "stack.h"

#include "sys/log.h"
#define LOG_MODULE "RPL"
#define LOG_LEVEL mote_ipv6_settings.log_rpl

#include "rpl.h"

enum { BLOCK_NODES = 16 };

/* Nodes of lifetime 0 are unused. */
struct block {
  struct block *next;
  uip_sr_node_t nodes[BLOCK_NODES];
};

LIST(blocks);
static unsigned count;

/* The root's own, which needs no block. */
static uip_sr_node_t root;

static bool
is_used(const uip_sr_node_t *node)
{
  return node->lifetime != 0;
}

/* The first used node from a position in a block on, or NULL. */
static uip_sr_node_t *
first_used(struct block *block, size_t at)
{
  for(; block != NULL; block = block->next, at = 0) {
    for(; at < BLOCK_NODES; at++) {
      if(is_used(&block->nodes[at])) {
        return &block->nodes[at];
      }
    }
  }
  return NULL;
}

uip_sr_node_t *
uip_sr_node_head(void)
{
  return is_used(&root) ? &root : NULL;
}

uip_sr_node_t *
uip_sr_node_next(uip_sr_node_t *item)
{
  struct block *block = list_head(blocks);
  if(item == &root) {
    return first_used(block, 0);
  }
  while(block != NULL && (item < block->nodes || item >= block->nodes + BLOCK_NODES)) {
    block = block->next;
  }
  return block == NULL ? NULL : first_used(block, (size_t)(item - block->nodes) + 1);
}

/* Whether it is the end of the root's address of the link. Motes name their parent by that end, also where the root's other address has one
 * that the program set. */
static bool
is_end_of_root(const uint8_t *iid)
{
  uip_ipaddr_t own = link_local_of(&linkaddr_node_addr);
  return is_used(&root) && memcmp(own.u8 + IID_AT, iid, IID_SIZE) == 0;
}

static uip_sr_node_t *
find_node(const uint8_t *iid)
{
  uip_sr_node_t *node = uip_sr_node_head();
  if(is_end_of_root(iid)) {
    return &root;
  }
  while(node != NULL && memcmp(node->link_identifier, iid, IID_SIZE) != 0) {
    node = uip_sr_node_next(node);
  }
  return node;
}

/* The node of an address in the root's network, or NULL. */
static uip_sr_node_t *
node_at(const uip_ipaddr_t *address)
{
  return memcmp(address, &rpl.dio.prefix, IID_AT) == 0 ? find_node(address->u8 + IID_AT) : NULL;
}

/* Frees a node without a parent, unless it is needed as the parent of others. */
static void
release(uip_sr_node_t *node)
{
  uip_sr_node_t *one = uip_sr_node_head();
  if(node == NULL || node == &root || node->parent != NULL) {
    return;
  }
  while(one != NULL && one->parent != node) {
    one = uip_sr_node_next(one);
  }
  if(one == NULL) {
    node->lifetime = 0;
    count--;
  }
}

/* A node that is needed as a parent is only cut off from the root. */
static void
free_node(uip_sr_node_t *node)
{
  uip_sr_node_t *above = node->parent;
  node->parent = NULL;
  node->lifetime = UIP_SR_INFINITE_LIFETIME;
  release(node);
  release(above);
}

/* Frees those whose time is over. */
static void
expire_nodes(void)
{
  for(uip_sr_node_t *node = uip_sr_node_head(); node != NULL; node = uip_sr_node_next(node)) {
    if(node->lifetime != UIP_SR_INFINITE_LIFETIME && node->lifetime < seconds()) {
      free_node(node);
    }
  }
}

int
uip_sr_num_nodes(void)
{
  expire_nodes();
  return (int)count + is_used(&root);
}

uip_sr_node_t *
uip_sr_get_node(const void *graph, const uip_ipaddr_t *addr)
{
  (void)graph;
  return node_at(addr);
}

/* An unused node, in a further block if needed; NULL if the heap has no room, or there are as many as there may be. */
static uip_sr_node_t *
new_node(void)
{
  struct block *block = list_head(blocks);
  if(count >= mote_ipv6_settings.nodes) {
    return NULL;
  }
  for(; block != NULL; block = block->next) {
    for(unsigned i = 0; i < BLOCK_NODES; i++) {
      if(!is_used(&block->nodes[i])) {
        return &block->nodes[i];
      }
    }
  }
  block = heapmem_alloc(sizeof *block);
  if(block == NULL) {
    return NULL;
  }
  memset(block, 0, sizeof *block);
  list_add(blocks, block);
  return block->nodes;
}

/* The node of a mote, a new one if there is none yet; NULL if the table is full. */
static uip_sr_node_t *
node_of(const uint8_t *iid)
{
  uip_sr_node_t *node = find_node(iid);
  if(node == NULL) {
    node = new_node();
    if(node == NULL) {
      LOG_WARN("the table of motes is full: %u, and the heap has no room, or UIP_SR_CONF_LINK_NUM allows no more\n", count);
      return NULL;
    }
    memcpy(node->link_identifier, iid, IID_SIZE);
    node->parent = NULL;
    node->lifetime = UIP_SR_INFINITE_LIFETIME;
    count++;
  }
  return node;
}

/* False also where one of the addresses isn't in the root's network, or both are the same. */
bool
update_node(const uip_ipaddr_t *child, const uip_ipaddr_t *parent, uint32_t lifetime)
{
  uip_sr_node_t *above, *node, *old;
  bool are_here = memcmp(child, &rpl.dio.prefix, IID_AT) == 0 && memcmp(parent, &rpl.dio.prefix, IID_AT) == 0;
  expire_nodes();
  if(!are_here || uip_ipaddr_cmp(child, parent)) {
    return false;
  }
  above = node_of(parent->u8 + IID_AT);
  node = above == NULL ? NULL : node_of(child->u8 + IID_AT);
  if(node == NULL || node == &root) {
    release(above);
    return false;
  }
  old = node->parent;
  node->parent = above;
  if(old != above) {
    release(old);
  }
  node->lifetime = lifetime == UIP_SR_INFINITE_LIFETIME ? lifetime : (uint32_t)seconds() + lifetime;
  return true;
}

void
expire_node(const uip_ipaddr_t *child)
{
  uip_sr_node_t *node = node_at(child);
  if(node != NULL && node != &root) {
    free_node(node);
  }
}

void
set_root_node(const uip_ipaddr_t *address)
{
  memcpy(root.link_identifier, address->u8 + IID_AT, IID_SIZE);
  root.lifetime = UIP_SR_INFINITE_LIFETIME;
}

void
free_nodes(void)
{
  root.lifetime = 0;
  count = 0;
  while(list_head(blocks) != NULL) {
    heapmem_free(list_pop(blocks));
  }
}

/* From the mote up to the root; then the order is reversed. A loop is longer than any path. */
unsigned
path_to(const uip_ipaddr_t *addr, const uint8_t **path)
{
  const uip_sr_node_t *node;
  unsigned length = 0;
  expire_nodes();
  for(node = node_at(addr); node != NULL && node != &root; node = node->parent) {
    if(length == MOST_HOPS) {
      return 0;
    }
    path[length++] = node->link_identifier;
  }
  for(unsigned i = 0; i < length / 2; i++) {
    const uint8_t *kept = path[i];
    path[i] = path[length - 1 - i];
    path[length - 1 - i] = kept;
  }
  return node == NULL ? 0 : length;
}

int
uip_sr_is_addr_reachable(const void *graph, const uip_ipaddr_t *addr)
{
  const uint8_t *path[MOST_HOPS];
  (void)graph;
  return path_to(addr, path) > 0;
}
