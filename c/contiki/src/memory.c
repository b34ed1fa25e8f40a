/*
 * Memory: memb.h and mmem.h; heapmem.h is in heap.c.
 *
 * The mote decides which block is allocated, whether there is room, and what is refused. The bytes are in the program's memory: an
 * array for a pool, and blocks of malloc for the other two, which a sanitizer watches. They may replace the mote's bytes since only the
 * owner's calls change those, which is a law of the mote. Before the mote reads bytes, as to send a frame, they are written to it.
 */
#include "driver.h"
#include "sanitizer.h"

#include <stdlib.h>

/* Allocates bytes for the program or the driver, all 0. */
void *
take_bytes(size_t size)
{
  void *bytes = calloc(1, size);
  if(bytes == NULL) {
    give_up(STATUS_NO_MEMORY, "out of memory");
  }
  return bytes;
}

/* A block that is freed while its owner awaits a reply stays in the mote until the owner has the reply. Meanwhile no figures that
 * depend on it are returned. */
bool
check_late(bool depends)
{
  if(depends && has_late_blocks()) {
    stop("a block was freed during an activation of its owner, and stays allocated until that continues: the mote has no figures now");
  }
  return depends;
}

/* memb.h */

enum { POOLS = 4, POOL_BLOCKS = 16 };

/* The bytes of a block in a pool of the mote. */
static const unsigned short usable[POOLS] = {12, 28, 60, 124};

static void *
memb_place(const struct memb *m, unsigned i)
{
  return (char *)m->mem + (size_t)i * m->size;
}

/* The block that begins there, or the number of blocks. */
static unsigned
memb_block(const struct memb *m, const void *ptr)
{
  unsigned i = 0;
  while(i < m->num && memb_place(m, i) != ptr) {
    i++;
  }
  return i;
}

/* For each block of the mote 0, or the one that has the bytes before its own: of a longer block all but the last have 124 bytes. */
static unsigned char before[1 + POOLS * POOL_BLOCKS];

/* `memb-free` of a block of the mote, and of those before it. */
static void
give_mote_blocks_back(unsigned char last)
{
  while(last != 0) {
    unsigned block = last - 1u;
    MOTE_ASK(TOARMUTS_CALL_MEMB_FREE, block / POOL_BLOCKS, block % POOL_BLOCKS);
    last = before[last];
  }
}

static void
give_block_back(struct memb *m, unsigned i)
{
  give_mote_blocks_back(m->used[i]);
  m->used[i] = 0;
  ASAN_POISON_MEMORY_REGION(memb_place(m, i), m->size);
}

/* `memb-alloc`, in the first pool with an unused block that is long enough: the numbers of the pool and the block, as in memb.h; 0 if there
 * is none. */
static unsigned char
take_mote_block(unsigned size)
{
  for(unsigned pool = 0; pool < POOLS; pool++) {
    if(usable[pool] >= size) {
      const struct toarmuts_turn *answer = MOTE_ASK(TOARMUTS_CALL_MEMB_ALLOC, pool);
      if(refusal_of(answer) == 0) {
        return (unsigned char)(1 + pool * POOL_BLOCKS + answer->number);
      }
    }
  }
  return 0;
}

/* Blocks of the mote for one of a pool: as many of 124 bytes as it fills, and one for the rest. */
static unsigned char
take_block(const struct memb *m)
{
  unsigned char last = 0;
  for(unsigned left = m->size; left > 0; left -= MIN(left, usable[POOLS - 1])) {
    unsigned char next = take_mote_block(MIN(left, usable[POOLS - 1]));
    if(next == 0) {
      stop("no block of %u bytes is left: all MEMBs share four pools of 16 blocks, of 12, 28, 60 and 124 bytes, and longer blocks take "
           "several; "
           "free one before this memb_alloc, or use arrays or heapmem.h",
           m->size);
    }
    before[next] = last;
    last = next;
  }
  return last;
}

/* `memb-free` for each block that is used. */
void
memb_init(struct memb *m)
{
  for(unsigned i = 0; i < m->num; i++) {
    if(m->used[i] != 0) {
      give_block_back(m, i);
    }
  }
  ASAN_POISON_MEMORY_REGION(m->mem, (size_t)m->num * m->size);
}

void *
memb_alloc(struct memb *m)
{
  unsigned i = 0;
  while(i < m->num && m->used[i] != 0) {
    i++;
  }
  if(i == m->num) {
    return NULL;
  }
  m->used[i] = take_block(m);
  ASAN_UNPOISON_MEMORY_REGION(memb_place(m, i), m->size);
  return memset(memb_place(m, i), 0, m->size);
}

int
memb_free(struct memb *m, void *ptr)
{
  unsigned i = memb_block(m, ptr);
  if(i == m->num) {
    return -1;
  }
  if(m->used[i] != 0) {
    give_block_back(m, i);
  }
  return 0;
}

int
memb_inmemb(struct memb *m, void *ptr)
{
  uintptr_t start = (uintptr_t)m->mem;
  return (uintptr_t)ptr >= start && (uintptr_t)ptr - start < (uintptr_t)m->size * m->num;
}

/* Contiki-NG counts only the blocks of this pool, and the mote those of all pools: so it isn't asked. */
size_t
memb_numfree(struct memb *m)
{
  size_t unused = 0;
  for(unsigned i = 0; i < m->num; i++) {
    unused += m->used[i] == 0;
  }
  return unused;
}

/* mmem.h */

enum { HANDLES = 16 };

/* Those of each process, once any has allocated a block. */
static struct mmem *(*handles)[HANDLES];

/* All blocks, in the order in which they were allocated. */
static struct mmem *managed_blocks;

/* Whether a struct mmem on the stack ever had a block: few programs have that. */
static bool has_any_on_stack;

/* The lowest handle of the active process that has no block. */
unsigned
free_handle(void)
{
  unsigned handle = 0;
  if(activation == NULL) {
    stop("managed memory is allocated outside of any process");
  }
  if(handles == NULL) {
    handles = take_bytes(process_count * sizeof *handles);
  }
  while(handle < HANDLES && handles[index_of(activation->process)][handle] != NULL) {
    handle++;
  }
  if(handle == HANDLES) {
    stop("more than 16 blocks of managed memory in one process: free one before this mmem_alloc, have another process allocate some, or "
         "use one block for several items");
  }
  return handle;
}

/* A struct mmem with a block must not be on the stack of a thread: it would be lost at the wait. */
void
check_blocks(const struct process *p, const void *frame)
{
  for(unsigned handle = 0; has_any_on_stack && handle < HANDLES; handle++) {
    const struct mmem *own = handles[index_of(p)][handle];
    if(own != NULL && is_lost(own, frame)) {
      stop("a struct mmem on the stack has a block, which is lost at this wait: make the struct static");
    }
  }
}

/* `mmem-alloc` */
int
mmem_alloc(struct mmem *m, unsigned int size)
{
  unsigned handle = free_handle();
  struct mmem **last = &managed_blocks;
  for(const struct mmem *other = managed_blocks; other != NULL; other = other->next) {
    if(other == m) {
      stop("mmem_alloc for a struct mmem that has a block: free that one first");
    }
  }
  if(size == 0 || check_late(refusal_of(MOTE_ASK(TOARMUTS_CALL_MMEM_ALLOC, handle, size)) != 0)) {
    return 0;
  }
  handles[index_of(activation->process)][handle] = m;
  has_any_on_stack |= is_on_stack(m);
  m->size = size;
  m->ptr = take_bytes(size);
  m->next = NULL;
  while(*last != NULL) {
    last = &(*last)->next;
  }
  *last = m;
  return 1;
}

/* The blocks after a freed one move, as in the original: pointers to their bytes are invalid, and a sanitizer finds their use. */
static void
slide(struct mmem *m)
{
  for(; m != NULL; m = m->next) {
    void *bytes = take_bytes(m->size);
    memcpy(bytes, m->ptr, m->size);
    free(m->ptr);
    m->ptr = bytes;
  }
}

/* `mmem-free` */
void
mmem_free(struct mmem *m)
{
  struct mmem **place = &managed_blocks;
  unsigned i = 0;
  while(*place != NULL && *place != m) {
    place = &(*place)->next;
  }
  while(*place != NULL && i < process_count * HANDLES && handles[i / HANDLES][i % HANDLES] != m) {
    i++;
  }
  if(*place == NULL || i == process_count * HANDLES) {
    stop("mmem_free of a struct mmem that has no block");
  }
  ORDER(processes[i / HANDLES], TOARMUTS_CALL_MMEM_FREE, i % HANDLES);
  handles[i / HANDLES][i % HANDLES] = NULL;
  *place = m->next;
  free(m->ptr);
  m->ptr = NULL;
  slide(m->next);
  m->next = NULL;
}

void
mmem_init(void)
{
}
