/* Pools of long blocks: each takes several blocks of the mote, and gives them back. */
#include "contiki.h"

PROCESS(only, "Only");
AUTOSTART_PROCESSES(&only);

struct frame {
  unsigned char bytes[127];
};

struct page {
  unsigned char bytes[1024];
};

MEMB(frames, struct frame, 16);
MEMB(pages, struct page, 2);

static struct frame *held[16];

static bool
is_filled(const unsigned char *bytes, size_t size, unsigned char with)
{
  size_t i = 0;
  while(i < size && bytes[i] == with) {
    i++;
  }
  return i == size;
}

/* All 16 blocks of 124 bytes are used, and 16 of 12. */
static void
use_frames(void)
{
  unsigned right = 0;
  for(unsigned i = 0; i < 16; i++) {
    held[i] = memb_alloc(&frames);
    right += is_filled(held[i]->bytes, sizeof held[i]->bytes, 0);
    memset(held[i]->bytes, (int)i + 1, sizeof held[i]->bytes);
  }
  for(unsigned i = 0; i < 16; i++) {
    right += is_filled(held[i]->bytes, sizeof held[i]->bytes, (unsigned char)(i + 1));
  }
  printf("%u %d %u %u\n", right, memb_alloc(&frames) == NULL, (unsigned)memb_numfree(&frames), (unsigned)memb_numfree(&pages));
}

PROCESS_THREAD(only, ev, data)
{
  struct page *page;

  PROCESS_BEGIN();

  memb_init(&frames);
  memb_init(&pages);
  use_frames();
  for(unsigned i = 0; i < 16; i += 2) {
    memb_free(&frames, held[i]);
  }
  /* Eight of 124 bytes and one of 60. */
  page = memb_alloc(&pages);
  memset(page->bytes, 9, sizeof page->bytes);
  printf("%u %d\n", (unsigned)memb_numfree(&frames), is_filled(held[1]->bytes, sizeof held[1]->bytes, 2));
  memb_free(&pages, page);
  memb_init(&frames);
  use_frames();
  memb_init(&frames);
  printf("%d\n", memb_alloc(&pages) != NULL && memb_alloc(&pages) != NULL);

  PROCESS_END();
}
