/* As the tests of ringbuf and ringbufindex. */
#include "contiki.h"
#include "lib/ringbuf.h"
#include "lib/ringbufindex.h"
#include "services/unit-test/unit-test.h"

#include <stdio.h>
#include <string.h>

#define RING_SIZE 8

static struct ringbuf ring;
static uint8_t ring_data[RING_SIZE];
static struct ringbufindex index_ring;

PROCESS(test_process, "Unit tests");
AUTOSTART_PROCESSES(&test_process);

UNIT_TEST_REGISTER(test_ringbuf, "Ring buffer");

UNIT_TEST(test_ringbuf)
{
  int i;

  UNIT_TEST_BEGIN();

  ringbuf_init(&ring, ring_data, RING_SIZE);
  UNIT_TEST_ASSERT(ringbuf_size(&ring) == RING_SIZE);
  UNIT_TEST_ASSERT(ringbuf_elements(&ring) == 0);
  UNIT_TEST_ASSERT(ringbuf_get(&ring) == -1);
  for(i = 0; i < RING_SIZE - 1; i++) {
    UNIT_TEST_ASSERT(ringbuf_put(&ring, (uint8_t)(i + 0x20)) == 1);
  }
  UNIT_TEST_ASSERT(ringbuf_put(&ring, 0xff) == 0);
  UNIT_TEST_ASSERT(ringbuf_elements(&ring) == RING_SIZE - 1);
  for(i = 0; i < RING_SIZE - 1; i++) {
    UNIT_TEST_ASSERT(ringbuf_get(&ring) == i + 0x20);
  }
  UNIT_TEST_ASSERT(ringbuf_elements(&ring) == 0);

  UNIT_TEST_END();
}

UNIT_TEST_REGISTER(test_ringbufindex_init, "Init");

UNIT_TEST(test_ringbufindex_init)
{
  UNIT_TEST_BEGIN();

  memset(&index_ring, 0xaa, sizeof(index_ring));
  ringbufindex_init(&index_ring, RING_SIZE);
  UNIT_TEST_ASSERT(index_ring.mask == RING_SIZE - 1);
  UNIT_TEST_ASSERT(index_ring.put_ptr == 0);
  UNIT_TEST_ASSERT(index_ring.get_ptr == 0);
  UNIT_TEST_ASSERT(ringbufindex_size(&index_ring) == RING_SIZE);
  UNIT_TEST_ASSERT(ringbufindex_elements(&index_ring) == 0);
  UNIT_TEST_ASSERT(ringbufindex_empty(&index_ring));
  UNIT_TEST_ASSERT(!ringbufindex_full(&index_ring));
  UNIT_TEST_ASSERT(ringbufindex_get(&index_ring) == -1);
  UNIT_TEST_ASSERT(ringbufindex_peek_get(&index_ring) == -1);

  UNIT_TEST_END();
}

UNIT_TEST_REGISTER(test_ringbufindex_wrap, "Put, get and overflow");

UNIT_TEST(test_ringbufindex_wrap)
{
  int i;

  UNIT_TEST_BEGIN();

  for(i = 0; i < RING_SIZE - 1; i++) {
    UNIT_TEST_ASSERT(ringbufindex_peek_put(&index_ring) == i);
    UNIT_TEST_ASSERT(ringbufindex_put(&index_ring) == 1);
    UNIT_TEST_ASSERT(ringbufindex_elements(&index_ring) == i + 1);
  }
  UNIT_TEST_ASSERT(ringbufindex_full(&index_ring));
  UNIT_TEST_ASSERT(ringbufindex_peek_put(&index_ring) == -1);
  UNIT_TEST_ASSERT(ringbufindex_put(&index_ring) == 0);
  UNIT_TEST_ASSERT(ringbufindex_peek_get(&index_ring) == 0);
  UNIT_TEST_ASSERT(ringbufindex_get(&index_ring) == 0);
  UNIT_TEST_ASSERT(ringbufindex_get(&index_ring) == 1);
  UNIT_TEST_ASSERT(ringbufindex_peek_put(&index_ring) == RING_SIZE - 1);
  UNIT_TEST_ASSERT(ringbufindex_put(&index_ring) == 1);
  UNIT_TEST_ASSERT(ringbufindex_peek_put(&index_ring) == 0);
  UNIT_TEST_ASSERT(ringbufindex_elements(&index_ring) == RING_SIZE - 2);

  UNIT_TEST_END();
}

PROCESS_THREAD(test_process, ev, data)
{
  PROCESS_BEGIN();

  printf("Run unit-test\n");
  printf("---\n");

  UNIT_TEST_RUN(test_ringbuf);
  UNIT_TEST_RUN(test_ringbufindex_init);
  UNIT_TEST_RUN(test_ringbufindex_wrap);

  printf("=check-me= DONE\n");

  PROCESS_END();
}
