/* Memory barriers: reads and writes before one are done before those after it. */
#ifndef MEMORY_BARRIER_H_
#define MEMORY_BARRIER_H_

static inline void
memory_barrier(void)
{
  __sync_synchronize();
}

#endif
