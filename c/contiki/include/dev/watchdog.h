/* The watchdog: a process that makes no call for ten seconds is reported on standard error, whatever is called here. */
#ifndef WATCHDOG_H_
#define WATCHDOG_H_

#include "sys/cc.h"

static inline void
watchdog_init(void)
{
}

static inline void
watchdog_start(void)
{
}

static inline void
watchdog_periodic(void)
{
}

static inline void
watchdog_stop(void)
{
}

CC_REFUSED("the mote can't be booted again within a run") void watchdog_reboot(void);

#endif
