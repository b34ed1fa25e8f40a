/*
 * Contiki-NG's names for applications in C on the proved mote. docs/contiki.md says what each maps to, and its limits.
 */
#ifndef CONTIKI_H
#define CONTIKI_H

/* What runs the program: the command contiki sets name and version. */
#ifndef CONTIKI_VERSION_STRING
#define CONTIKI_VERSION_STRING "Toarmuts"
#endif

#include "contiki-conf.h"

#include "sys/cc.h"
#include "sys/process.h"
#include "sys/autostart.h"
#include "sys/clock.h"
#include "sys/timer.h"
#include "sys/stimer.h"
#include "sys/etimer.h"
#include "sys/ctimer.h"
#include "sys/rtimer.h"
#include "sys/pt.h"

/* Sources that use these include them; here they are included too, as on most platforms. */
#include "lib/list.h"
#include "lib/memb.h"
#include "lib/heapmem.h"
#include "lib/mmem.h"
#include "lib/random.h"
#include "dev/serial-line.h"

#endif
