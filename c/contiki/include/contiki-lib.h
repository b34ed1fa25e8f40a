/* Contiki-NG's collective header for its library. */
#ifndef CONTIKI_LIB_H
#define CONTIKI_LIB_H

#include "lib/heapmem.h"
#include "lib/list.h"
#include "lib/memb.h"
#include "lib/mmem.h"
#include "lib/random.h"

#endif
