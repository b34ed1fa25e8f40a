/* The processes of lists.c, whose lists are in the file that LISTS names with a dot and the mote's number after it. */
#include "contiki.h"
#include "sys/node-id.h"

#include <stdlib.h>

static const char *
file_of_mote(void)
{
  static char name[FILENAME_MAX];
  const char *all = getenv("LISTS");
  snprintf(name, sizeof name, "%s.%u", all == NULL ? "" : all, node_id);
  return name;
}

#define getenv(name) file_of_mote()
#include "../lists.c"
