#include "contiki.h"

void tell(void);

void
tell(void)
{
  printf("%d %s\n", NUMBER, WORD);
}
