/* As the sensors demo on a mote without sensors. */
#include "contiki.h"
#include "lib/sensors.h"

PROCESS(demo, "Sensors demo");
AUTOSTART_PROCESSES(&demo);

PROCESS_THREAD(demo, ev, data)
{
  const struct sensors_sensor *s;

  PROCESS_BEGIN();

  for(s = sensors_first(); s != NULL; s = sensors_next(s)) {
    printf("%s: %d\n", s->type, s->value(0));
  }
  printf("%d\n", sensors_find("button") == NULL);

  PROCESS_END();
}
