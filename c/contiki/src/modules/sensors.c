/* sensors.h */
#include "lib/sensors.h"

#include <string.h>

process_event_t sensors_event = PROCESS_EVENT_NONE;

const struct sensors_sensor *
sensors_first(void)
{
  return sensors[0];
}

const struct sensors_sensor *
sensors_next(const struct sensors_sensor *s)
{
  unsigned i = 0;
  while(sensors[i] != NULL && sensors[i] != s) {
    i++;
  }
  return sensors[i] == NULL ? NULL : sensors[i + 1];
}

const struct sensors_sensor *
sensors_find(const char *type)
{
  const struct sensors_sensor *sensor = sensors_first();
  while(sensor != NULL && strcmp(sensor->type, type) != 0) {
    sensor = sensors_next(sensor);
  }
  return sensor;
}

void
sensors_changed(const struct sensors_sensor *s)
{
  if(sensors_event == PROCESS_EVENT_NONE) {
    sensors_event = process_alloc_event();
  }
  process_post(PROCESS_BROADCAST, sensors_event, (process_data_t)(uintptr_t)s);
}
