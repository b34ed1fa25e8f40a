/* As the sensors demo: all sensors of the mote, of which there are none, in `none`; and a program's own ones. */
#include "contiki.h"
#include "lib/sensors.h"

PROCESS(demo, "Sensors demo");
AUTOSTART_PROCESSES(&demo);

static int level, is_active;

static int
level_value(int type)
{
  return type == 0 ? level : -1;
}

static int
level_configure(int type, int value)
{
  is_active = type == SENSORS_ACTIVE ? value : is_active;
  return 1;
}

static int
level_status(int type)
{
  return type == SENSORS_ACTIVE ? is_active : 0;
}

SENSORS_SENSOR(level_sensor, "level", level_value, level_configure, level_status);
SENSORS_SENSOR(other_sensor, "other", level_value, level_configure, level_status);
SENSORS(&level_sensor, &other_sensor);

PROCESS_THREAD(demo, ev, data)
{
  const struct sensors_sensor *s;

  PROCESS_BEGIN();

  for(s = sensors_first(); s != NULL; s = sensors_next(s)) {
    printf("%s\n", s->type);
  }
  printf("%d %d\n", sensors_find("other") == &other_sensor, sensors_find("none") == NULL);
  SENSORS_ACTIVATE(level_sensor);
  printf("%d", level_sensor.status(SENSORS_ACTIVE));
  SENSORS_DEACTIVATE(level_sensor);
  printf(" %d\n", level_sensor.status(SENSORS_ACTIVE));
  while(1) {
    PROCESS_WAIT_EVENT();
    if(ev == serial_line_event_message) {
      level++;
      sensors_changed(&level_sensor);
    } else if(ev == sensors_event && data == &level_sensor) {
      printf("level %d, %d\n", level_sensor.value(0), sensors_event > PROCESS_EVENT_MAX);
    }
  }

  PROCESS_END();
}
