/* Sensors: the mote has none. A program may have some of its own, in plain C, and lists them by SENSORS. */
#ifndef SENSORS_H_
#define SENSORS_H_

#include "sys/process.h"

/* What a sensor is asked to do, and asked for. */
#define SENSORS_HW_INIT 128
#define SENSORS_ACTIVE 129
#define SENSORS_READY 130

struct sensors_sensor {
  char *type;
  int (*value)(int type);
  int (*configure)(int type, int value);
  int (*status)(int type);
};

#define SENSORS_SENSOR(name, type, value, configure, status) const struct sensors_sensor name = {(type), (value), (configure), (status)}
#define SENSORS_ACTIVATE(sensor) (sensor).configure(SENSORS_ACTIVE, 1)
#define SENSORS_DEACTIVATE(sensor) (sensor).configure(SENSORS_ACTIVE, 0)
#define SENSORS(...) const struct sensors_sensor *const sensors[] = {__VA_ARGS__, NULL}

/* The program's list, which ends with NULL; without one there are no sensors. */
extern const struct sensors_sensor *const sensors[];

/* All processes receive this event, with the sensor as data, after sensors_changed. PROCESS_EVENT_NONE before the first one. */
extern process_event_t sensors_event;
void sensors_changed(const struct sensors_sensor *s);

/* The sensor of a type, the first one, and the one after another; NULL if there is none. */
const struct sensors_sensor *sensors_find(const char *type);
const struct sensors_sensor *sensors_first(void);
const struct sensors_sensor *sensors_next(const struct sensors_sensor *s);

#endif
