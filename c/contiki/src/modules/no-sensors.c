/* The list of sensors of a program that has none. */
#include "lib/sensors.h"

const struct sensors_sensor *const sensors[] = {NULL};
