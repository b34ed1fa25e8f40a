#include "lib/dbl-circ-list.h"
