#include "lib/dbl-list.h"
