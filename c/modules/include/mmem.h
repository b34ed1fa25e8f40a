#include "lib/mmem.h"
