#include "lib/queue.h"
