#include "lib/ringbuf.h"
