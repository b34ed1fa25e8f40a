#include "lib/ringbufindex.h"
