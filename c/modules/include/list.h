#include "lib/list.h"
