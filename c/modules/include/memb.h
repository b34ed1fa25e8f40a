#include "lib/memb.h"
