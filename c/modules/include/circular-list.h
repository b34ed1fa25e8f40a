#include "lib/circular-list.h"
