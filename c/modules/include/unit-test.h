#include "services/unit-test/unit-test.h"
