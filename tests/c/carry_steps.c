/* examples/carry.c, which ends itself at one of its steps. */
#include "steps.h"

#include "../../examples/carry.c"
