/* Events. */
#ifndef EVENTS_H
#define EVENTS_H

#include "objects.h"

/*
 * The answer to the datum that was read last, which does not begin with STEP: "yes", or "no" and
 * the reason. After a yes the theory goes on, and else it stays.
 */
const char *answer_to(Object event);

#endif
