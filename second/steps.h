/* The steps that were collected for the next event. */
#ifndef STEPS_H
#define STEPS_H

#include "objects.h"

/* Puts a datum that begins with STEP with them. */
void collect_step(Object step);

uint64_t count_steps(void);
void forget_steps(void);

/* Is each of them good? */
bool are_steps_good(void);

/* Is it the number of a collected step that concludes this formula? */
bool names_step(Object number, Object formula);

#endif
