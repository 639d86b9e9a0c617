/* The primitive functions. */
#ifndef PRIMITIVES_H
#define PRIMITIVES_H

#include "objects.h"

/* From now on their arities hold; and then that of `*`, which the second profile adds. */
void begin_primitives(void);
void begin_product(void);

/*
 * The value of a primitive for up to three objects, or NO_OBJECT where the name is not that of one.
 * A natural of 2^128 or more is `too_large`.
 */
Object primitive_value(Object name, Object x, Object y, Object z);

#endif
