/* Data: what the tokens of a text make. A fault ends the program. */
#ifndef DATA_H
#define DATA_H

#include "objects.h"

/* Reads the next datum from the source; answers whether there is one. */
bool read_datum(Object *datum);

/* Does the datum that was read last hold a natural of 2^128 or more? */
bool is_out_of_range(void);

#endif
