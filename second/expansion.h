/* Abbreviations, written out. */
#ifndef EXPANSION_H
#define EXPANSION_H

#include "objects.h"

/*
 * The term with all abbreviations written out, and numbers, T and NIL quoted. What is not well made
 * stays in part as it was, and is then no term, since no abbreviation can be a function.
 */
Object expanded(Object term);

#endif
