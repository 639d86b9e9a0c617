/* The rows of the table of methods. */
#ifndef RULES_H
#define RULES_H

#include "objects.h"

/*
 * Does the row of the method hold for the conclusion, the premises, which are the conclusions of
 * the steps that are named, and the extras? The conclusion and the premises have to be formulas.
 */
bool follows(Object method, Object conclusion, const Vector *premises, Object extras);

/* The row of INDUCTION, which has a file of its own. */
bool follows_by_induction(Object conclusion, const Vector *premises, Object extras);

/* Is it a substitution: a list of pairs of a variable and a term? */
bool is_substitution(Object x);

#endif
