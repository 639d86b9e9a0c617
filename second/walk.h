/*
 * Walks, which compute an object for each part of an object, each distinct part once, with a stack
 * of their own; and substitution, the first of them.
 */
#ifndef WALK_H
#define WALK_H

#include "map.h"
#include "objects.h"
#include "terms.h"

typedef struct {
    Map results;  /* by key */
    Vector tasks; /* keys whose results are needed, the innermost last */
} Walk;

/*
 * What a walk computes of an object, from what it computes of its parts. A rule asks for these with
 * `need`, answers false where one is not there yet, and is tried again when all are.
 */
typedef bool Rule(Walk *walk, Object x, int view, Object *result);

/* Is the result for this part there? If it is not, it will be. */
bool need(Walk *walk, Object x, int view, Object *result);

/*
 * What the rule computes of an object. Results of earlier calls are used again until they are
 * emptied.
 */
Object value_by(Rule *rule, Walk *walk, Object x, int view);

/* The rule for a list of terms: the list of what is computed of each. */
bool list_rule(Walk *walk, Object x, Object *result);

/*
 * A substitution goes into the actuals of a lambda call, and leaves its formals and body. A formula
 * is treated as the call that it looks like, with the same result. Of a list of pairs the first
 * that gives a term for a variable counts.
 */
Object substitute(Object x, Object pairs);
Object substitute_actuals(Object x, Object formals, Object actuals);

#endif
