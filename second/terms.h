/* Which objects are terms and formulas, and the variables of terms. */
#ifndef TERMS_H
#define TERMS_H

#include "map.h"
#include "objects.h"

/*
 * How an object is looked at: as a term, as a list of terms (the actuals of a call, or what is left
 * of them), or as a formula. The same object may be looked at in more than one way. These are marks
 * of cells too: known to be so. CLOSED marks what is known to be a lambda call's head, but for
 * whether its body is a term.
 */
enum { FORMULA = 1, TERM = 2, TERMS = 4, CLOSED = 8 };

/* An object and how it is looked at, as one number. */
static inline uint64_t key_of(Object object, int view)
{
    return (uint64_t)object << 3 | (uint64_t)view;
}
static inline Object object_of(uint64_t key) { return (Object)(key >> 3); }
static inline int view_of(uint64_t key) { return (int)(key & 7); }

static inline bool is_variable(Object x) { return is_symbol(x) && x != NIL && x != T; }

/*
 * Appends the free variables of a term in the order in which they first occur, but for those that
 * were seen. Of a lambda call they are those of its actuals. What is seen are keys of terms and
 * lists of terms.
 */
void collect_variables(Object term, Map *seen, Vector *found);

/* Is it a list of distinct variables, with none but these in the term? */
bool is_closed(Object formals, Object term);

/* Is it a term, or a formula, under the arities that hold? */
bool is_term(Object x);
bool is_formula(Object x);

/*
 * The same of a term, where the arities that hold may be taken back: then nothing is noted of it.
 */
bool is_term_for_now(Object x);

#endif
