#include "walk.h"

bool need(Walk *walk, Object x, int view, Object *result)
{
    if (find(&walk->results, key_of(x, view), result))
        return true;
    push(&walk->tasks, key_of(x, view));
    return false;
}

Object value_by(Rule *rule, Walk *walk, Object x, int view)
{
    Object result = NIL;
    need(walk, x, view, &result);
    while (walk->tasks.count > 0) {
        uint64_t task = walk->tasks.items[walk->tasks.count - 1];
        take_looks(1);
        bool is_known = find(&walk->results, task, &result);
        if (!is_known && !rule(walk, object_of(task), view_of(task), &result))
            continue;
        if (!is_known)
            put(&walk->results, task, result);
        walk->tasks.count--;
    }
    find(&walk->results, key_of(x, view), &result);
    return result;
}

bool list_rule(Walk *walk, Object x, Object *result)
{
    Object first = NIL, rest = NIL;
    if (!is_pair(x)) {
        *result = x;
        return true;
    }
    bool is_ready = need(walk, cdr(x), TERMS, &rest);
    if (!need(walk, car(x), TERM, &first) || !is_ready)
        return false;
    *result = cons(first, rest);
    return true;
}

/* The terms for the variables are results from the beginning. */
static bool substitution_rule(Walk *walk, Object x, int view, Object *result)
{
    Object actuals = NIL;
    if (view == TERMS)
        return list_rule(walk, x, result);
    if (!is_pair(x) || car(x) == QUOTE) {
        *result = x;
        return true;
    }
    if (!need(walk, cdr(x), TERMS, &actuals))
        return false;
    *result = cons(car(x), actuals);
    return true;
}

static Walk substitution;

/* Gives a term for a variable that has none. */
static void give(Object variable, Object term)
{
    take_looks(1);
    put(&substitution.results, key_of(variable, TERM), term);
}

Object substitute(Object x, Object pairs)
{
    empty(&substitution.results);
    for (; is_pair(pairs); pairs = cdr(pairs))
        give(car(car(pairs)), cdr(car(pairs)));
    return value_by(substitution_rule, &substitution, x, TERM);
}

Object substitute_actuals(Object x, Object formals, Object actuals)
{
    empty(&substitution.results);
    for (; is_pair(formals); formals = cdr(formals), actuals = cdr(actuals))
        give(car(formals), car(actuals));
    return value_by(substitution_rule, &substitution, x, TERM);
}
