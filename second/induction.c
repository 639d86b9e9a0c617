/*
 * INDUCTION: the extras are `(m (q1 .. qk) (S1 .. Sk))`, where m is the measure, the q's are the
 * conditions, and each S is the list of the substitutions under which the conclusion may be
 * supposed where its q holds.
 */
#include "rules.h"

#include "walk.h"

static Object measure, conditions, cases;

/* The premises that have not been compared yet. */
static const Vector *given;
static size_t next_premise;

static bool is_next_premise(Object formula)
{
    return (Object)given->items[next_premise++] == formula;
}

/* How many premises are needed, or 0 where the extras are not as they have to be. */
static size_t count_needed(Object extras)
{
    if (count_members(extras) != 3 || !is_list(conditions) ||
        count_members(conditions) != count_members(cases))
        return 0;
    size_t needed = 2 + (size_t)count_members(conditions);
    for (Object rest = cases; is_pair(rest); rest = cdr(rest)) {
        if (!is_list(car(rest)))
            return 0;
        needed += count_members(car(rest));
        for (Object substitutions = car(rest); is_pair(substitutions);
             substitutions = cdr(substitutions))
            if (!is_substitution(car(substitutions)))
                return 0;
    }
    return needed;
}

/* The disjunction, nested to the right, of the objects in a vector. */
static Object disjunction_of(const Vector *vector)
{
    Object result = (Object)vector->items[vector->count - 1];
    for (size_t i = vector->count - 1; i > 0; i--)
        result = disjunction((Object)vector->items[i - 1], result);
    return result;
}

/* `F or q1 or .. or qk` */
static Object base_premise(Object conclusion)
{
    static Vector parts;
    parts.count = 0;
    push(&parts, conclusion);
    for (Object rest = conditions; is_pair(rest); rest = cdr(rest))
        push(&parts, car(rest));
    return disjunction_of(&parts);
}

/* `F or not q or not F/s or ..` */
static Object step_premise(Object conclusion, Object condition, Object substitutions)
{
    static Vector parts;
    parts.count = 0;
    push(&parts, conclusion);
    push(&parts, denial(condition));
    for (; is_pair(substitutions); substitutions = cdr(substitutions))
        push(&parts, denial(substitute(conclusion, car(substitutions))));
    return disjunction_of(&parts);
}

/* `not q or (ord< m/s m) = 't` */
static Object fall_premise(Object condition, Object pairs)
{
    Object is_smaller = list_of_three(ORD_LESS, substitute(measure, pairs), measure);
    return disjunction(denial(condition), equation(is_smaller, quoted(T)));
}

static bool are_steps_next(Object conclusion)
{
    Object substitutions = cases;
    for (Object rest = conditions; is_pair(rest);
         rest = cdr(rest), substitutions = cdr(substitutions))
        if (!is_next_premise(step_premise(conclusion, car(rest), car(substitutions))))
            return false;
    return true;
}

static bool are_falls_next(Object condition, Object substitutions)
{
    for (; is_pair(substitutions); substitutions = cdr(substitutions))
        if (!is_next_premise(fall_premise(condition, car(substitutions))))
            return false;
    return true;
}

bool follows_by_induction(Object conclusion, const Vector *premises, Object extras)
{
    measure = member(extras, 0);
    conditions = member(extras, 1);
    cases = member(extras, 2);
    given = premises;
    next_premise = 0;
    if (count_needed(extras) != premises->count)
        return false;
    if (premises->count == 0 || !is_next_premise(base_premise(conclusion)) ||
        !are_steps_next(conclusion) ||
        !is_next_premise(equation(list_of_two(ORDP, measure), quoted(T))))
        return false;
    Object substitutions = cases;
    for (Object rest = conditions; is_pair(rest);
         rest = cdr(rest), substitutions = cdr(substitutions))
        if (!are_falls_next(car(rest), car(substitutions)))
            return false;
    return true;
}
