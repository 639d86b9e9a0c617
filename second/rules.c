#include "rules.h"

#include "primitives.h"
#include "terms.h"
#include "theory.h"
#include "walk.h"

static bool is_disjunction(Object x) { return car(x) == POR; }

/* `not A or A` */
static bool is_schema(Object conclusion)
{
    return is_disjunction(conclusion) && member(conclusion, 1) == denial(member(conclusion, 2));
}

/* `not a1 = b1 or .. or not an = bn or (f a1 .. an) = (f b1 .. bn)` */
static bool is_functional_equality(Object conclusion)
{
    Object last = conclusion;
    for (; is_disjunction(last); last = member(last, 2))
        take_looks(1);
    Object left = member(last, 1), right = member(last, 2);
    if (car(last) != PEQUAL || !is_pair(left) || !is_symbol(car(left)) || car(left) == QUOTE ||
        car(left) != car(right))
        return false;
    for (left = cdr(left), right = cdr(right); is_pair(left);
         left = cdr(left), right = cdr(right)) {
        if (conclusion == last || member(conclusion, 1) != denial(equation(car(left), car(right))))
            return false;
        conclusion = member(conclusion, 2);
    }
    return conclusion == last;
}

/* A lambda call equals its body with the actuals put for the formals. */
static bool is_beta_reduction(Object conclusion)
{
    Object call = member(conclusion, 1);
    return car(conclusion) == PEQUAL && is_pair(car(call)) &&
           member(conclusion, 2) ==
               substitute_actuals(member(car(call), 2), member(car(call), 1), cdr(call));
}

/* `(f 'c1 .. 'cn) = 'v` for a primitive f with that value. */
static bool is_base_eval(Object conclusion)
{
    Object call = member(conclusion, 1), value = member(conclusion, 2),
           constants[3] = { NIL, NIL, NIL };
    size_t count = 0;
    if (car(conclusion) != PEQUAL || !is_pair(call) || car(value) != QUOTE)
        return false;
    for (Object rest = cdr(call); is_pair(rest) && count < 3; rest = cdr(rest), count++) {
        if (car(car(rest)) != QUOTE)
            return false;
        constants[count] = member(car(rest), 1);
    }
    return member(value, 1) == primitive_value(car(call), constants[0], constants[1], constants[2]);
}

static bool is_associativity(Object conclusion, Object premise)
{
    Object rest = member(premise, 2);
    return is_disjunction(premise) && is_disjunction(rest) &&
           conclusion ==
               disjunction(disjunction(member(premise, 1), member(rest, 1)), member(rest, 2));
}

static bool is_cut(Object conclusion, Object first, Object second)
{
    return is_disjunction(first) && is_disjunction(second) &&
           member(second, 1) == denial(member(first, 1)) &&
           conclusion == disjunction(member(first, 2), member(second, 2));
}

bool is_substitution(Object x)
{
    take_looks(1);
    if (!is_list(x))
        return false;
    for (; is_pair(x); x = cdr(x)) {
        take_looks(1);
        if (!is_pair(car(x)) || !is_variable(car(car(x))) || !is_term(cdr(car(x))))
            return false;
    }
    return true;
}

/* The methods without premises. */
static bool follows_from_nothing(Object method, Object conclusion)
{
    switch (method) {
    case AXIOM: return is_axiom(conclusion);
    case THEOREM: return is_theorem(conclusion);
    case PROPOSITIONAL_SCHEMA: return is_schema(conclusion);
    case FUNCTIONAL_EQUALITY: return is_functional_equality(conclusion);
    case BETA_REDUCTION: return is_beta_reduction(conclusion);
    case BASE_EVAL: return is_base_eval(conclusion);
    default: return false;
    }
}

/* Those with one premise and no extras. */
static bool follows_from_one(Object method, Object conclusion, Object premise)
{
    switch (method) {
    case EXPANSION: return is_disjunction(conclusion) && member(conclusion, 2) == premise;
    case CONTRACTION: return premise == disjunction(conclusion, conclusion);
    case ASSOCIATIVITY: return is_associativity(conclusion, premise);
    default: return false;
    }
}

bool follows(Object method, Object conclusion, const Vector *premises, Object extras)
{
    Object first = premises->count > 0 ? (Object)premises->items[0] : (Object)NIL;
    Object second = premises->count > 1 ? (Object)premises->items[1] : (Object)NIL;
    if (method == INDUCTION)
        return follows_by_induction(conclusion, premises, extras);
    if (method == INSTANTIATION)
        return premises->count == 1 && is_substitution(extras) &&
               conclusion == substitute(first, extras);
    if (extras != NIL)
        return false;
    switch (premises->count) {
    case 0: return follows_from_nothing(method, conclusion);
    case 1: return follows_from_one(method, conclusion, first);
    case 2: return method == CUT && is_cut(conclusion, first, second);
    default: return false;
    }
}
