#include "expansion.h"

#include "terms.h"
#include "walk.h"

/* Is it `(x t)`? */
static bool is_binding(Object x) { return count_members(x) == 2; }

static bool is_let(Object x)
{
    Object bindings = member(x, 1);
    if (count_members(x) != 3 || !is_list(bindings))
        return false;
    for (; is_pair(bindings); bindings = cdr(bindings))
        if (!is_binding(car(bindings)))
            return false;
    return true;
}

/* `(first a)` is `(car a)`, `(second a)` is `(first (cdr a))`, and so on. */
static Object one_step_of_place(Object x, Object place_before)
{
    Object argument = member(x, 1);
    if (count_members(x) != 2)
        return x;
    return place_before == CAR ? list_of_two(CAR, argument)
                               : list_of_two(place_before, list_of_two(CDR, argument));
}

/* `(and)` is `'t`, `(and a)` is a, `(and a b ..)` is `(if a (and b ..) 'nil)`. */
static Object one_step_of_and(Object x)
{
    if (count_members(x) <= 2)
        return is_pair(cdr(x)) ? member(x, 1) : quoted(T);
    return cons(IF, list_of_three(member(x, 1), cons(AND, cdr(cdr(x))), quoted(NIL)));
}

/* `(or)` is `'nil`, `(or a)` is a, `(or a b ..)` is `(if a a (or b ..))`. */
static Object one_step_of_or(Object x)
{
    if (count_members(x) <= 2)
        return is_pair(cdr(x)) ? member(x, 1) : quoted(NIL);
    return cons(IF, list_of_three(member(x, 1), member(x, 1), cons(OR, cdr(cdr(x)))));
}

/* `(cond)` is `'nil`, `(cond (a b) ..)` is `(if a b (cond ..))`. */
static Object one_step_of_cond(Object x)
{
    Object clause = member(x, 1);
    if (count_members(x) == 1)
        return quoted(NIL);
    if (count_members(clause) != 2)
        return x;
    return cons(IF, list_of_three(car(clause), member(clause, 1), cons(COND, cdr(cdr(x)))));
}

/* `(list)` is `'nil`, `(list a ..)` is `(cons a (list ..))`. */
static Object one_step_of_list(Object x)
{
    return is_pair(cdr(x)) ? list_of_three(CONS, member(x, 1), cons(LIST, cdr(cdr(x))))
                           : quoted(NIL);
}

/* `(let* () b)` is b, `(let* ((x t) ..) b)` is `(let ((x t)) (let* (..) b))`. */
static Object one_step_of_let_star(Object x)
{
    Object bindings = member(x, 1);
    if (count_members(x) != 3 || !is_list(bindings))
        return x;
    if (bindings == NIL)
        return member(x, 2);
    return list_of_three(LET, cons(car(bindings), NIL),
                         cons(LET_STAR, cons(cdr(bindings), cdr(cdr(x)))));
}

/*
 * The term with its outermost abbreviation, other than LET, written out by one step; itself where
 * there is none.
 */
static Object one_step(Object x)
{
    if (!is_list(x))
        return x;
    switch (car(x)) {
    case AND: return one_step_of_and(x);
    case OR: return one_step_of_or(x);
    case COND: return one_step_of_cond(x);
    case LIST: return one_step_of_list(x);
    case LET_STAR: return one_step_of_let_star(x);
    case FIRST: return one_step_of_place(x, CAR);
    case SECOND: return one_step_of_place(x, FIRST);
    case THIRD: return one_step_of_place(x, SECOND);
    case FOURTH: return one_step_of_place(x, THIRD);
    case FIFTH: return one_step_of_place(x, FOURTH);
    default: return x;
    }
}

/* Appends the bound variables and their terms, written out; answers whether these are all there. */
static bool are_bindings_ready(Walk *walk, Object bindings, Map *seen, Vector *formals,
                               Vector *actuals)
{
    bool are_ready = true;
    for (; is_pair(bindings); bindings = cdr(bindings)) {
        Object variable = car(car(bindings)), actual = NIL;
        take_looks(1);
        are_ready = need(walk, member(car(bindings), 1), TERM, &actual) && are_ready;
        put(seen, key_of(variable, TERM), T);
        push(formals, variable);
        push(actuals, actual);
    }
    return are_ready;
}

/*
 * `(let ((x1 t1) .. (xn tn)) b)` is `((lambda (x1 .. xn y1 .. ym) b) t1 .. tn y1 .. ym)`: the y's
 * are the other free variables of the body, when that is written out, in the order in which they
 * first occur in it.
 */
static bool let_rule(Walk *walk, Object x, Object *result)
{
    static Map seen;
    static Vector formals, actuals;
    Object body = NIL;
    empty(&seen);
    formals.count = actuals.count = 0;
    bool is_body_ready = need(walk, member(x, 2), TERM, &body);
    if (!are_bindings_ready(walk, member(x, 1), &seen, &formals, &actuals) || !is_body_ready)
        return false;
    size_t bound = formals.count;
    collect_variables(body, &seen, &formals);
    for (size_t i = bound; i < formals.count; i++)
        push(&actuals, formals.items[i]);
    *result = cons(list_of_three(LAMBDA, list_of(&formals), body), list_of(&actuals));
    return true;
}

/* The rule for a call of a function or of a lambda, whose body is written out too. */
static bool call_rule(Walk *walk, Object x, Object *result)
{
    Object head = car(x), actuals = NIL, body = NIL;
    bool is_ready = need(walk, cdr(x), TERMS, &actuals);
    bool is_lambda = car(head) == LAMBDA && count_members(head) == 3;
    if (is_lambda)
        is_ready = need(walk, member(head, 2), TERM, &body) && is_ready;
    if (!is_ready)
        return false;
    *result = cons(is_lambda ? list_of_three(LAMBDA, member(head, 1), body) : head, actuals);
    return true;
}

static bool expansion_rule(Walk *walk, Object x, int view, Object *result)
{
    if (view == TERMS)
        return list_rule(walk, x, result);
    if (!is_pair(x) || car(x) == QUOTE) {
        *result = is_pair(x) || is_variable(x) ? x : quoted(x);
        return true;
    }
    if (car(x) == LET && is_let(x))
        return let_rule(walk, x, result);
    Object step = one_step(x);
    return step != x ? need(walk, step, TERM, result) : call_rule(walk, x, result);
}

Object expanded(Object term)
{
    static Walk expansion;
    empty(&expansion.results);
    return value_by(expansion_rule, &expansion, term, TERM);
}
