#include "terms.h"

void collect_variables(Object term, Map *seen, Vector *found)
{
    static Vector tasks;
    push(&tasks, key_of(term, TERM));
    while (tasks.count > 0) {
        uint64_t task = pop(&tasks);
        Object x = object_of(task);
        take_looks(1);
        if (view_of(task) == TERM && is_variable(x)) {
            if (put(seen, task, T))
                push(found, x);
        } else if (is_pair(x) && (view_of(task) == TERMS || car(x) != QUOTE) &&
                   put(seen, task, T)) {
            push(&tasks, key_of(cdr(x), TERMS));
            if (view_of(task) == TERMS)
                push(&tasks, key_of(car(x), TERM));
        }
    }
}

/* Is it a list of distinct variables? If so they are among the seen. */
static bool are_formals(Object x, Map *seen)
{
    if (!is_list(x))
        return false;
    for (; is_pair(x); x = cdr(x)) {
        take_looks(1);
        if (!is_variable(car(x)) || !put(seen, key_of(car(x), TERM), T))
            return false;
    }
    return true;
}

bool is_closed(Object formals, Object term)
{
    static Map seen;
    static Vector free_variables;
    empty(&seen);
    free_variables.count = 0;
    if (!are_formals(formals, &seen))
        return false;
    collect_variables(term, &seen, &free_variables);
    return free_variables.count == 0;
}

/* Is it `(lambda formals body)`, but for whether the body is a term? */
static bool is_lambda(Object x)
{
    if (cells[x].known & CLOSED)
        return true;
    if (car(x) != LAMBDA || count_members(x) != 3 || !is_closed(member(x, 1), member(x, 2)))
        return false;
    cells[x].known |= CLOSED;
    return true;
}

/* What has to hold, as keys, in the order in which it was asked for. */
static Vector asked;

/* Asks that an object is so. It is marked at once, so that nothing is asked twice. */
static void ask(Object x, int view)
{
    if (cells[x].known & view)
        return;
    cells[x].known |= (uint8_t)view;
    push(&asked, key_of(x, view));
}

/* Is it a formula, if what is asked for then holds? So too below. */
static bool may_be_formula(Object x)
{
    if (car(x) == PEQUAL && count_members(x) == 3) {
        ask(member(x, 1), TERM);
        ask(member(x, 2), TERM);
        return true;
    }
    if (car(x) == POR && count_members(x) == 3) {
        ask(member(x, 1), FORMULA);
        ask(member(x, 2), FORMULA);
        return true;
    }
    if (car(x) != PNOT || count_members(x) != 2)
        return false;
    ask(member(x, 1), FORMULA);
    return true;
}

static bool may_be_call(Object x)
{
    Object head = car(x), actuals = cdr(x);
    uint32_t arity;
    if (is_symbol(head)) {
        arity = arity_of(head);
    } else if (is_lambda(head)) {
        arity = count_members(member(head, 1));
        ask(member(head, 2), TERM);
    } else {
        return false;
    }
    ask(actuals, TERMS);
    return is_list(actuals) && count_members(actuals) == arity;
}

static bool may_be_term(Object x)
{
    if (!is_pair(x))
        return is_variable(x);
    return car(x) == QUOTE ? count_members(x) == 2 : may_be_call(x);
}

static bool may_be_terms(Object x)
{
    if (!is_pair(x))
        return x == NIL;
    ask(car(x), TERM);
    ask(cdr(x), TERMS);
    return true;
}

static bool may_be(Object x, int view)
{
    take_looks(1);
    return view == FORMULA ? may_be_formula(x) : view == TERM ? may_be_term(x) : may_be_terms(x);
}

/*
 * Under arities that stay, what is a term or a formula stays one, since functions are only added:
 * so the marks stay. Where it is none, all marks of this walk are taken back, also those of what
 * was all right.
 */
static bool is_well_formed(Object x, int view, bool keeps_marks)
{
    bool is_good = true;
    asked.count = 0;
    ask(x, view);
    for (size_t i = 0; i < asked.count && is_good; i++)
        is_good = may_be(object_of(asked.items[i]), view_of(asked.items[i]));
    if (is_good && keeps_marks)
        return true;
    for (size_t i = 0; i < asked.count; i++)
        cells[object_of(asked.items[i])].known &= (uint8_t)~view_of(asked.items[i]);
    return is_good;
}

bool is_term(Object x) { return is_well_formed(x, TERM, true); }
bool is_formula(Object x) { return is_well_formed(x, FORMULA, true); }
bool is_term_for_now(Object x) { return is_well_formed(x, TERM, false); }
