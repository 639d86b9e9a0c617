/*
 * The obligations of a block: for each function that its measure is an ordinal, and for each
 * call of the block in its body that the measure of the called function, at the actuals, is
 * below its own, under the tests that govern the call.
 */
#include "block.h"
#include "steps.h"
#include "terms.h"
#include "walk.h"

/* T for what has a call of the block in it, anywhere but in a constant, and else NIL. */
static bool mention_rule(Walk *walk, Object x, int view, Object *result)
{
    Object first = NIL, rest = NIL;
    bool is_ready = true;
    uint32_t place;
    *result = NIL;
    if (!is_pair(x) || (view == TERM && car(x) == QUOTE))
        return true;
    if (view == TERM && find(&places_in_block, car(x), &place)) {
        *result = T;
        return true;
    }
    if (view == TERMS)
        is_ready = need(walk, car(x), TERM, &first);
    else if (is_pair(car(x)))
        is_ready = need(walk, member(car(x), 2), TERM, &first);
    if (!need(walk, cdr(x), TERMS, &rest) || !is_ready)
        return false;
    *result = first == T || rest == T ? T : NIL;
    return true;
}

static Walk mention;

static bool mentions_block(Object x, int view)
{
    return value_by(mention_rule, &mention, x, view) == T;
}

/* The obligations so far, the numbers of the steps for the next ones, and whether all were met. */
static Map obligations;
static Object numbers_left;
static bool is_all_met;

/*
 * The next number has to name a step with this conclusion. An obligation that comes twice is
 * proved once.
 */
static void meet(Object formula)
{
    if (!put(&obligations, formula, T))
        return;
    is_all_met = is_all_met && is_pair(numbers_left) && names_step(car(numbers_left), formula);
    numbers_left = cdr(numbers_left);
}

/* The tests are equations and denials, the innermost first. */
static Object obligation(const Function *caller, const Function *called, Object actuals,
                         Object tests)
{
    Object smaller = substitute_actuals(called->measure, called->formals, actuals);
    Object formula = equation(list_of_three(ORD_LESS, smaller, caller->measure), quoted(T));
    for (; is_pair(tests); tests = cdr(tests)) {
        take_looks(1);
        formula = disjunction(car(tests), formula);
    }
    return formula;
}

/* What to look at, the next one last, in twos: a key, and the list of the tests that govern it. */
static Vector tasks;

static void push_task(Object x, int view, Object tests)
{
    push(&tasks, key_of(x, view));
    push(&tasks, tests);
}

/* The test governs both branches, if it does not mention the block. */
static void push_branches(Object x, Object tests)
{
    Object test = member(x, 1), if_so = tests, if_not = tests;
    if (!mentions_block(test, TERM)) {
        if_so = cons(equation(test, quoted(NIL)), tests);
        if_not = cons(denial(equation(test, quoted(NIL))), tests);
    }
    push_task(member(x, 3), TERM, if_not);
    push_task(member(x, 2), TERM, if_so);
    push_task(test, TERM, tests);
}

/* Of a lambda call the actuals come first, then the body, into which the actuals are put. */
static void push_parts(Object x, int view, Object tests)
{
    if (view == TERMS) {
        push_task(cdr(x), TERMS, tests);
        push_task(car(x), TERM, tests);
    } else if (car(x) == IF) {
        push_branches(x, tests);
    } else {
        if (is_pair(car(x)))
            push_task(substitute_actuals(member(car(x), 2), member(car(x), 1), cdr(x)), TERM,
                      tests);
        push_task(cdr(x), TERMS, tests);
    }
}

/*
 * Meets the obligations of each call of the block in a body, in the order in which they are
 * written; answers false at a nested call. What was looked at under the same tests has the same
 * obligations, and is passed over; so is what mentions no function of the block.
 */
static bool meet_for_calls(const Function *caller)
{
    static Map seen;
    uint32_t place;
    empty(&seen);
    tasks.count = 0;
    push_task(caller->body, TERM, NIL);
    while (tasks.count > 0) {
        Object tests = (Object)pop(&tasks);
        uint64_t task = pop(&tasks);
        Object x = object_of(task);
        take_looks(1);
        if (!mentions_block(x, view_of(task)) ||
            !put(&seen, key_of(cons(x, tests), view_of(task)), T))
            continue;
        if (view_of(task) == TERMS || !find(&places_in_block, car(x), &place)) {
            push_parts(x, view_of(task), tests);
        } else {
            if (mentions_block(cdr(x), TERMS))
                return false;
            meet(obligation(caller, &block[place], cdr(x), tests));
        }
    }
    return true;
}

static bool is_recursive(void)
{
    for (size_t i = 0; i < block_count; i++)
        if (mentions_block(block[i].body, TERM))
            return true;
    return false;
}

int settle_obligations(Object numbers)
{
    empty(&mention.results);
    empty(&obligations);
    numbers_left = numbers;
    is_all_met = true;
    size_t owing = is_recursive() ? block_count : 0;
    for (size_t i = 0; i < owing; i++) {
        meet(equation(list_of_two(ORDP, block[i].measure), quoted(T)));
        if (!meet_for_calls(&block[i]))
            return NESTED;
    }
    return is_all_met && numbers_left == NIL ? MET : NOT_MET;
}
