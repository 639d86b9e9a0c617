#include "events.h"

#include "block.h"
#include "data.h"
#include "expansion.h"
#include "steps.h"
#include "terms.h"
#include "theory.h"

static bool is_initial = true; /* whether the theory is the initial one of the first profile */

static bool are_numbers(Object x)
{
    if (!is_list(x))
        return false;
    for (; is_pair(x); x = cdr(x))
        if (!is_natural(car(x)))
            return false;
    return true;
}

/* Is it a list of one or more lists of four members? */
static bool are_definitions(Object x)
{
    if (!is_pair(x) || !is_list(x))
        return false;
    for (; is_pair(x); x = cdr(x))
        if (count_members(car(x)) != 4)
            return false;
    return true;
}

/* Is it one of the five forms? */
static bool has_shape(Object event)
{
    uint32_t count = count_members(event);
    switch (car(event)) {
    case VERIFY: return count == 4 && is_natural(member(event, 3));
    case DEFINE: return count == 6 && are_numbers(member(event, 5));
    case DEFINE_ALL:
        return count == 3 && are_definitions(member(event, 1)) && are_numbers(member(event, 2));
    case SKOLEM: return count == 5;
    case PROFILE: return count == 2;
    default: return false;
    }
}

static const char *answer_to_verify(Object name, Object formula, Object number)
{
    if (!is_symbol(name) || !is_formula(formula))
        return "no ADMIT";
    if (!names_step(number, formula))
        return "no GOAL";
    add_theorem(formula);
    return "yes";
}

static const char *answer_to_definitions(Object definitions, Object numbers)
{
    begin_block(definitions);
    if (!is_block_well_made())
        return "no ADMIT";
    int settled = settle_obligations(numbers);
    if (settled == MET) {
        add_block();
        return "yes";
    }
    forget_block();
    return settled == NESTED ? "no ADMIT" : "no GOAL";
}

static const char *answer_to_define(Object event)
{
    Object name = member(event, 1), formals = member(event, 2), body = member(event, 3),
           measure = member(event, 4);
    Object definition = cons(name, list_of_three(formals, body, measure));
    return answer_to_definitions(cons(definition, NIL), member(event, 5));
}

static const char *answer_to_skolem(Object event)
{
    Object name = member(event, 1), bound = member(event, 2), free_variables = member(event, 3);
    Object body = expanded(member(event, 4));
    if (!is_new_function_name(name) || !is_closed(cons(bound, free_variables), body) ||
        !is_term(body))
        return "no ADMIT";
    set_arity(name, count_members(free_variables));
    add_axiom(witness_axiom(name, bound, free_variables, body));
    return "yes";
}

static const char *answer_to_profile(Object profile)
{
    size_t number = small_number(profile);
    if (!is_initial || number < 1 || number > 2)
        return "no ADMIT";
    if (number == 2)
        begin_second_profile();
    return "yes";
}

static const char *answer_by_word(Object event)
{
    switch (car(event)) {
    case VERIFY: return answer_to_verify(member(event, 1), member(event, 2), member(event, 3));
    case DEFINE: return answer_to_define(event);
    case DEFINE_ALL: return answer_to_definitions(member(event, 1), member(event, 2));
    case SKOLEM: return answer_to_skolem(event);
    default: return answer_to_profile(member(event, 1));
    }
}

/* `(profile 1)` is the one event that a yes leaves without effect. */
static bool changes_theory(Object event)
{
    return car(event) != PROFILE || small_number(member(event, 1)) != 1;
}

const char *answer_to(Object event)
{
    if (is_out_of_range() || !has_shape(event))
        return "no SHAPE";
    if (!are_steps_good())
        return "no STEP";
    const char *answer = answer_by_word(event);
    if (answer[0] == 'y' && changes_theory(event))
        is_initial = false;
    return answer;
}
