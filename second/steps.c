#include "steps.h"

#include "data.h"
#include "rules.h"
#include "terms.h"

static Vector conclusions; /* of the steps up to the first that is not good */
static uint64_t step_count;
static bool are_good = true;

/*
 * Gathers the conclusions of the steps that are named; answers whether they are a list of numbers
 * of earlier steps.
 */
static bool gather_premises(Object numbers, Vector *premises)
{
    premises->count = 0;
    if (!is_list(numbers))
        return false;
    for (; is_pair(numbers); numbers = cdr(numbers)) {
        size_t number = small_number(car(numbers));
        if (number == 0 || number >= step_count)
            return false;
        push(premises, conclusions.items[number - 1]);
    }
    return true;
}

/*
 * Is the datum that was read last, which begins with STEP, a good step? All before it have to be
 * good.
 */
static bool is_good_step(Object step)
{
    static Vector premises;
    Object conclusion = member(step, 3);
    return count_members(step) == 6 && !is_out_of_range() &&
           small_number(member(step, 1)) == step_count && is_formula(conclusion) &&
           gather_premises(member(step, 4), &premises) &&
           follows(member(step, 2), conclusion, &premises, member(step, 5));
}

void collect_step(Object step)
{
    step_count++;
    are_good = are_good && is_good_step(step);
    if (are_good)
        push(&conclusions, member(step, 3));
}

uint64_t count_steps(void) { return step_count; }

void forget_steps(void)
{
    step_count = conclusions.count = 0;
    are_good = true;
}

bool are_steps_good(void) { return are_good; }

bool names_step(Object number, Object formula)
{
    size_t place = small_number(number);
    return place >= 1 && place <= conclusions.count &&
           (Object)conclusions.items[place - 1] == formula;
}
