#include "theory.h"

#include "bytes.h"
#include "data.h"
#include "expansion.h"
#include "primitives.h"
#include "tables.h"

/* Marks of cells, beside those of terms.h. */
enum { IS_AXIOM = 16, IS_THEOREM = 32 };

bool is_axiom(Object formula) { return cells[formula].known & IS_AXIOM; }
bool is_theorem(Object formula) { return cells[formula].known & IS_THEOREM; }
void add_axiom(Object formula) { cells[formula].known |= IS_AXIOM; }
void add_theorem(Object formula) { cells[formula].known |= IS_THEOREM; }

static void remove_axiom(Object formula) { cells[formula].known &= (uint8_t)~IS_AXIOM; }

Object function_axiom(Object name, Object formals, Object body)
{
    return equation(cons(name, formals), body);
}

Object witness_axiom(Object name, Object bound, Object free_variables, Object body)
{
    Object head = list_of_three(LAMBDA, cons(bound, free_variables), body);
    Object call = cons(head, cons(cons(name, free_variables), free_variables));
    return disjunction(equation(body, quoted(NIL)), denial(equation(call, quoted(NIL))));
}

/* What stands in one profile alone. */
static Vector first_profile_axioms, second_profile_axioms;

static Object read_text(const char *text)
{
    Object datum = NIL;
    read_from_text(text);
    read_datum(&datum);
    return datum;
}

/* The axiom of a built-in definition. The arity of what it defines holds from now on. */
static Object built_in_axiom(Object event)
{
    bool is_witness = car(event) == SKOLEM;
    Object name = member(event, 1), formals = member(event, is_witness ? 3 : 2);
    Object body = expanded(member(event, is_witness ? 4 : 3));
    set_arity(name, count_members(formals));
    return is_witness ? witness_axiom(name, member(event, 2), formals, body)
                      : function_axiom(name, formals, body);
}

void begin_theory(void)
{
    begin_primitives();
    for (const char *const *text = primitive_axioms; *text; text++)
        add_axiom(read_text(*text));
    for (const char *const *text = shared_definitions; *text; text++)
        add_axiom(built_in_axiom(read_text(*text)));
    for (const char *const *text = first_profile_definitions; *text; text++)
        push(&first_profile_axioms, built_in_axiom(read_text(*text)));
    for (const char *const *text = second_profile_definitions; *text; text++)
        push(&second_profile_axioms, built_in_axiom(read_text(*text)));
    for (const char *const *text = product_axioms; *text; text++)
        push(&second_profile_axioms, read_text(*text));
    for (size_t i = 0; i < first_profile_axioms.count; i++)
        add_axiom((Object)first_profile_axioms.items[i]);
}

void begin_second_profile(void)
{
    begin_product();
    for (size_t i = 0; i < first_profile_axioms.count; i++)
        remove_axiom((Object)first_profile_axioms.items[i]);
    for (size_t i = 0; i < second_profile_axioms.count; i++)
        add_axiom((Object)second_profile_axioms.items[i]);
}
