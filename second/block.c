#include "block.h"

#include "expansion.h"
#include "terms.h"
#include "theory.h"

Function *block;
size_t block_count;
Map places_in_block;
static size_t block_capacity;

bool is_new_function_name(Object name)
{
    return is_symbol(name) && arity_of(name) == NO_ARITY && name > LAST_RESERVED_WORD;
}

void begin_block(Object definitions)
{
    block_count = 0;
    for (; is_pair(definitions); definitions = cdr(definitions)) {
        Object definition = car(definitions);
        block = with_room(block, &block_capacity, block_count + 1, sizeof *block);
        block[block_count++] = (Function){
            .name = member(definition, 0),
            .formals = member(definition, 1),
            .body = expanded(member(definition, 2)),
            .measure = expanded(member(definition, 3)),
        };
    }
}

/*
 * Is it new in the theory and in the block, with formals, and with a measure and a body that are
 * closed?
 */
static bool is_function_well_made(const Function *function, uint32_t place)
{
    return is_new_function_name(function->name) && put(&places_in_block, function->name, place) &&
           is_closed(function->formals, function->measure) && is_term(function->measure) &&
           is_closed(function->formals, function->body);
}

static bool are_bodies_terms(void)
{
    for (size_t i = 0; i < block_count; i++)
        if (!is_term_for_now(block[i].body))
            return false;
    return true;
}

bool is_block_well_made(void)
{
    empty(&places_in_block);
    for (size_t i = 0; i < block_count; i++)
        if (!is_function_well_made(&block[i], (uint32_t)i))
            return false;
    for (size_t i = 0; i < block_count; i++)
        set_arity(block[i].name, count_members(block[i].formals));
    if (are_bodies_terms())
        return true;
    forget_block();
    return false;
}

void forget_block(void)
{
    for (size_t i = 0; i < block_count; i++)
        forget_arity(block[i].name);
}

void add_block(void)
{
    for (size_t i = 0; i < block_count; i++)
        add_axiom(function_axiom(block[i].name, block[i].formals, block[i].body));
}
