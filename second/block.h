/* The block of functions that a definition adds, and its obligations. */
#ifndef BLOCK_H
#define BLOCK_H

#include "map.h"
#include "objects.h"

typedef struct {
    Object name, formals, body, measure; /* body and measure are written out */
} Function;

/* The functions of the block that is being defined, and their places in it, by name. */
extern Function *block;
extern size_t block_count;
extern Map places_in_block;

/* Can this symbol name a new function? */
bool is_new_function_name(Object name);

/* Begins a block of definitions, each a list of a name, formals, a body and a measure. */
void begin_block(Object definitions);

/*
 * May these functions be defined, but for nested calls? If so their arities hold until the block
 * is forgotten.
 */
bool is_block_well_made(void);
void forget_block(void);

/* Adds the axioms of the block to the theory. */
void add_block(void);

/*
 * What comes of the obligations of a well-made block: a body calls a function of the block in an
 * actual of such a call; the numbers name collected steps that conclude just the obligations, in
 * order; or they do not.
 */
enum { NESTED, MET, NOT_MET };

int settle_obligations(Object numbers);

#endif
