/*
 * The theory: its axioms and theorems, which are marks of cells, and the arities that hold, which
 * stand in cells too.
 */
#ifndef THEORY_H
#define THEORY_H

#include "objects.h"

/* Makes the initial theory of the first profile; comes after begin_objects. */
void begin_theory(void);

/* From the initial theory of the first profile to that of the second. */
void begin_second_profile(void);

bool is_axiom(Object formula);
bool is_theorem(Object formula);
void add_axiom(Object formula);
void add_theorem(Object formula);

/* The axiom of a function, and of a witness, whose bodies are written out. */
Object function_axiom(Object name, Object formals, Object body);
Object witness_axiom(Object name, Object bound, Object free_variables, Object body);

#endif
