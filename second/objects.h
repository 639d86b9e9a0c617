/*
 * Objects: symbols, naturals and pairs. Each is a cell of one table, and equal objects are the same
 * cell, so that to compare them is to compare two numbers. The parts of a pair come before it in
 * the table.
 */
#ifndef OBJECTS_H
#define OBJECTS_H

#include "memory.h"

#include <stdbool.h>

typedef uint32_t Object;

// clang-format off
/* The symbols that mean something. Their cells are the first ones, in this order. */
#define NAMED_SYMBOLS(_) \
    _(NIL, "NIL") _(T, "T") _(QUOTE, "QUOTE") _(LAMBDA, "LAMBDA") \
    _(PEQUAL, "PEQUAL*") _(PNOT, "PNOT*") _(POR, "POR*") \
    _(AND, "AND") _(OR, "OR") _(COND, "COND") _(LIST, "LIST") _(LET, "LET") _(LET_STAR, "LET*") \
    _(FIRST, "FIRST") _(SECOND, "SECOND") _(THIRD, "THIRD") _(FOURTH, "FOURTH") _(FIFTH, "FIFTH") \
    _(IF, "IF") _(EQUAL, "EQUAL") _(CONSP, "CONSP") _(CONS, "CONS") _(CAR, "CAR") _(CDR, "CDR") \
    _(SYMBOLP, "SYMBOLP") _(SYMBOL_LESS, "SYMBOL-<") \
    _(NATP, "NATP") _(LESS, "<") _(PLUS, "+") _(MINUS, "-") _(TIMES, "*") \
    _(ORDP, "ORDP") _(ORD_LESS, "ORD<") _(STEP, "STEP") \
    _(VERIFY, "VERIFY") _(DEFINE, "DEFINE") _(DEFINE_ALL, "DEFINE-ALL") _(SKOLEM, "SKOLEM") \
    _(PROFILE, "PROFILE") _(SWITCH, "SWITCH") \
    _(AXIOM, "AXIOM") _(THEOREM, "THEOREM") _(PROPOSITIONAL_SCHEMA, "PROPOSITIONAL-SCHEMA") \
    _(FUNCTIONAL_EQUALITY, "FUNCTIONAL-EQUALITY") _(BETA_REDUCTION, "BETA-REDUCTION") \
    _(BASE_EVAL, "BASE-EVAL") _(EXPANSION, "EXPANSION") _(CONTRACTION, "CONTRACTION") \
    _(ASSOCIATIVITY, "ASSOCIATIVITY") _(CUT, "CUT") _(INSTANTIATION, "INSTANTIATION") \
    _(INDUCTION, "INDUCTION")
// clang-format on
#define AS_CONSTANT(constant, name) constant,

/* No object has the number of NO_OBJECT. The last word that cannot name a function is FIFTH. */
enum { NO_OBJECT, NAMED_SYMBOLS(AS_CONSTANT) AFTER_NAMED, LAST_RESERVED_WORD = FIFTH };

enum { PAIR, SYMBOL, NATURAL };

typedef struct {
    uint32_t left, right; /* a pair's CAR and CDR; where an atom's text begins, and its length */
    uint32_t next;        /* the next cell whose hash falls into the same bucket, or NO_OBJECT */
    uint32_t size; /* of a pair its number of members; of a symbol one more than its arity, or 0 */
    uint8_t kind, known; /* what is known of the object: marks of terms.h and theory.h */
} Cell;

/* The number of members of what is no list; the arity of what names no function. */
#define NO_LIST UINT32_MAX
#define NO_ARITY UINT32_MAX

extern Cell *cells;
extern char *texts; /* of all atoms: a symbol's name, a natural's digits without leading zeros */

/* All naturals of 2^128 or more are this one object, which stands in no good datum. */
extern Object too_large;

/* Makes the symbols above; comes before any other call. */
void begin_objects(void);

/* The symbol of a name of one byte or more, and the natural of one digit or more. */
Object symbol(const char *name, size_t length);
Object natural(const char *digits, size_t length);
Object cons(Object left, Object right);

static inline bool is_pair(Object x) { return cells[x].kind == PAIR; }
static inline bool is_symbol(Object x) { return cells[x].kind == SYMBOL; }
static inline bool is_natural(Object x) { return cells[x].kind == NATURAL; }
static inline Object car(Object x) { return is_pair(x) ? cells[x].left : (Object)NIL; }
static inline Object cdr(Object x) { return is_pair(x) ? cells[x].right : (Object)NIL; }

/* The number of members of a list, or NO_LIST. */
static inline uint32_t count_members(Object x)
{
    return x == NIL ? 0 : is_pair(x) ? cells[x].size : NO_LIST;
}
static inline bool is_list(Object x) { return count_members(x) != NO_LIST; }

/* The arity of the function that a symbol names, or NO_ARITY. */
static inline uint32_t arity_of(Object name) { return cells[name].size - 1; }
static inline void set_arity(Object name, uint32_t arity) { cells[name].size = arity + 1; }
static inline void forget_arity(Object name) { cells[name].size = 0; }

/* A member of a list by its place, counted from 0; NIL where there is none. */
Object member(Object list, int place);

Object list_of_two(Object a, Object b);
Object list_of_three(Object a, Object b, Object c);
Object equation(Object a, Object b);
Object denial(Object a);
Object disjunction(Object a, Object b);
Object quoted(Object a);

/* The list of the objects in a vector. */
Object list_of(const Vector *vector);

/* A natural below 10^18, or SIZE_MAX for whatever is none. */
size_t small_number(Object x);

#endif
