#include "primitives.h"

#include <string.h>

static bool has_product; /* whether `*` is a primitive */

void begin_primitives(void)
{
    static const uint32_t arities[][2] = {
        { IF, 3 },      { EQUAL, 2 },       { CONSP, 1 }, { CONS, 2 }, { CAR, 1 },  { CDR, 1 },
        { SYMBOLP, 1 }, { SYMBOL_LESS, 2 }, { NATP, 1 },  { LESS, 2 }, { PLUS, 2 }, { MINUS, 2 },
    };
    for (size_t i = 0; i < sizeof arities / sizeof *arities; i++)
        set_arity(arities[i][0], arities[i][1]);
}

void begin_product(void)
{
    has_product = true;
    set_arity(TIMES, 2);
}

/*
 * Digits of a number, the lowest first: of a product of two naturals below 2^128, which have 39 at
 * most.
 */
enum { FACTOR_DIGITS = 39, DIGITS = 2 * FACTOR_DIGITS };

typedef struct {
    int digit[DIGITS];
} Number;

/* What is no natural counts as 0. */
static Number number_of(Object x)
{
    Number number = { { 0 } };
    if (is_natural(x))
        for (uint32_t i = 0; i < cells[x].right; i++)
            number.digit[i] = texts[cells[x].left + cells[x].right - 1 - i] - '0';
    return number;
}

static Object natural_of(const Number *number)
{
    char digits[DIGITS];
    for (int i = 0; i < DIGITS; i++)
        digits[i] = (char)('0' + number->digit[DIGITS - 1 - i]);
    return natural(digits, DIGITS);
}

static bool is_less(const Number *a, const Number *b)
{
    for (int i = DIGITS - 1; i >= 0; i--)
        if (a->digit[i] != b->digit[i])
            return a->digit[i] < b->digit[i];
    return false;
}

/* a + sign * b, which must not be below 0. */
static Object sum(Number a, const Number *b, int sign)
{
    int carry = 0;
    for (int i = 0; i < DIGITS; i++) {
        int digit = a.digit[i] + sign * b->digit[i] + carry;
        carry = digit < 0 ? -1 : digit / 10;
        a.digit[i] = digit - carry * 10;
    }
    return natural_of(&a);
}

static Object difference(const Number *a, const Number *b)
{
    return is_less(a, b) ? natural("0", 1) : sum(*a, b, -1);
}

static Object product(const Number *a, const Number *b)
{
    Number result = { { 0 } };
    for (int i = 0; i < FACTOR_DIGITS; i++)
        for (int j = 0, carry = 0; i + j < DIGITS; j++) {
            carry += result.digit[i + j] + a->digit[i] * b->digit[j];
            result.digit[i + j] = carry % 10;
            carry /= 10;
        }
    return natural_of(&result);
}

/*
 * Names are compared byte by byte, one that another begins with first; what is no symbol counts as
 * NIL.
 */
static bool is_symbol_less(Object a, Object b)
{
    const Cell *left = &cells[is_symbol(a) ? a : (Object)NIL],
               *right = &cells[is_symbol(b) ? b : (Object)NIL];
    uint32_t length = left->right < right->right ? left->right : right->right;
    int order = memcmp(texts + left->left, texts + right->left, length);
    return order < 0 || (order == 0 && left->right < right->right);
}

static Object truth_of(bool holds) { return holds ? T : NIL; }

static Object arithmetic_value(Object name, Object x, Object y)
{
    Number a = number_of(x), b = number_of(y);
    switch (name) {
    case LESS: return truth_of(is_less(&a, &b));
    case PLUS: return sum(a, &b, 1);
    case MINUS: return difference(&a, &b);
    case TIMES: return has_product ? product(&a, &b) : (Object)NO_OBJECT;
    default: return NO_OBJECT;
    }
}

Object primitive_value(Object name, Object x, Object y, Object z)
{
    switch (name) {
    case IF: return x != NIL ? y : z;
    case EQUAL: return truth_of(x == y);
    case CONSP: return truth_of(is_pair(x));
    case CONS: return cons(x, y);
    case CAR: return car(x);
    case CDR: return cdr(x);
    case SYMBOLP: return truth_of(is_symbol(x));
    case SYMBOL_LESS: return truth_of(is_symbol_less(x, y));
    case NATP: return truth_of(is_natural(x));
    default: return arithmetic_value(name, x, y);
    }
}
