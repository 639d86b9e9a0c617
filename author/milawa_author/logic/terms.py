"""Terms and formulas as objects: making them and taking them apart.

A function that takes a term or formula apart expects one; the kernel is what checks that it is.
"""
from .objects import Object, Pair, items, make_list

ABBREVIATIONS = frozenset("AND OR COND LIST LET LET* FIRST SECOND THIRD FOURTH FIFTH".split())
NOT_FUNCTION_NAMES = ABBREVIATIONS | {"NIL", "T", "QUOTE", "LAMBDA", "PEQUAL*", "PNOT*", "POR*"}

Substitution = dict[str, Object]        # terms for variables, put for them all at once


# ---- terms -----------------------------------------------------------------------------------------------

def quote(x: Object) -> Pair:
    """The constant of an object."""
    return make_list("QUOTE", x)


T, NIL = quote("T"), quote("NIL")


def call(function: Object, *actuals: Object) -> Pair:
    """A call of a function (by its name, in upper case) or of a lambda."""
    return make_list(function, *actuals)


def is_variable(t: Object) -> bool:
    """Is it a symbol other than T and NIL?"""
    return isinstance(t, str) and t not in ("T", "NIL")


def is_constant(t: Object) -> bool:
    """Is it headed by QUOTE?"""
    return isinstance(t, Pair) and t.first == "QUOTE"


def is_lambda_call(t: Object) -> bool:
    """Is it headed by a pair, as a lambda call is?"""
    return isinstance(t, Pair) and isinstance(t.first, Pair)


def is_call(t: Object, function: str | None = None) -> bool:
    """Is it a call of a named function (of this one, where one is given)?"""
    return (isinstance(t, Pair) and isinstance(t.first, str) and t.first != "QUOTE"
            and (function is None or t.first == function))


def actuals(t: Pair) -> tuple:
    """The actuals of a call."""
    return items(t)[1:]


def lambda_parts(t: Pair) -> tuple[tuple, Object]:
    """The formals and the body of the lambda that a term calls."""
    _, formals, body = items(t.first)
    return items(formals), body


def variables(t: Object) -> list[str]:
    """The free variables of a term, in order of first occurrence."""
    found, seen, work = {}, set(), [t]
    while work:
        u = work.pop()
        if isinstance(u, str):
            found.setdefault(u)
        elif u not in seen and not is_constant(u):
            seen.add(u)
            work.extend(reversed(actuals(u)))
    return list(found)


# ---- formulas --------------------------------------------------------------------------------------------

def equation(left: Object, right: Object) -> Pair:
    """`left = right`."""
    return make_list("PEQUAL*", left, right)


def negation(formula: Pair) -> Pair:
    """`not formula`."""
    return make_list("PNOT*", formula)


def disjunction(*formulas: Pair) -> Pair:
    """The disjunction of one or more formulas, nested to the right."""
    result = formulas[-1]
    for formula in reversed(formulas[:-1]):
        result = make_list("POR*", formula, result)
    return result


def is_equation(formula: Object) -> bool:
    """Is it headed by PEQUAL*?"""
    return isinstance(formula, Pair) and formula.first == "PEQUAL*"


def is_negation(formula: Object) -> bool:
    """Is it headed by PNOT*?"""
    return isinstance(formula, Pair) and formula.first == "PNOT*"


def is_disjunction(formula: Object) -> bool:
    """Is it headed by POR*?"""
    return isinstance(formula, Pair) and formula.first == "POR*"


def left(formula: Pair) -> Object:
    """The first part of an equation or disjunction; what a negation negates."""
    return formula.rest.first


def right(formula: Pair) -> Object:
    """The second part of an equation or disjunction."""
    return formula.rest.rest.first


def literals(formula: Pair) -> list[Pair]:
    """The members of a disjunction, nested in any way, from left to right, each once."""
    found, work = {}, [formula]
    while work:
        f = work.pop()
        if is_disjunction(f):
            work += [right(f), left(f)]
        else:
            found.setdefault(f)
    return list(found)


def complement(literal: Pair) -> Pair:
    """What holds where a literal does not: F for `not F`, else `not F`."""
    return left(literal) if is_negation(literal) else negation(literal)


def nil(t: Object) -> Pair:
    """The formula "t is nil"."""
    return equation(t, NIL)


def holds(t: Object) -> Pair:
    """The formula "t is not nil"."""
    return negation(equation(t, NIL))
