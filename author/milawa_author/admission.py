"""Which definitions and witnesses a theory admits, and the claim that a checker has to have among the theorems.

The checks come in the order in which the program makes them; EventError has the word of the first that fails.
"""
from collections.abc import Mapping, Sequence
from typing import NamedTuple

from .errors import EventError, RuleError
from .logic.objects import Object, Pair, make_list
from .logic.terms import NOT_FUNCTION_NAMES, call, disjunction, is_variable, negation, nil, variables
from .logic.theory import Theory
from .prover.obligations import block_obligations


class Function(NamedTuple):
    """A function to be defined; body and measure are terms."""

    name: str
    formals: tuple[str, ...]
    body: Object
    measure: Object


def _check_name(theory: Theory, name: Object, taken: Sequence[str]) -> None:
    if not isinstance(name, str) or name in NOT_FUNCTION_NAMES:
        raise EventError("NAME", "not a name for a function", name)
    if name in theory.arities or name in taken:
        raise EventError("NAME", "the name of a function is taken", name)


def _check_formals(formals: Sequence[Object]) -> None:
    if not all(map(is_variable, formals)) or len(set(formals)) != len(formals):
        raise EventError("FORMALS", "the formals are not distinct variables", make_list(*formals))


def _check_term(theory: Theory, t: Object, new: Mapping[str, int]) -> None:
    try:
        theory.check_term(t, "DEFINE", new)
    except RuleError as why:
        raise EventError("TERM", why.reason, why.formula) from None


def _check_variables(t: Object, allowed: Sequence[str]) -> None:
    more = [v for v in variables(t) if v not in allowed]
    if more:
        raise EventError("VARIABLES", f"{', '.join(more)} not among the formals", t)


def admit_block(theory: Theory, block: Sequence[Function]) -> list[Pair]:
    """The obligations of a block of functions, in order.  Raises EventError: NAME, FORMALS, TERM, VARIABLES, NESTED."""
    for k, function in enumerate(block):
        _check_name(theory, function.name, [f.name for f in block[:k]])
    for function in block:
        _check_formals(function.formals)
    new = {f.name: len(f.formals) for f in block}
    for function in block:
        _check_term(theory, function.body, new)
        _check_term(theory, function.measure, {})
    for function in block:
        _check_variables(function.body, function.formals)
        _check_variables(function.measure, function.formals)
    try:
        return block_obligations(block)
    except RuleError as why:
        raise EventError("NESTED", why.reason.removeprefix("NESTED: "), why.formula) from None


def admit_witness(theory: Theory, name: str, bound: str, free: Sequence[str], body: Object) -> None:
    """Raises EventError, NAME, FORMALS, TERM or VARIABLES, unless the witness is one that the program admits."""
    _check_name(theory, name, [])
    _check_formals([bound, *free])
    _check_term(theory, body, {})
    _check_variables(body, [bound, *free])


def claim(name: str) -> Pair:
    """The claim of a checker, by its name in upper case: what it accepts has a provable conclusion."""
    rest = ("AXIOMS", "THMS", "ATBL")
    provable = call("LOGIC.PROVABLEP", call("LOGIC.CONCLUSION", "X"), *rest)
    return disjunction(nil(call(name, "X", *rest)), negation(nil(provable)))


def admit_checker(theory: Theory, name: str) -> None:
    """Raises EventError, CHECKER or CLAIM, unless a book may switch to the function."""
    definition = theory.definitions.get(name)
    if definition is None or definition.bound is not None or len(definition.formals) != 4:
        raise EventError("CHECKER", "not a function with code and four arguments", name)
    if claim(name) not in theory.theorems:
        raise EventError("CLAIM", "prove first", claim(name))
