"""The machine of level 8 in Python: how many moves a computation takes, and which definitions it looks up."""
from typing import Optional

from . import tables
from .objects import Object, Pair, items, make_list
from .substitution import substitute
from .terms import (NIL, call, is_call, is_constant, is_equation, is_lambda_call, lambda_parts, left, quote, right,
                           variables)
from .theory import Test, Theory


def _reduct(theory: Theory, x: Pair, names: dict[str, None]) -> Optional[Object]:
    """What a call reduces to, or None."""
    actuals = items(x)[1:]
    if is_lambda_call(x):
        formals, body = lambda_parts(x)
        return substitute(body, dict(zip(formals, actuals)))
    if x.first in theory.primitives:
        return quote(tables.apply_primitive(x.first, [u.rest.first for u in actuals]))
    definition = theory.definitions.get(x.first)
    if definition is None or definition.bound is not None:
        return None
    names.setdefault(x.first)
    return substitute(definition.body, dict(zip(definition.formals, actuals)))


def run(theory: Theory, t: Object, most: int = 10 ** 6) -> Optional[tuple[Pair, int, list[str]]]:
    """The value of a ground term, as a constant, the moves that it takes, and the functions whose definitions are
    looked up; None where it needs a witness, or more moves."""
    stack, x, names = [], t, {}
    for moves in range(most):
        if is_constant(x):
            if not stack:
                return x, moves + 1, list(names)
            head, before, after = stack.pop()
            if head == "IF":
                x = after[1] if x is NIL else after[0]
                continue
            if after:
                stack.append((head, before + (x,), after[1:]))
                x = after[0]
                continue
            x = call(head, *before, x)
        elif is_call(x) and x.rest != "NIL":
            stack.append((x.first, (), items(x)[2:]))
            x = items(x)[1]
            continue
        x = _reduct(theory, x, names)
        if x is None:
            return None
    return None


def extras_of(theory: Theory, t: Object) -> Optional[tuple[Pair, Pair]]:
    """The value of a ground term and the extras of COMPUTE for it, or None."""
    found = run(theory, t)
    return None if found is None else (found[0], make_list(found[1], *found[2]))


def compute_test(theory: Theory) -> Test:
    """The test of COMPUTE on formulas of a theory."""
    def test(conclusion: Pair, premises: list[Pair], extras: Object) -> Optional[str]:
        members = items(extras)
        if premises or not members or not is_equation(conclusion) or variables(left(conclusion)):
            return "takes no premise, and concludes the value of a ground term"
        found = run(theory, left(conclusion))
        if found is None or found[0] is not right(conclusion):
            return "the right side is not the value of the left side"
        if not isinstance(members[0], int) or members[0] < found[1] or not set(found[2]) <= set(members[1:]):
            return "the extras do not allow for the moves"
        return None
    return test
