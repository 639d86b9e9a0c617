"""Proofs of what holds by NOT and OR alone, by cases upon the equations.

The program's command `taut` does the same, with shorter proofs; this one is for use inside a larger proof.
"""
from typing import Optional

from ..errors import RuleError
from ..limits import within_depth
from ..logic.kernel import Proof, contraction, cut, propositional_schema
from ..logic.objects import Pair
from ..logic.terms import disjunction, is_disjunction, is_negation, left, negation, right
from ..logic.theory import Theory
from .disjunctions import subset
from .propositional import (commute_or, disjoined_insert_neg_neg, disjoined_left_expansion, disjoined_right_expansion,
                            merge_implications)

Choice = dict[Pair, bool]


def equations(formula: Pair) -> list[Pair]:
    """The equations of a formula, each once, from left to right."""
    found, work = {}, [formula]
    while work:
        f = work.pop()
        if is_disjunction(f):
            work += [right(f), left(f)]
        elif is_negation(f):
            work.append(left(f))
        else:
            found.setdefault(f)
    return list(found)


def value(f: Pair, choice: Choice) -> Optional[bool]:
    """The value of a formula where some of its equations have one, or None where it is open."""
    if is_negation(f):
        v = value(left(f), choice)
        return None if v is None else not v
    if is_disjunction(f):
        a, b = value(left(f), choice), value(right(f), choice)
        return True if a or b else None if a is None or b is None else False
    return choice.get(f)


def _decided(theory: Theory, f: Pair, want: bool, choice: Choice, context: Pair) -> Proof:
    """`context or f`, or `context or not f`, where the choice decides f.  The context is the disjunction of the
    literals that the choice makes false."""
    if is_negation(f):
        inner = _decided(theory, left(f), not want, choice, context)
        return inner if want else disjoined_insert_neg_neg(inner)
    if is_disjunction(f):
        a, b = left(f), right(f)
        if not want:
            one, two = (_decided(theory, x, False, choice, context) for x in (a, b))
            return commute_or(merge_implications(commute_or(one), commute_or(two)))
        if value(a, choice):
            return disjoined_right_expansion(_decided(theory, a, True, choice, context), b)
        return disjoined_left_expansion(_decided(theory, b, True, choice, context), a)
    schema = propositional_schema(theory, f)                            # not f or f
    literal = f if want else negation(f)
    proof = commute_or(schema) if want else schema                      # literal or its opposite
    return commute_or(subset(proof, disjunction(literal, context)))


@within_depth
def tautology(theory: Theory, goal: Pair) -> Proof:
    """A proof of a tautology.  Takes up to 2^n cases for n equations.  Raises RuleError, naming a choice of values
    for the equations, where the goal is none."""
    def cases(open_ones: list[Pair], choice: Choice, falsified: list[Pair]) -> Proof:
        v = value(goal, choice)
        if v is False:
            true = ", ".join(str(e) for e, chosen in choice.items() if chosen)
            raise RuleError("TAUTOLOGY", f"false where of its equations just these hold: {true or 'none'}", goal)
        if v is True:
            return _decided(theory, goal, True, choice, disjunction(*falsified))        # context or goal
        e, others = open_ones[0], open_ones[1:]
        one = cases(others, {**choice, e: False}, [e] + falsified)
        two = cases(others, {**choice, e: True}, [negation(e)] + falsified)
        rest = disjunction(*falsified, goal)
        one, two = subset(one, disjunction(e, rest)), subset(two, disjunction(negation(e), rest))
        return contraction(cut(one, two))

    theory.check_formula(goal, "TAUTOLOGY")
    return cases(equations(goal), {}, [])
