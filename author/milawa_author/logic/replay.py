"""Proofs that are given as objects: each step is made again by the kernel."""
from collections.abc import Callable

from ..errors import RuleError
from . import kernel
from .kernel import Proof
from .objects import Object, Pair, items, member
from .substitution import substitution_of
from .terms import (Substitution, is_call, is_disjunction, is_equation, is_lambda_call, is_variable, left, right)
from .theory import Theory


def replay(theory: Theory, proof: Object) -> Proof:
    """The proof that an object stands for.  Raises RuleError where a step of it is none by the twelve methods."""
    made: dict[Pair, Proof] = {}
    work = [proof]
    while work:
        p = work[-1]
        if isinstance(p, Pair) and p in made:
            work.pop()
            continue
        subproofs = _subproofs(p)
        missing = [q for q in subproofs if not isinstance(q, Pair) or q not in made]
        if missing:
            work += reversed(missing)
            continue
        made[p] = _step(theory, p, [made[q] for q in subproofs])
        work.pop()
    return made[proof]


def _subproofs(p: Object) -> tuple:
    members = items(p)
    if members is None or not 2 <= len(members) <= 4:
        raise RuleError("PROOF", "a proof is a list of two to four members", p)
    subproofs = items(member(p, 2))
    if subproofs is None:
        raise RuleError("PROOF", "the subproofs are not a list", p)
    return subproofs


def _step(theory: Theory, p: Pair, subproofs: list[Proof]) -> Proof:
    method, conclusion, extras = member(p, 0), member(p, 1), member(p, 3)
    theory.check_formula(conclusion, "PROOF")
    step = _STEPS.get(method)
    if step is None or len(subproofs) != step[0] and step[0] is not None:
        raise RuleError("PROOF", "there is no method of that name and that number of subproofs", p)
    if extras != "NIL" and method not in ("INSTANTIATION", "INDUCTION"):
        raise RuleError("PROOF", f"{method} takes no extras", p)
    proof = step[1](theory, conclusion, subproofs, extras)
    if proof.conclusion is not conclusion:
        raise RuleError("PROOF", f"{method} gives another conclusion", proof.conclusion)
    return proof


def _schema(theory: Theory, conclusion: Pair, subproofs: list[Proof], extras: Object) -> Proof:
    _want(is_disjunction(conclusion), conclusion)
    return kernel.propositional_schema(theory, right(conclusion))


def _functional_equality(theory: Theory, conclusion: Pair, subproofs: list[Proof], extras: Object) -> Proof:
    last = conclusion
    while is_disjunction(last):
        last = right(last)
    _want(is_equation(last) and is_call(left(last)) and is_call(right(last)), conclusion)
    lefts, rights = items(left(last)), items(right(last))
    _want(lefts[0] == rights[0], conclusion)
    return kernel.functional_equality(theory, lefts[0], lefts[1:], rights[1:])


def _of_left_side(method: Callable[[Theory, Pair], Proof]) -> Callable:
    def step(theory: Theory, conclusion: Pair, subproofs: list[Proof], extras: Object) -> Proof:
        _want(is_equation(conclusion) and (is_call(left(conclusion)) or is_lambda_call(left(conclusion))), conclusion)
        return method(theory, left(conclusion))
    return step


def _expansion(theory: Theory, conclusion: Pair, subproofs: list[Proof], extras: Object) -> Proof:
    _want(is_disjunction(conclusion), conclusion)
    return kernel.expansion(left(conclusion), subproofs[0])


def _substitution(theory: Theory, x: Object) -> Substitution:
    found = substitution_of(x)
    _want(found is not None, x)
    for pair in items(x):
        _want(is_variable(pair.first), x)
        theory.check_term(pair.rest, "PROOF")
    return found


def _instantiation(theory: Theory, conclusion: Pair, subproofs: list[Proof], extras: Object) -> Proof:
    return kernel.instantiation(subproofs[0], _substitution(theory, extras))


def _induction(theory: Theory, conclusion: Pair, subproofs: list[Proof], extras: Object) -> Proof:
    members = items(extras)
    _want(members is not None and len(members) == 3, conclusion)
    conditions, lists = items(members[1]), items(members[2])
    _want(conditions is not None and lists is not None and len(conditions) == len(lists), conclusion)
    theory.check_term(members[0], "PROOF")
    cases = []
    for q, substitutions in zip(conditions, lists):
        theory.check_formula(q, "PROOF")
        _want(items(substitutions) is not None, conclusion)
        cases.append((q, [_substitution(theory, s) for s in items(substitutions)]))
    return kernel.induction(conclusion, members[0], cases, subproofs)


def _want(holds: bool, x: Object) -> None:
    if not holds:
        raise RuleError("PROOF", "a step is not of the form that its method wants", x)


# The number of subproofs of each method (None: it is looked at with the premises), and what makes the step.
_STEPS = {
    "AXIOM": (0, lambda theory, conclusion, subproofs, extras: kernel.axiom(theory, conclusion)),
    "THEOREM": (0, lambda theory, conclusion, subproofs, extras: kernel.theorem(theory, conclusion)),
    "PROPOSITIONAL-SCHEMA": (0, _schema),
    "FUNCTIONAL-EQUALITY": (0, _functional_equality),
    "BETA-REDUCTION": (0, _of_left_side(kernel.beta_reduction)),
    "BASE-EVAL": (0, _of_left_side(kernel.base_eval)),
    "EXPANSION": (1, _expansion),
    "CONTRACTION": (1, lambda theory, conclusion, subproofs, extras: kernel.contraction(subproofs[0])),
    "ASSOCIATIVITY": (1, lambda theory, conclusion, subproofs, extras: kernel.associativity(subproofs[0])),
    "CUT": (2, lambda theory, conclusion, subproofs, extras: kernel.cut(*subproofs)),
    "INSTANTIATION": (1, _instantiation),
    "INDUCTION": (None, _induction),
}
