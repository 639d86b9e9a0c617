"""Two rules over whole disjunctions: SUBSET, which orders and extends their parts, and RESOLVE, which cuts two
of them upon a literal anywhere in them.

The parts of a disjunction are its subformulas along its ORs, itself among them.
"""
from collections.abc import Callable
from typing import Optional

from ..errors import RuleError
from ..limits import within_depth
from ..logic.kernel import Proof, associativity, contraction, cut, expansion, further, propositional_schema
from ..logic.objects import Object, Pair, make_list
from ..logic.terms import disjunction, is_disjunction, left, literals, negation, right
from ..logic.theory import Theory
from .propositional import (commute_or, disjoined_left_expansion, disjoined_right_expansion, merge_implications,
                            modus_ponens, modus_ponens_2, right_associativity, right_expansion)
from .schemes import rule


def parts(c: Pair) -> set[Pair]:
    """All parts of a disjunction."""
    found, work = set(), [c]
    while work:
        f = work.pop()
        if f not in found:
            found.add(f)
            if is_disjunction(f):
                work += [left(f), right(f)]
    return found


def is_inside(a: Pair, c: Pair) -> bool:
    """Is a one of the parts of c?"""
    work = [c]
    while work:
        f = work.pop()
        if f is a:
            return True
        if is_disjunction(f):
            work += [right(f), left(f)]
    return False


def missing_part(a: Pair, c: Pair) -> Optional[Pair]:
    """A part of the disjunction a that c lacks, or None: then c covers a."""
    there, seen, work = parts(c), set(), [a]
    while work:
        f = work.pop()
        if f in there or f in seen:
            continue
        if not is_disjunction(f):
            return f
        seen.add(f)
        work += [right(f), left(f)]
    return None


def covers(a: Pair, c: Pair) -> bool:
    """Is each part of the disjunction a a part of c?"""
    return missing_part(a, c) is None


def inside_implication(theory: Theory, a: Pair, c: Pair) -> Proof:
    """`not a or c`, where a is a part of c."""
    path = []
    while a is not c:
        is_right = is_inside(a, right(c))
        path.append((is_right, left(c) if is_right else right(c)))
        c = right(c) if is_right else left(c)
    proof = propositional_schema(theory, a)
    for is_right, other in reversed(path):
        proof = (disjoined_left_expansion if is_right else disjoined_right_expansion)(proof, other)
    return proof


@within_depth
def subset_implication(theory: Theory, a: Pair, c: Pair) -> Proof:
    """`not a or c`, where c covers a."""
    def implication(a: Pair) -> Proof:
        if a in there:
            return inside_implication(theory, a, c)
        return merge_implications(implication(left(a)), implication(right(a)))

    there = parts(c)
    return implication(a)


def _shortcut(a: Pair, c: Pair) -> Optional[Callable[[Proof], Proof]]:
    """A short way from a to c, or None: the rules that reorder at the top."""
    if is_disjunction(c) and right(c) is a:
        return lambda p: expansion(left(c), p)
    if is_disjunction(c) and left(c) is a:
        return lambda p: right_expansion(p, right(c))
    if not is_disjunction(a):
        return None
    if left(a) is right(a) is c:
        return contraction
    if is_disjunction(c):
        if left(c) is right(a) and right(c) is left(a):
            return commute_or
        if is_disjunction(right(a)) and c is disjunction(disjunction(left(a), left(right(a))), right(right(a))):
            return associativity
        if is_disjunction(left(a)) and c is disjunction(left(left(a)), right(left(a)), right(a)):
            return right_associativity
    return None


def subset(proof: Proof, c: Pair) -> Proof:
    """From a disjunction, another that has all its parts, in any order.  Raises RuleError, naming a part that
    is missing."""
    a, theory = proof.conclusion, proof.theory
    if a is c:
        return proof
    short = _shortcut(a, c)
    if short is not None:
        return short(proof)
    lost = missing_part(a, c)
    if lost is not None:
        raise RuleError("SUBSET", "the conclusion has no part", lost)
    if "SUBSET" in theory.methods:
        return further(theory, "SUBSET", c, [proof])
    return modus_ponens(proof, subset_implication(theory, a, c))


def under(proof: Proof, b: Pair) -> Proof:
    """From `P or A`, `P or B`, where B covers A."""
    p, a = left(proof.conclusion), right(proof.conclusion)
    if "SUBSET" in proof.theory.methods:
        return subset(proof, disjunction(p, b))
    return cut(commute_or(proof), subset_implication(proof.theory, a, b))


@rule("(por* p (por* (por* a b) c))", gives="(por* p (por* a (por* b c)))")
def disjoined_right_associativity(proof: Proof, a: Object, b: Object, c: Object) -> Proof:
    return under(proof, disjunction(a, b, c))


@rule("(por* p (por* a (por* b c)))", gives="(por* p (por* (por* a b) c))")
def disjoined_associativity(proof: Proof, a: Object, b: Object, c: Object) -> Proof:
    return under(proof, disjunction(disjunction(a, b), c))


@within_depth
def without(formula: Pair, literal: Pair) -> Optional[Pair]:
    """A disjunction without its parts equal to the literal, or None where nothing is left."""
    def go(f: Pair) -> Optional[Pair]:
        if f is literal:
            return None
        if not is_disjunction(f) or not is_inside(literal, f):
            return f
        a, b = go(left(f)), go(right(f))
        return b if a is None else a if b is None else disjunction(a, b)
    return go(formula)


def resolve(first: Proof, second: Proof, literal: Pair) -> Proof:
    """From a disjunction with the literal and one with its negation, the rest of both.  Raises RuleError where
    the literal does not stand in both, or nothing is left."""
    f, g, theory = first.conclusion, second.conclusion, first.theory
    opposite = negation(literal)
    if not is_inside(literal, f) or not is_inside(opposite, g):
        raise RuleError("RESOLVE", "the first lacks the literal, or the second its negation", literal)
    a, b = without(f, literal), without(g, opposite)
    if a is None and b is None:
        raise RuleError("RESOLVE", "nothing is left", literal)
    if a is None:
        return modus_ponens(first, subset(second, disjunction(opposite, b)))
    if b is None:
        return modus_ponens_2(second, subset(first, disjunction(literal, a)))
    merged = disjunction(*literals(a), *[x for x in literals(b) if not is_inside(x, a)])
    if "RESOLVE" in theory.methods:
        return further(theory, "RESOLVE", merged, [first, second], make_list(literal))
    proof = cut(subset(first, disjunction(literal, a)), subset(second, disjunction(opposite, b)))
    return subset(proof, merged)
