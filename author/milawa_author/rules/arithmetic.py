"""Sums: equality of two sums up to order and grouping, from axioms 28 and 29."""
from ..errors import RuleError
from ..limits import within_depth
from ..logic.kernel import Proof, theorem
from ..logic.notation import formula
from ..logic.objects import Object, items
from ..logic.terms import call, equation, is_call, right
from ..logic.text import write
from ..logic.theory import Theory
from .equality import commute_pequal, reflexivity, replace, transitivity_of_pequal
from .instances import instance, primitive_axiom

LEFT_COMMUTE = formula("(= (+ a (+ b c)) (+ b (+ a c)))")


def left_commute(theory: Theory) -> Proof:
    """(+ a (+ b c)) = (+ b (+ a c))."""
    if LEFT_COMMUTE in theory.theorems:
        return theorem(theory, LEFT_COMMUTE)
    group = commute_pequal(primitive_axiom(theory, 29))                         # (+ a (+ b c)) = (+ (+ a b) c)
    swap = replace(theory, "+", [primitive_axiom(theory, 28), reflexivity(theory, "C")])
    back = primitive_axiom(theory, 29, a="B", b="A")
    return transitivity_of_pequal(transitivity_of_pequal(group, swap), back)


def _then(proof: Proof, following: Proof) -> Proof:
    """t = v from t = u and u = v; one of equal sides adds no step."""
    (t, u), (_, v) = items(proof.conclusion)[1:], items(following.conclusion)[1:]
    return proof if u is v else following if t is u else transitivity_of_pequal(proof, following)


def _insert(theory: Theory, x: Object, n: Object) -> Proof:
    """(+ x n) = the sorted sum, for a sorted sum n."""
    if is_call(n, "+"):
        y, m = items(n)[1:]
        if write(x) <= write(y):
            return reflexivity(theory, call("+", x, n))
        swap = instance(left_commute(theory), {"A": x, "B": y, "C": m})
        return _then(swap, replace(theory, "+", [reflexivity(theory, y), _insert(theory, x, m)]))
    if write(x) <= write(n):
        return reflexivity(theory, call("+", x, n))
    return primitive_axiom(theory, 28, a=x, b=n)


def _merge(theory: Theory, a: Object, b: Object) -> Proof:
    """(+ a b) = the sorted sum, for two sorted sums."""
    if not is_call(a, "+"):
        return _insert(theory, a, b)
    x, y = items(a)[1:]
    group = primitive_axiom(theory, 29, a=x, b=y, c=b)
    inner = _merge(theory, y, b)
    proof = _then(group, replace(theory, "+", [reflexivity(theory, x), inner]))
    return _then(proof, _insert(theory, x, right(inner.conclusion)))


@within_depth
def sorted_sum(theory: Theory, t: Object) -> Proof:
    """t = the sum of its parts, sorted by their text and grouped to the right."""
    if not is_call(t, "+"):
        return reflexivity(theory, t)
    a, b = [sorted_sum(theory, u) for u in items(t)[1:]]
    return _then(replace(theory, "+", [a, b]), _merge(theory, right(a.conclusion), right(b.conclusion)))


def equal_sums(theory: Theory, t: Object, u: Object) -> Proof:
    """t = u, for two sums with the same parts.  Raises RuleError where they have other parts."""
    one, two = sorted_sum(theory, t), sorted_sum(theory, u)
    if right(one.conclusion) is not right(two.conclusion):
        raise RuleError("EQUAL-SUMS", "sums of different parts", equation(t, u))
    return _then(one, commute_pequal(two))
