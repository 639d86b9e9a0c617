"""Sums in a normal form: `(+ '0 ..)` of their parts in order, numbers as so many ones, zeros left out."""
from typing import TYPE_CHECKING

from ..errors import RuleError
from ..logic.kernel import Proof, base_eval
from ..logic.objects import Object, items
from ..logic.terms import call, is_call, is_constant, quote, right
from ..rules.arithmetic import sorted_sum
from ..rules.equality import commute_pequal, reflexivity, replace, transitivity_of_pequal
from ..rules.instances import instance

if TYPE_CHECKING:
    from ..book import Book

ZERO, ONE = quote(0), quote(1)
MOST = 40                       # the largest number that is written as a sum of ones


def parts_of(t: Object) -> list[Object]:
    """The parts of a sum, from left to right."""
    found, work = [], [t]
    while work:
        u = work.pop()
        if is_call(u, "+"):
            work += reversed(items(u)[1:])
        else:
            found.append(u)
    return found


def weights(t: Object) -> dict[Object, int]:
    """How often each atom is a part of a sum, and as None the sum of its numbers."""
    found: dict[Object, int] = {}
    for part in parts_of(t):
        n = part.rest.first if is_constant(part) else None
        if n is None:
            found[part] = found.get(part, 0) + 1
        elif isinstance(n, int) and n > 0:
            found[None] = found.get(None, 0) + n
    return found


def _then(first: Proof, second: Proof) -> Proof:
    """t = v from t = u and u = v."""
    u, v = items(second.conclusion)[1:]
    return first if u is v else transitivity_of_pequal(first, second)


def in_ones(book: "Book", t: Object) -> Proof:
    """t = the same sum with each number of 2 and more as a sum of ones.  Raises RuleError for one above 40."""
    theory = book.theory
    if is_call(t, "+"):
        return replace(theory, "+", [in_ones(book, u) for u in items(t)[1:]])
    if not is_constant(t) or not isinstance(t.rest.first, int) or t.rest.first < 2:
        return reflexivity(theory, t)
    n = t.rest.first
    if n > MOST:
        raise RuleError("SUMS", f"a number above {MOST} in a sum", t)
    first = commute_pequal(base_eval(theory, call("+", ONE, quote(n - 1))))
    return _then(first, replace(theory, "+", [reflexivity(theory, ONE), in_ones(book, quote(n - 1))]))


def normal_sum(book: "Book", t: Object) -> Proof:
    """t = its normal form, for a sum that has '0 among its parts.  The book has SUM-WITH-ZERO."""
    theory = book.theory
    proof = in_ones(book, t)
    proof = _then(proof, sorted_sum(theory, right(proof.conclusion)))
    while True:
        u = right(proof.conclusion)                                    # zeros stand in front, by their text
        inner = items(u)[2]
        if not is_call(inner, "+") or items(inner)[1] is not ZERO:
            if inner is ZERO and items(u)[1] is ZERO:
                return _then(proof, base_eval(theory, u))
            return proof
        stripped = instance(book.lemmas["SUM-WITH-ZERO"], {"A": items(u)[1], "B": items(inner)[2]})
        proof = transitivity_of_pequal(proof, stripped)
