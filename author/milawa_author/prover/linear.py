"""Linear facts over + and <: what follows by adding up inequalities.

`linear(book, goal)` proves a disjunction of literals `(< a b) = 't`, `(< a b) = 'nil`, `a = b` and their denials.  It
assumes that none holds, which gives inequalities; `certificate` finds how often each has to be taken, so that the
left sides exceed the right sides; and the sum is a contradiction.  What is neither a sum nor a number is an atom.  A
goal `a = b` holds of naturals alone: that its sides are naturals must follow from the goal and the lemmas.
"""
from collections.abc import Iterable
from itertools import product
from typing import TYPE_CHECKING, NamedTuple, Optional

from ..errors import Unproved
from ..logic.kernel import Proof
from ..logic.notation import as_formula, term
from ..logic.objects import Object, Pair, items
from ..logic.terms import (NIL, T, call, disjunction, is_call, is_equation, is_negation, left, literals,
                           negation, nil, quote, right)
from ..rules.arithmetic import LEFT_COMMUTE, left_commute
from ..rules.disjunctions import resolve, subset
from ..rules.equality import commute_pequal, transitivity_of_pequal
from ..rules.instances import instance, primitive_axiom
from .search import prove
from .sums import normal_sum, weights

if TYPE_CHECKING:
    from ..book import Book

ONE = quote(1)
MOST_ROWS = 2000                # inequalities that the elimination makes before it gives up


class AtMost(NamedTuple):
    """`small <= large`, as `(< large small) = 'nil`; `bridges` are instances of axioms from which it follows."""

    small: Object
    large: Object
    bridges: tuple[Proof, ...] = ()


class Row(NamedTuple):
    """A sum of inequalities: how much larger its left sides are, by atom (None for the number), and how often each
    inequality was taken."""

    excess: dict[Object, int]
    taken: dict[int, int]


def verify_linear(book: "Book") -> None:
    """The theorems on sums and order from which linear facts follow."""
    if "AT-MOST-OF-SUMS" in book.lemmas:
        return
    ax, at = book.axiom_at, book.at
    if LEFT_COMMUTE not in book.theory.theorems:
        book.verify("PLUS-LEFT-COMMUTE", left_commute(book.theory))
    order = [ax(n, a=a, b=b) for a in "abc" for b in "abc" if a != b for n in (35, 38, 39)]
    book.prove("AT-MOST-IS-TRANSITIVE", "(implies (= (< b a) 'nil) (= (< c b) 'nil) (= (< c a) 'nil))", splits=200,
               use=[*order, ax(34, a="c", b="a", c="b"), ax(34, a="b", b="c", c="a"), *[ax(37, a=a) for a in "abc"],
                    ax(36, a="b"), ax(34, a="'0", b="c", c="a")])
    book.prove("LESS-OF-SUMS", "(= (< (+ b a) (+ c a)) (< b c))",
               use=[ax(40), ax(28, a="b", b="a"), ax(28, a="c", b="a")])
    book.prove("AT-MOST-OF-SUMS", "(implies (= (< b a) 'nil) (= (< d c) 'nil) (= (< (+ b d) (+ a c)) 'nil))",
               use=[ax(40, a="b", b="d", c="c"), at("LESS-OF-SUMS", a="c", b="b", c="a"),
                    at("AT-MOST-IS-TRANSITIVE", a="(+ a c)", b="(+ b c)", c="(+ b d)")])
    book.prove("SUM-WITH-ZERO", "(= (+ a (+ '0 b)) (+ a b))",
               use=[ax(28, a="'0", b="b"), ax(30, a="b"), ax(31, a="b", b="'0"), ax(31, a="b", b="a"),
                    ax(28, a="a", b="b"), ax(28, a="a", b="'0"), ax(28, a="a", b="(+ '0 '0)")])
    book.prove("POSITIVE-SUM", "(= (< '0 (+ '1 b)) 't)",
               use=[ax(37, a="(+ '1 b)"), ax(27, a="'1", b="b"), ax(42, a="b"), ax(36, a="b"), ax(28, a="'1", b="b")])
    book.prove("LESS-THAN-MORE", "(= (< a (+ a (+ '1 b))) 't)",
               use=[at("POSITIVE-SUM"), ax(40, a="a", b="'0", c="(+ '1 b)"), ax(30, a="a"), ax(31, a="a", b="'0"),
                    ax(38, a="a", b="(+ a (+ '1 b))")])


def linear(book: "Book", goal: str | Pair, use: Iterable[Proof] = ()) -> Proof:
    """A proof of a disjunction by linear arithmetic.  `use` has lemmas: those that end in a literal on < or an equation
    are among the inequalities, and all are taken for the rest, as that terms are naturals.  Of a difference
    `(- a b)` that stands in the goal or a lemma the two cases are looked at.

    Raises Unproved where the inequalities do not contradict each other."""
    verify_linear(book)
    goal, use = as_formula(goal), list(use)
    book.theory.check_formula(goal, "LINEAR")
    known = literals(goal) + [negation(literals(p.conclusion)[-1]) for p in use]
    assumed = [row for literal in known for row in assumptions(book, literal)]
    sides = [(left(f), right(f)) for f in literals(goal) if _has_sides(f)]
    differences = [[_apart(book, t), _together(book, t)] for t in _differences([goal, *[p.conclusion for p in use]])]
    order = [[[less(book, a, b)], [less(book, b, a)]] for a, b in sides[:1]]
    cases = [sum(case, []) for case in product(*differences, *order)]
    clauses = [refutation(book, goal, assumed + case) for case in cases]
    bridges = [proof for case in cases for row in assumed + case for proof in row.bridges]
    trichotomy = [primitive_axiom(book.theory, 35, a=a, b=b) for a, b in sides]
    naturals = [(term("(+ a b)"), book.axiom_at(27)), (term("(- a b)"), book.axiom_at(43))]
    return prove(book.theory, goal, use=[*clauses, *bridges, *trichotomy, *use], rules=naturals, splits=200)


def _has_sides(f: Pair) -> bool:
    """Is it an equation of two numbers, which are not truth values?"""
    return is_equation(f) and not is_call(left(f), "<") and right(f) is not T and right(f) is not NIL


def _differences(formulas: list[Pair]) -> list[Pair]:
    """The calls of - among the parts of the sums, and in what is subtracted there, that stand in literals on <."""
    found: dict[Pair, None] = {}
    work = [t for f in formulas for literal in literals(f) for t in _numbers(literal)]
    while work:
        for part in weights(work.pop()):
            if is_call(part, "-") and part not in found:
                found[part] = None
                work += items(part)[1:]
    return list(found)


def _numbers(literal: Pair) -> list[Object]:
    """The sides of a literal on < or of an equation of numbers."""
    f = left(literal) if is_negation(literal) else literal
    if not is_equation(f):
        return []
    return list(items(left(f))[1:]) if is_call(left(f), "<") else [left(f), right(f)] if _has_sides(f) else []


def _apart(book: "Book", t: Pair) -> list[AtMost]:
    """The case of `(- a b)` in which b < a: then `b + (- a b) = a`."""
    a, b = items(t)[1:]
    whole = call("+", b, t)
    fact = primitive_axiom(book.theory, 49, a=a, b=b)
    same = tuple(primitive_axiom(book.theory, 33, a=u) for u in (whole, a))
    return [less(book, b, a), AtMost(whole, a, (fact, *same)), AtMost(a, whole)]


def _together(book: "Book", t: Pair) -> list[AtMost]:
    """The case in which not b < a: then it is 0."""
    a, b = items(t)[1:]
    fact = primitive_axiom(book.theory, 48, a=a, b=b)
    return [AtMost(a, b), AtMost(t, quote(0), (fact, primitive_axiom(book.theory, 33, a=quote(0))))]


def less(book: "Book", a: Object, b: Object) -> AtMost:
    """`a < b`, as `a + 1 <= b`."""
    return AtMost(call("+", a, ONE), b, (primitive_axiom(book.theory, 41, a=a, b=b),))


def assumptions(book: "Book", literal: Pair) -> list[AtMost]:
    """The inequalities that hold where a literal does not."""
    holds = is_negation(literal)
    f = left(literal) if holds else literal
    if not is_equation(f):
        return []
    a, b = left(f), right(f)
    if is_call(a, "<") and b in (T, NIL):
        x, y = items(a)[1:]
        return [less(book, x, y) if holds == (b is T) else AtMost(y, x)]
    if holds and b is not T and b is not NIL:
        same = tuple(primitive_axiom(book.theory, 33, a=t) for t in (a, b))
        return [AtMost(a, b, same), AtMost(b, a, same)]
    return []


def certificate(rows: list[AtMost]) -> Optional[dict[int, int]]:
    """How often each inequality is taken, so that the left sides together exceed the right sides; None where that
    is not found.  One atom after another is eliminated; each atom is 0 at least."""
    work = []
    for k, row in enumerate(rows):
        excess = dict(weights(row.small))
        for atom, n in weights(row.large).items():
            excess[atom] = excess.get(atom, 0) - n
        work.append(Row({a: n for a, n in excess.items() if n}, {k: 1}))
    while True:
        for row in work:
            if row.excess.get(None, 0) > 0 and all(n > 0 for n in row.excess.values()):
                return row.taken
        atoms = [a for row in work for a, n in row.excess.items() if n < 0 and a is not None]
        if not atoms or len(work) > MOST_ROWS:
            return None
        atom = min(dict.fromkeys(atoms), key=atoms.count)
        work = _without(atom, work)


def _without(atom: Object, rows: list[Row]) -> list[Row]:
    """The rows that follow without an atom; one that has it on the left alone goes on without it."""
    result = []
    for row in rows:
        n = row.excess.get(atom, 0)
        if n >= 0:
            result.append(Row({a: m for a, m in row.excess.items() if a is not atom}, row.taken))
            continue
        for other in rows:
            m = other.excess.get(atom, 0)
            if m > 0:
                result.append(Row(_combined(row.excess, m, other.excess, -n, atom),
                                  _combined(row.taken, m, other.taken, -n)))
    return result


def _combined(one: dict, n: int, two: dict, m: int, atom: Object = ()) -> dict:
    total = {key: n * value for key, value in one.items()}
    for key, value in two.items():
        total[key] = total.get(key, 0) + m * value
    return {key: value for key, value in total.items() if value and key is not atom}


def refutation(book: "Book", goal: Pair, rows: list[AtMost]) -> Proof:
    """The clause that some inequalities do not all hold.  Raises Unproved where they may."""
    taken = certificate(rows)
    if taken is None:
        text = "\n".join(f"  {row.small} <= {row.large}" for row in rows)
        raise Unproved("LINEAR", f"no contradiction in\n{text}\nand the goal", goal)
    chosen = [rows[k] for k, n in taken.items() for _ in range(n)]
    small, large, total = chosen[0].small, chosen[0].large, None
    for row in chosen[1:]:
        lemma = instance(book.lemmas["AT-MOST-OF-SUMS"], {"A": small, "B": large, "C": row.small, "D": row.large})
        if total is None:
            total = lemma
        else:
            total = resolve(total, lemma, nil(call("<", large, small)))
        small, large = call("+", small, row.small), call("+", large, row.large)
    last = nil(call("<", large, small))
    opposite = contradiction(book, small, large)
    if total is None:
        return opposite
    clause = disjunction(*[f for f in literals(total.conclusion) if f is not last], last)
    return resolve(subset(total, clause), opposite, last)


def contradiction(book: "Book", small: Object, large: Object) -> Proof:
    """`(< large small) != 'nil`, for two sums of which the second has all parts of the first and one more."""
    theory = book.theory
    shifted = primitive_axiom(theory, 40, a=quote(0), b=large, c=small)       # both sides with 0 added
    parts = weights(small)
    for atom, n in weights(large).items():
        parts[atom] = parts.get(atom, 0) - n
    rest = [a for a, n in parts.items() if a is not None for _ in range(n)] + [ONE] * (parts.get(None, 0) - 1)
    more = quote(0)
    for part in reversed(rest):
        more = call("+", part, more)
    zero_large = call("+", quote(0), large)
    wanted = call("+", zero_large, call("+", ONE, more))
    fact = instance(book.lemmas["LESS-THAN-MORE"], {"A": zero_large, "B": more})
    one, two = normal_sum(book, wanted), normal_sum(book, call("+", quote(0), small))
    same = one if right(one.conclusion) is wanted else transitivity_of_pequal(one, commute_pequal(two))
    return prove(theory, negation(nil(call("<", large, small))), use=[shifted, fact, same])
