"""Obligations of recursions whose measure is a sum, or a lexicographic pair of sums as an ordinal.

A sum of ranks and naturals is `(+ a b)`; each of its parts falls or stays.  A lexicographic pair is the ordinal
`((1 . 1 + a) . b)`, omega times 1 + a, and then b: `lexicographic("a", "b")` is the text of its term.
"""
from typing import TYPE_CHECKING, Optional

from ..errors import RuleError
from ..logic.kernel import Proof
from ..logic.objects import Object, Pair, items
from ..logic.terms import T, call, disjunction, equation, is_call, literals, quote
from ..rules.disjunctions import subset
from ..rules.instances import instance
from .linear import linear, verify_linear
from .ranks import solve_simple, verify_decrease, verify_ranks
from .search import prove

if TYPE_CHECKING:
    from ..book import Book

ZERO, ONE = quote(0), quote(1)


def lexicographic(first: str, second: str) -> str:
    """The measure of a recursion in which the first number falls, or stays and the second falls, as text."""
    return f"(cons (cons '1 (+ '1 {first})) (+ '0 {second}))"


def verify_lexicographic(book: "Book") -> None:
    """The theorems on lexicographic pairs."""
    if "ORDP-OF-LEXICOGRAPHIC" in book.lemmas:
        return
    verify_decrease(book)
    verify_linear(book)
    one, two = lexicographic("a", "b"), lexicographic("c", "d")
    natural = [book.axiom_at(27, a=x, b=y) for x, y in (("'1", "a"), ("'0", "b"), ("'1", "c"), ("'0", "d"))]
    no_pair = [book.axiom_at(25, x=t) for t in ("(+ '1 a)", "(+ '0 b)", "(+ '1 c)", "(+ '0 d)")]
    book.prove("ORDP-OF-LEXICOGRAPHIC", f"(= (ordp {one}) 't)",
               use=[*natural, *no_pair, book.definition_at("ordp", one), book.definition_at("ordp", "(+ '0 b)"),
                    book.definition_at("ordp", "'1"), book.at("POSITIVE-SUM", b="a")])
    opened = [*natural, *no_pair, book.definition_at("ord<", one, two)]
    book.prove("ORD<-BY-FIRST", f"(implies (< a c) (= (ord< {one} {two}) 't))",
               use=[*opened, book.axiom_at(40, a="'1", b="a", c="c"), book.axiom_at(33, a="(+ '1 a)")])
    book.prove("ORD<-BY-SECOND", f"(implies (= (+ '1 a) (+ '1 c)) (< b d) (= (ord< {one} {two}) 't))",
               use=[*opened, book.definition_at("ord<", "(+ '0 b)", "(+ '0 d)"),
                    book.axiom_at(40, a="'0", b="b", c="d")])


def solve_obligation(book: "Book", obligation: Pair) -> Proof:
    """A proof of an obligation of a simple recursion, or of one with such a measure.  Raises RuleError where the
    measure is another, and Unproved where it is not seen to fall."""
    try:
        return solve_simple(book, obligation)
    except RuleError:
        return _solve(book, obligation)


def _solve(book: "Book", obligation: Pair) -> Proof:
    last = literals(obligation)[-1]
    t = items(last)[1]
    measure = items(t)[-1] if is_call(t, "ORDP") or is_call(t, "ORD<") else None
    verify_ranks(book)
    if is_call(measure, "+"):
        return _of_sum(book, obligation, t)
    pair = lexicographic_parts(measure)
    if pair is None:
        raise RuleError("DEFINE", "no measure that is known here; give proofs of the obligations by `proofs`",
                        obligation)
    return _of_pair(book, obligation, t, pair)


def lexicographic_parts(measure: Optional[Object]) -> Optional[tuple[Object, Object]]:
    """The two numbers of a lexicographic measure, or None."""
    parts = items(measure) if is_call(measure, "CONS") else ()
    if not parts or not is_call(parts[1], "CONS") or not is_call(parts[2], "+") or items(parts[2])[1] is not ZERO:
        return None
    _, exponent, coefficient = items(parts[1])
    if exponent is not ONE or not is_call(coefficient, "+") or items(coefficient)[1] is not ONE:
        return None
    return items(coefficient)[2], items(parts[2])[2]


def rank_facts(book: "Book", t: Object) -> list[Proof]:
    """For each CAR and CDR whose rank stands in a term, that it is smaller, or not larger."""
    facts, work = [], [t]
    while work:
        u = work.pop()
        if not is_call(u):
            continue
        if is_call(u, "RANK"):
            part = items(u)[1]
            while is_call(part, "CAR") or is_call(part, "CDR"):
                whole = items(part)[1]
                facts.append(instance(book.lemmas["RANK-OF-" + part.first], {"X": whole}))
                part = whole
        work += items(u)[1:]
    return facts


def _of_sum(book: "Book", obligation: Pair, t: Pair) -> Proof:
    verify_decrease(book)
    measure = items(t)[-1]
    if is_call(t, "ORDP"):
        a, b = items(measure)[1:]
        return subset(instance(book.lemmas["ORDP-OF-SUM"], {"A": a, "B": b}), obligation)
    smaller = items(t)[1]
    order = call("<", smaller, measure)
    fact = linear(book, disjunction(*literals(obligation)[:-1], equation(order, T)), rank_facts(book, smaller))
    a, b, c, d = items(smaller)[1:] + items(measure)[1:]
    same = instance(book.lemmas["ORD<-OF-SUMS"], {"A": a, "B": b, "C": c, "D": d})
    return prove(book.theory, obligation, use=[fact, same])


def _of_pair(book: "Book", obligation: Pair, t: Pair, pair: tuple[Object, Object]) -> Proof:
    verify_lexicographic(book)
    if is_call(t, "ORDP"):
        return subset(instance(book.lemmas["ORDP-OF-LEXICOGRAPHIC"], {"A": pair[0], "B": pair[1]}), obligation)
    smaller = lexicographic_parts(items(t)[1])
    place = 0 if smaller[0] is not pair[0] else 1
    order = call("<", smaller[place], pair[place])
    tests = literals(obligation)[:-1]
    fact = linear(book, disjunction(*tests, equation(order, T)), rank_facts(book, smaller[place]))
    name = ("ORD<-BY-FIRST", "ORD<-BY-SECOND")[place]
    lemma = instance(book.lemmas[name], {"A": smaller[0], "B": smaller[1], "C": pair[0], "D": pair[1]})
    return prove(book.theory, obligation, use=[fact, lemma])
