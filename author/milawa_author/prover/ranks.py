"""Theorems on ranks and on naturals that simple recursion rests on, and proofs of its obligations by them.

Simple recursion goes down CAR and CDR under a test CONSP, with the measure `(rank x)`, or by `(- n 1)` under the
test `(< 0 n)`, with the measure `(+ 0 n)`.  The theorems are verified in the book that first needs them.
"""
from typing import TYPE_CHECKING

from ..errors import RuleError
from ..logic.kernel import Proof
from ..logic.notation import term
from ..logic.objects import Pair, items
from ..logic.terms import call, is_call, left, literals, nil, quote
from ..rules.disjunctions import subset
from ..rules.equality import implied
from ..rules.instances import instance

if TYPE_CHECKING:
    from ..book import Book


def verify_ranks(book: "Book") -> None:
    """The theorems on RANK that recursion over lists and trees needs, and one for natural numbers."""
    if "ORDP-OF-RANK" in book.lemmas:
        return
    ax, at = book.axiom_at, book.at
    sum_is_natural = (term("(+ a b)"), ax(27))
    book.prove("NATP-OF-RANK", "(= (natp (rank x)) 't)", unfold={"RANK": "once"}, rules=[sum_is_natural])
    natural = [(term("(rank x)"), book.lemmas["NATP-OF-RANK"])]
    no_pair = [(term("(consp x)"), ax(25))]
    book.prove("ORDP-OF-RANK", "(= (ordp (rank x)) 't)", unfold={"ORDP": "once"}, rules=natural + no_pair)
    book.prove("ORD<-OF-RANKS", "(= (ord< (rank x) (rank y)) (< (rank x) (rank y)))", unfold={"ORD<": "once"},
               rules=natural + no_pair)
    book.prove("POSITIVE-SUCCESSOR", "(= (< '0 (+ b '1)) 't)", rules=[sum_is_natural],
               use=[ax(37, a="(+ b '1)"), ax(42, a="b"), ax(36, a="b")])
    book.prove("LESS-THAN-SUM", "(implies (natp a) (= (< a (+ '1 (+ a b))) 't))",
               use=[ax(28, a="'1", b="(+ a b)"), ax(29, a="a", b="b", c="'1"), ax(40, a="a", b="'0", c="(+ b '1)"),
                    at("POSITIVE-SUCCESSOR"), ax(30, a="a")])
    for part, other in (("car", "cdr"), ("cdr", "car")):
        swap = [] if part == "car" else [ax(28, a="(rank (car x))", b="(rank (cdr x))")]
        book.prove(f"RANK-OF-{part.upper()}", f"(implies (consp x) (= (< (rank ({part} x)) (rank x)) 't))",
                   unfold={"RANK": "once"},
                   use=swap + [at("NATP-OF-RANK", x=f"({part} x)"),
                               at("LESS-THAN-SUM", a=f"(rank ({part} x))", b=f"(rank ({other} x))")])
        book.prove(f"ORD<-OF-{part.upper()}", f"(implies (consp x) (= (ord< (rank ({part} x)) (rank x)) 't))",
                   use=[at(f"RANK-OF-{part.upper()}"), at("ORD<-OF-RANKS", x=f"({part} x)", y="x")])
    for part, number in (("car", 12), ("cdr", 13)):
        book.prove(f"ORD<-CHAIN-{part.upper()}",
                   f"(or (!= (ord< (rank y) (rank x)) 't) (= (ord< (rank ({part} y)) (rank x)) 't))",
                   unfold=["RANK"],
                   use=[at("ORD<-OF-RANKS", x="y", y="x"), at("ORD<-OF-RANKS", x=f"({part} y)", y="x"),
                        at(f"RANK-OF-{part.upper()}", x="y"),
                        ax(34, a=f"(rank ({part} y))", b="(rank y)", c="(rank x)"), ax(number, x="y"),
                        rank_of_atom(book, "Y")])


def rank_of_atom(book: "Book", variable: str) -> Proof:
    """(consp x) != nil or (rank x) = 0, for the variable."""
    if "RANK-OF-ATOM" not in book.lemmas:
        book.prove("RANK-OF-ATOM", "(or (consp x) (= (rank x) '0))", unfold={"RANK": "once"})
    return book.at("RANK-OF-ATOM", x=variable)


def verify_decrease(book: "Book") -> None:
    """The theorems for recursion by `(- n 1)` with the measure `(+ 0 n)`."""
    if "ORD<-OF-DECREASE" in book.lemmas:
        return
    ax, at = book.axiom_at, book.at
    no_pair = [(term("(consp x)"), ax(25)), (term("(+ a b)"), ax(27))]
    book.prove("ORDP-OF-SUM", "(= (ordp (+ a b)) 't)", unfold={"ORDP": "once"}, rules=no_pair)
    book.prove("ORD<-OF-SUMS", "(= (ord< (+ a b) (+ c d)) (< (+ a b) (+ c d)))", unfold={"ORD<": "once"}, rules=no_pair)
    book.prove("LESS-BY-ONE", "(implies (= (< '0 n) 't) (= (< (- n '1) n) 't))",
               use=[ax(39, a="'0", b="n"), ax(35, a="'1", b="n"), ax(41, a="'0", b="n"), ax(49, a="n", b="'1"),
                    ax(42, a="(- n '1)"), ax(28, a="'1", b="(- n '1)")])
    book.prove("ORD<-OF-DECREASE", "(implies (< '0 n) (= (ord< (+ '0 (- n '1)) (+ '0 n)) 't))",
               use=[at("ORD<-OF-SUMS", a="'0", b="(- n '1)", c="'0", d="n"),
                    ax(40, a="'0", b="(- n '1)", c="n"), book.lemmas["LESS-BY-ONE"]])


def solve_simple(book: "Book", obligation: Pair) -> Proof:
    """A proof of an obligation of a simple recursion.  Raises RuleError where it is none."""
    last = literals(obligation)[-1]
    t = left(last)
    if is_call(t, "ORDP") or is_call(t, "ORD<"):
        measure = items(t)[-1]
        if is_call(measure, "RANK"):
            verify_ranks(book)
            return subset(_rank_proof(book, obligation, t), obligation)
        if is_call(measure, "+") and items(measure)[1] is quote(0):
            verify_decrease(book)
            n = items(measure)[2]
            if is_call(t, "ORDP"):
                return instance(book.lemmas["ORDP-OF-SUM"], {"A": quote(0), "B": n})
            return subset(instance(book.lemmas["ORD<-OF-DECREASE"], {"N": n}), obligation)
    raise RuleError("DEFINE", "not a simple recursion", obligation)


def _rank_proof(book: "Book", obligation: Pair, t: Pair) -> Proof:
    whole = items(items(t)[-1])[1]
    if is_call(t, "ORDP"):
        return instance(book.lemmas["ORDP-OF-RANK"], {"X": whole})
    part, steps = items(items(t)[1])[1], []
    while part is not whole and is_call(part) and part.first in ("CAR", "CDR"):
        steps.append(part.first)
        part = items(part)[1]
    if part is not whole or not steps or nil(call("CONSP", whole)) not in literals(obligation):
        raise RuleError("DEFINE", "no part of the argument under a test CONSP; give proofs by `proofs`", obligation)
    inner = steps.pop()
    proof = instance(book.lemmas["ORD<-OF-" + inner], {"X": whole})
    part = call(inner, whole)
    while steps:
        outer = steps.pop()
        chain = instance(book.lemmas["ORD<-CHAIN-" + outer], {"Y": part, "X": whole})
        proof = implied(proof, chain)
        part = call(outer, part)
    return proof
