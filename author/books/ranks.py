"""The source of books/ranks.book: theorems on ranks, up to the two obligations of a recursion down CDR.

    python3 author/books/ranks.py

It writes a book with the same theorems in the same order.  The proofs are found here, those of books/ranks.book were
made by hand; `prover.ranks` has more theorems of this kind, which `Book.define` makes where it needs them.
"""
import os
import sys

sys.path.insert(0, os.path.join(os.path.dirname(os.path.abspath(__file__)), ".."))

from milawa_author import Book, term  # noqa: E402
from milawa_author.rules.equality import symmetry_lemma, transitivity_lemma  # noqa: E402


def add_ranks(book: Book) -> None:
    """Adds the thirteen theorems."""
    sum_is_natural = (term("(+ a b)"), book.axiom_at(27))
    book.verify("symmetry", symmetry_lemma(book.theory))
    book.verify("transitivity", transitivity_lemma(book.theory))
    book.prove("truth", "(implies (= x 't) (!= x 'nil))")
    book.prove("naturals", "(implies (= (natp x) 't) (= (consp x) 'nil))", use=[book.axiom_at(25)])
    book.prove("ordinals", "(implies (= (consp x) 'nil) (= (ordp x) (natp x)))", unfold={"ordp": "once"})
    book.prove("order", "(implies (= (consp x) 'nil) (= (consp y) 'nil) (= (ord< x y) (< x y)))",
               unfold={"ord<": "once"})
    book.prove("natural-twin", "(implies (= x y) (= (natp y) 't) (= (natp x) 't))")
    book.prove("rank-natural", "(= (natp (rank x)) 't)", unfold={"rank": "once"}, rules=[sum_is_natural])
    book.prove("rank-no-pair", "(= (consp (rank x)) 'nil)",
               use=[book.at("naturals", x="(rank x)"), book.at("rank-natural")])
    book.prove("positive", "(= (< '0 (+ '1 a)) 't)", rules=[sum_is_natural],
               use=[book.axiom_at(28, a="'1", b="a"), book.axiom_at(37, a="(+ a '1)"), book.axiom_at(42, a="a"),
                    book.axiom_at(36, a="a")])
    book.prove("rank-order", "(= (ord< (rank x) (rank y)) (< (rank x) (rank y)))",
               use=[book.at("order", x="(rank x)", y="(rank y)"), book.at("rank-no-pair"),
                    book.at("rank-no-pair", x="y")])
    book.prove("rank-ordinal", "(= (ordp (rank x)) 't)",
               use=[book.at("ordinals", x="(rank x)"), book.at("rank-no-pair"), book.at("rank-natural")])
    first, rest = "(rank (car x))", "(rank (cdr x))"
    book.prove("rank-falls", "(or (= (consp x) 'nil) (= (ord< (rank (cdr x)) (rank x)) 't))", unfold={"rank": "once"},
               use=[book.at("rank-order", x="(cdr x)", y="x"), book.at("rank-natural", x="(cdr x)"),
                    book.at("positive", a=first), book.axiom_at(28, a=first, b=rest), book.axiom_at(30, a=rest),
                    book.axiom_at(28, a="'1", b=f"(+ {rest} {first})"), book.axiom_at(29, a=rest, b=first, c="'1"),
                    book.axiom_at(28, a=first, b="'1"), book.axiom_at(40, a=rest, b="'0", c=f"(+ '1 {first})")])


def make() -> Book:
    """The theorems as a book."""
    book = Book()
    add_ranks(book)
    return book


if __name__ == "__main__":
    sys.stdout.write(make().text())
