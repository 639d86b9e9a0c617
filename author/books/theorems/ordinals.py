"""Ordinals: ORD< is an order, naturals are ordinals, and what ranks and lexicographic pairs give."""
from milawa_author import Book
from milawa_author.prover.decreases import verify_lexicographic
from milawa_author.prover.ranks import verify_ranks

from .statements import Statements


def naturals_as_ordinals(book: Book) -> None:
    """Naturals are ordinals, ordered as before."""
    state = Statements(book)
    state("natural-is-ordinal", "(implies (natp n) (= (ordp n) 't))", unfold={"ordp": "once"}, use=("axiom-25 (x n)",))
    state("order-of-naturals", "(implies (natp m) (natp n) (= (ord< m n) (< m n)))", unfold={"ord<": "once"},
          use=("axiom-25 (x m)", "axiom-25 (x n)"))
    state("natural-before-pair", "(implies (natp n) (consp x) (= (ord< n x) 't))", unfold={"ord<": "once"},
          use=("axiom-25 (x n)",))
    state("pair-not-before-natural", "(implies (natp n) (consp x) (= (ord< x n) 'nil))", unfold={"ord<": "once"},
          use=("axiom-25 (x n)",))
    state("omega-is-ordinal", "(= (ordp '((1 . 1) . 0)) 't)", unfold="ordp ord<")
    state("natural-before-omega", "(implies (natp n) (= (ord< n '((1 . 1) . 0)) 't))",
          use=("natural-before-pair (x '((1 . 1) . 0))",))
    state("ordinal-is-natural-or-pair", "(implies (ordp x) (or (consp x) (natp x)))", unfold={"ordp": "once"})


def order(book: Book) -> None:
    """ORD< is irreflexive, asymmetric and transitive, and total on ordinals."""
    state = Statements(book)
    opened = {"ord<": "once", "ordp": "once"}
    state("ord<-is-boolean", "(or (= (ord< x y) 't) (= (ord< x y) 'nil))", by="(ord< x y)", measure="(rank x)")
    state("ord<-is-irreflexive", "(= (ord< x x) 'nil)", by="x", unfold=opened, use=("axiom-33 (a x)",))
    state("ord<-is-asymmetric", "(implies (ord< x y) (= (ord< y x) 'nil))", by="(ord< x y)", measure="(rank x)",
          use=("open (ord< y x)", "less-is-asymmetric (a x) (b y)",
               "less-is-asymmetric (a (cdr (car x))) (b (cdr (car y)))"))
    state("zero-is-least", "(implies (ordp x) (!= x '0) (= (ord< '0 x) 't))", unfold=opened, use=("axiom-37 (a x)",))
    state("nothing-before-zero", "(= (ord< x '0) 'nil)", unfold=opened, use=("axiom-36 (a x)",))


def add_ordinals(book: Book) -> None:
    """All of the above, and the theorems of the prover on ranks and lexicographic pairs."""
    verify_ranks(book)
    verify_lexicographic(book)
    naturals_as_ordinals(book)
    order(book)
