"""The source of books/app.book: appending associates, by induction.  It is judged after the book of ranks.py.

    (python3 author/books/ranks.py; python3 author/books/app.py) | milawa check
"""
import os
import sys

sys.path.insert(0, os.path.join(os.path.dirname(os.path.abspath(__file__)), ".."))

import ranks  # noqa: E402
from milawa_author import Book, formula, term  # noqa: E402
from milawa_author.logic.kernel import induction  # noqa: E402


def add_app(book: Book) -> None:
    """Adds APP and the ten theorems to a book that has those on ranks."""
    book.define("(app (x y) (if (consp x) (cons (car x) (app (cdr x) y)) y))", "(rank x)",
                [book.lemmas["RANK-ORDINAL"], book.lemmas["RANK-FALLS"]])
    here = [book.definition_at("app", "x", "y"), book.axiom_at(11)]
    book.prove("app-of-atom", "(or (= (consp x) 't) (= (app x y) y))", use=here)
    book.prove("app-of-pair", "(implies (= (consp x) 't) (= (app x y) (cons (car x) (app (cdr x) y))))", use=here)
    book.prove("app-same", "(implies (= a b) (= (app a c) (app b c)))")
    book.prove("cons-same", "(implies (= a b) (= (cons c a) (cons c b)))")
    book.prove("app-of-cons", "(= (app (cons a b) y) (cons a (app b y)))", use=[book.at("app-of-pair", x="(cons a b)")])
    book.prove("associates-at-atom", "(or (= (app (app x y) z) (app x (app y z))) (= (consp x) 't))",
               use=[book.at("app-of-atom"), book.at("app-of-atom", y="(app y z)")])
    book.prove("left-at-pair",
               "(implies (= (consp x) 't) (= (app (app x y) z) (cons (car x) (app (app (cdr x) y) z))))",
               use=[book.at("app-of-pair"), book.at("app-of-cons", a="(car x)", b="(app (cdr x) y)", y="z")])
    book.prove("associates-at-pair",
               "(or (= (app (app x y) z) (app x (app y z))) (!= (consp x) 't)"
               " (!= (app (app (cdr x) y) z) (app (cdr x) (app y z))))",
               use=[book.at("left-at-pair"), book.at("app-of-pair", y="(app y z)")])
    book.prove("measure-falls", "(implies (= (consp x) 't) (= (ord< (rank (cdr x)) (rank x)) 't))",
               use=[book.at("rank-falls")])
    cases = [(formula("(= (consp x) 't)"), [{"X": term("(cdr x)")}])]
    names = ("ASSOCIATES-AT-ATOM", "ASSOCIATES-AT-PAIR", "RANK-ORDINAL", "MEASURE-FALLS")
    book.verify("associates", induction(formula("(= (app (app x y) z) (app x (app y z)))"), term("(rank x)"), cases,
                                        [book.lemmas[name] for name in names]))


def make() -> Book:
    """The theorems on ranks, and then these."""
    book = ranks.make()
    add_app(book)
    return book


if __name__ == "__main__":
    sys.stdout.write(make().text(len(ranks.make().events)))
