"""The source of books/wrap.book: a checker that only calls LOGIC.PROOFP, and the proofs of its claim and of that one's.

    python3 author/books/wrap.py
"""
import os
import sys

sys.path.insert(0, os.path.join(os.path.dirname(os.path.abspath(__file__)), ".."))

from milawa_author import Book, term  # noqa: E402
from milawa_author.admission import claim  # noqa: E402
from milawa_author.rules.instances import definition_axiom, instance  # noqa: E402

JUDGED = "(logic.proofp x axioms thms atbl)"
WITNESS = "(logic.provable-witness (logic.conclusion x) axioms thms atbl)"
TEST = ("(lambda (proof x axioms thms atbl) (if (logic.proofp proof axioms thms atbl)"
        " (equal (logic.conclusion proof) x) nil))")


def add_wrap(book: Book) -> None:
    """Adds WRAP and the seven theorems."""
    book.define("(wrap (x axioms thms atbl) (logic.proofp x axioms thms atbl))")
    book.prove("transitivity", "(implies (= y z) (= x y) (= x z))")
    book.prove("truth", "(implies (= x 't) (!= x 'nil))")
    book.prove("itself", "(= (equal x x) 't)")
    book.prove("test", f"(implies {JUDGED} (if {JUDGED} (equal (logic.conclusion x) (logic.conclusion x)) nil))")
    chosen = instance(definition_axiom(book.theory, "logic.provable-witness"),
                      {"PROOF": "X", "X": term("(logic.conclusion x)")})
    book.prove("witness", f"(implies {JUDGED} ({TEST} {WITNESS} (logic.conclusion x) axioms thms atbl))",
               use=[book.at("test"), chosen])
    opened = book.definition_at("logic.provablep", "(logic.conclusion x)", "axioms", "thms", "atbl")
    book.prove("proofs", claim("LOGIC.PROOFP"), use=[book.at("witness"), opened])
    book.prove("claim", claim("WRAP"),
               use=[book.at("proofs"), book.definition_at("wrap", "x", "axioms", "thms", "atbl")])


def make() -> Book:
    """The definition and the theorems as a book."""
    book = Book()
    add_wrap(book)
    return book


if __name__ == "__main__":
    sys.stdout.write(make().text())
