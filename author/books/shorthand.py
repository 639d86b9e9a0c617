"""The source of books/shorthand.book: a checker that spells modus ponens out.  It is judged after the book of wrap.py.

    (python3 author/books/wrap.py; python3 author/books/shorthand.py) | milawa check
"""
import os
import sys
from collections.abc import Iterable

sys.path.insert(0, os.path.join(os.path.dirname(os.path.abspath(__file__)), ".."))

import wrap  # noqa: E402
from milawa_author import Book, Proof, prove  # noqa: E402
from milawa_author.admission import claim  # noqa: E402
from milawa_author.logic.objects import Pair  # noqa: E402
from milawa_author.rules.propositional import modus_ponens  # noqa: E402

SPELL_OUT = """(spell-out (x)
 (if (equal (first x) 'modus-ponens)
  (let* ((b (second x)) (p (first (third x))) (q (second (third x))) (a (logic.conclusion p)))
   (list 'contraction b (list
    (list 'cut (logic.por b b) (list
     (list 'cut (logic.por a b) (list
      (list 'expansion (logic.por b a) (list p))
      (list 'propositional-schema (logic.por (logic.pnot b) b))))
     q)))))
  x))"""
SAME = "(equal (logic.conclusion (spell-out x)) (logic.conclusion x))"
JUDGED = "(wrap (spell-out x) axioms thms atbl)"
BODY = f"(if {SAME} {JUDGED} nil)"


def provable(x: str) -> str:
    """The formula x is provable."""
    return f"(logic.provablep {x} axioms thms atbl)"


def add_shorthand(book: Book) -> None:
    """Adds the switch to WRAP, SPELL-OUT, SHORT and its claim, and the switch to SHORT, to a book that has WRAP."""
    def verify(name: str, goal: str | Pair, use: Iterable[Proof] = ()) -> None:
        book.verify_as_it_stands(name, prove(book.theory, goal, use=use))      # no theorems for shared parts

    book.switch("wrap", {})
    book.define(SPELL_OUT)
    book.define(f"(short (x axioms thms atbl) {BODY})")
    verify("same", f"(implies (= a b) {provable('a')} {provable('b')})")
    spelled, plain = "(logic.conclusion (spell-out x))", "(logic.conclusion x)"
    verify("spelled", f"(or (= {JUDGED} 'nil) {provable(plain)} (!= {spelled} {plain}))",
           [book.at("claim", x="(spell-out x)"), book.at("same", a=spelled, b=plain)])
    verify("agrees", f"(or (= {spelled} {plain}) (= {BODY} 'nil))")
    verify("value", f"(or (= {BODY} {JUDGED}) (= {BODY} 'nil))")
    verify("no", f"(implies (= {JUDGED} 'nil) (= {BODY} 'nil))")
    opened = book.definition_at("short", "x", "axioms", "thms", "atbl")
    verify("claim", claim("SHORT"), [book.at("spelled"), book.at("agrees"), book.at("no"), opened])
    book.switch("short", {"MODUS-PONENS": modus_ponens.scheme.test})


def make() -> Book:
    """The book of WRAP, and then this one."""
    book = wrap.make()
    add_shorthand(book)
    return book


if __name__ == "__main__":
    sys.stdout.write(make().text(len(wrap.make().events)))
