"""Level 7: a list of steps, each naming earlier ones by number, as a test in a book, proved sound.

 - SHARED: from premises conclude what the last of some steps concludes.  Extras are the steps, `(method conclusion
   numbers extras)`: number 0 is the step before, 1 the one before that, and so on to the premises.

A checker of a book walks a proof as a tree; a step of such a list is judged once, wherever it is used.
"""
from typing import Optional

from ..book import Book
from ..logic.objects import Object, Pair
from .checkers import Checker
from .texts import ENV, all_provable, provable, prove_along


def shared_test(conclusion: Pair, premises: list[Pair], extras: Object) -> Optional[str]:
    """The test of SHARED: that `kernel.packed` alone makes such steps, of proofs that it is given."""
    return "is made by `kernel.packed` alone"


def verify_recall(book: Book) -> None:
    """NTH and RECALL, which find what earlier steps conclude; what they find is provable."""
    if "RECALLED-ARE-PROVABLE" in book.lemmas:
        return
    book.define("(ladder.nth (n xs) (if (consp xs) (if (equal n 0) (car xs) (ladder.nth (- n 1) (cdr xs))) nil))",
                "(rank xs)")
    book.define("(ladder.recall (ns xs) (if (consp ns) (cons (ladder.nth (car ns) xs) (ladder.recall (cdr ns) xs))"
                " nil))", "(rank ns)")
    book.define("(ladder.no-nilp (xs) (if (consp xs) (if (car xs) (ladder.no-nilp (cdr xs)) nil) t))", "(rank xs)")
    nth, recalled = "(ladder.nth n xs)", "(ladder.recall ns xs)"
    prove_along(book, "nth-is-provable", f"(implies {all_provable('xs')} {nth} {provable(nth)})", "xs",
                [{"xs": "(cdr xs)", "n": "(- n '1)"}],
                use=[book.definition_at("ladder.nth", "n", "xs"), book.at("FIRST-OF-PROVABLES", as_="xs"),
                     book.at("REST-OF-PROVABLES", as_="xs")])
    prove_along(book, "recalled-are-provable",
                f"(implies {all_provable('xs')} (ladder.no-nilp {recalled}) {all_provable(recalled)})", "ns",
                [{"ns": "(cdr ns)"}], unfold=["ladder.no-nilp"],
                use=[book.definition_at("ladder.recall", "ns", "xs"), book.at("NTH-IS-PROVABLE", n="(car ns)"),
                     book.at("ALL-PROVABLE-OF-NIL"),
                     book.at("ALL-PROVABLE-OF-CONS", x="(ladder.nth (car ns) xs)", xs="(ladder.recall (cdr ns) xs)")])


def add_shared(checker: Checker) -> None:
    """Adds SHARED, whose steps are those that the checker takes so far; so it comes last."""
    book, run, step = checker.book, f"{checker.name}.run", checker.step
    verify_recall(book)
    method, conclusion = "(first (car steps))", "(second (car steps))"
    premises, extras = "(ladder.recall (third (car steps)) done)", "(fourth (car steps))"
    book.define(f"({run} (steps done c {ENV}) (if (consp steps) (if (ladder.no-nilp {premises})"
                f" (if ({step} {method} {conclusion} {premises} {extras} {ENV})"
                f" ({run} (cdr steps) (cons {conclusion} done) c {ENV}) nil) nil)"
                " (if (consp done) (equal c (car done)) nil)))", "(rank steps)")
    prove_along(book, f"{run}-is-sound",
                f"(implies ({run} steps done c {ENV}) {all_provable('done')} {provable('c')})", "steps",
                [{"steps": "(cdr steps)", "done": f"(cons {conclusion} done)"}],
                use=[book.definition_at(run, "steps", "done", "c", "axioms", "thms", "atbl"),
                     book.at(f"SOUND-{step}", m=method, c=conclusion, as_=premises, e=extras),
                     book.at("RECALLED-ARE-PROVABLE", xs="done", ns="(third (car steps))"),
                     book.at("ALL-PROVABLE-OF-CONS", x=conclusion, xs="done"),
                     book.at("FIRST-OF-PROVABLES", as_="done")])
    checker.add_step("SHARED", f"({run} e as c {ENV})", shared_test, book.at(f"{run}-is-sound", steps="e", done="as"))
