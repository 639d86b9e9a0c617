"""Rules that take a clause and refute its literals in one step, as tests in a book, proved sound.

 - UNIT: from a clause K and one premise for each literal of a list, conclude C.  Each part of K is one of the literals
   or stands in C; each premise says `not L` (or M, where L is `not M`) or a part of C.  Extras are the literals.
 - LEMMA: the same, K being an instance of an axiom or theorem that needs no proof of its own.  Extras are
   `(F s literals)`.
"""
from typing import Optional

from ..book import Book
from ..logic.objects import Object, Pair, items
from ..logic.substitution import substitute, substitution_of
from ..logic.terms import disjunction, is_negation, left, negation
from ..logic.theory import Test, Theory
from ..rules.disjunctions import covers, is_inside
from .checkers import Checker
from .texts import ENV, all_provable, formula_rules, is_formula, provable, prove_along


# ---- the tests on formulas ---------------------------------------------------------------------------------

def _refutes(premise: Pair, literal: Pair, conclusion: Pair) -> bool:
    """Does the premise say that the literal is false, or the conclusion true?"""
    return (covers(premise, disjunction(negation(literal), conclusion))
            or is_negation(literal) and covers(premise, disjunction(left(literal), conclusion)))


def _unit(clause: Pair, premises: list[Pair], refuted: Optional[tuple], conclusion: Pair) -> Optional[str]:
    """None, or why the premises do not refute all of a clause but the conclusion."""
    if refuted is None or len(premises) != len(refuted):
        return "takes one premise for each literal"
    if not covers(clause, disjunction(*refuted, conclusion)):
        return "the clause has a part that is neither refuted nor in the conclusion"
    for premise, literal in zip(premises, refuted):
        if not is_inside(literal, clause):
            return "a literal does not stand in the clause"
        if not _refutes(premise, literal, conclusion):
            return "a premise does not refute its literal"
    return None


def unit_test(conclusion: Pair, premises: list[Pair], extras: Object) -> Optional[str]:
    """The test of UNIT on formulas: None, or why it does not hold."""
    return _unit(premises[0], premises[1:], items(extras), conclusion) if premises else "takes a clause"


def lemma_test(theory: Theory) -> Test:
    """The test of LEMMA on formulas of a theory."""
    def test(conclusion: Pair, premises: list[Pair], extras: Object) -> Optional[str]:
        members = items(extras)
        if not members or len(members) != 3:
            return "takes a formula, a substitution and literals as extras"
        if members[0] not in theory.axioms and members[0] not in theory.theorems:
            return "the formula is neither an axiom nor a theorem"
        pairs = substitution_of(members[1])
        if pairs is None:
            return "the second of the extras is not a substitution"
        return _unit(substitute(members[0], pairs), premises, items(members[2]), conclusion)
    return test


# ---- what the tests prove ------------------------------------------------------------------------------------

def define_tests(book: Book) -> None:
    """The functions of the two tests."""
    book.define("(ladder.together (ls c) (if (consp ls) (logic.por (car ls) (ladder.together (cdr ls) c)) c))",
                "(rank ls)")
    book.define("(ladder.refutesp (f l c) (if (ladder.coversp f (logic.por (logic.pnot l) c)) t"
                " (if (equal l (logic.pnot (second l))) (ladder.coversp f (logic.por (second l) c)) nil)))")
    book.define("(ladder.unitp (ls as c k) (if (consp ls) (if (consp as)"
                " (if (ladder.insidep (car ls) k) (if (ladder.refutesp (car as) (car ls) c)"
                "  (ladder.unitp (cdr ls) (cdr as) c k) nil) nil) nil) (equal as nil)))", "(rank ls)")
    book.define("(ladder.clause-okp (k as c ls atbl) (and (ladder.coversp k (ladder.together ls c))"
                " (ladder.unitp ls as c k) (if (ladder.coversp c (ladder.together as k)) t (logic.formulap c atbl))))")


WHOLE, REST = "(ladder.together ls c)", "(ladder.together (cdr ls) c)"


def verify_together(book: Book) -> None:
    """TOGETHER, the disjunction of a list and a formula: when it is a formula, and what it absorbs."""
    rules, together = formula_rules(book), book.definition_at("ladder.together", "ls", "c")
    unit = book.definition_at("ladder.unitp", "ls", "as", "c", "k")
    prove_along(book, "inside-together", f"(ladder.insidep c {WHOLE})", "ls", [{"ls": "(cdr ls)"}], rules=rules,
                depth=9,
                use=[together, book.definition_at("ladder.insidep", "c", WHOLE)], unfold=["logic.por"])
    prove_along(book, "formula-together",
                f"(implies (ladder.unitp ls as c k) {is_formula('k')} {is_formula('c')} {is_formula(WHOLE)})",
                "ls", [{"ls": "(cdr ls)", "as": "(cdr as)"}], rules=rules, depth=9,
                use=[together, unit, book.at("FORMULA-INSIDE", a="(car ls)", c="k")])
    prove_along(book, "formula-together-of-provables",
                f"(implies {all_provable('as')} {is_formula('k')} {is_formula('(ladder.together as k)')})",
                "as", [{"as": "(cdr as)"}], rules=rules, depth=9,
                use=[book.definition_at("ladder.together", "as", "k"), book.at("FIRST-OF-PROVABLES"),
                     book.at("REST-OF-PROVABLES")])
    book.prove("covered-by-itself", "(ladder.coversp a a)",
               use=[book.definition_at("ladder.coversp", "a", "a"), book.definition_at("ladder.insidep", "a", "a")])
    for name, pair in (("left", f"(logic.por {REST} c)"), ("right", f"(logic.por c {REST})")):
        book.prove(f"together-absorbs-{name}",
                   f"(implies {provable(pair)} {is_formula(REST)} {provable(REST)})", unfold=["logic.por"], rules=rules,
                   use=[book.at("PROVABLE-COVERED", a=pair, c=REST), book.definition_at("ladder.coversp", pair, REST),
                        book.at("COVERED-BY-ITSELF", a=REST), book.definition_at("ladder.coversp", "c", REST),
                        book.at("INSIDE-TOGETHER", ls="(cdr ls)")])


def verify_refutation(book: Book) -> None:
    """CLAUSE-IS-SOUND: a provable clause that passes the test makes the conclusion provable."""
    verify_together(book)
    rules, l, f = formula_rules(book), "(car ls)", "(car as)"
    prove_along(book, "provable-by-units",
                f"(implies (ladder.unitp ls as c k) {all_provable('as')} {is_formula('k')} {is_formula('c')}"
                f" {provable(WHOLE)} {provable('c')})",
                "ls", [{"ls": "(cdr ls)", "as": "(cdr as)"}], rules=rules, depth=9,
                use=[book.definition_at("ladder.together", "ls", "c"),
                     book.definition_at("ladder.unitp", "ls", "as", "c", "k"),
                     book.definition_at("ladder.refutesp", f, l, "c"), book.at("FORMULA-INSIDE", a=l, c="k"),
                     book.at("FIRST-OF-PROVABLES"), book.at("REST-OF-PROVABLES"),
                     book.at("FORMULA-TOGETHER", ls="(cdr ls)", as_="(cdr as)"),
                     book.at("PROVABLE-COVERED", a=f, c=f"(logic.por (logic.pnot {l}) c)"),
                     book.at("PROVABLE-COVERED", a=f, c=f"(logic.por (second {l}) c)"),
                     book.at("PROVABLE-CUT", a=l, b=REST, c="c"),
                     book.at("PROVABLE-CUT", a=f"(second {l})", b="c", c=REST),
                     book.at("TOGETHER-ABSORBS-LEFT"), book.at("TOGETHER-ABSORBS-RIGHT")])
    book.prove("clause-is-sound",
               f"(implies (ladder.clause-okp k as c ls atbl) {all_provable('as')} {provable('k')} {provable('c')})",
               unfold=["ladder.clause-okp"], rules=rules, depth=9,
               use=[book.at("FORMULA-TOGETHER"), book.at("FORMULA-TOGETHER-OF-PROVABLES"),
                    book.at("FORMULA-COVERED", a="c", c="(ladder.together as k)"),
                    book.at("PROVABLE-COVERED", a="k", c=WHOLE), book.at("PROVABLE-BY-UNITS")])


def add_unit(checker: Checker) -> None:
    """Adds UNIT."""
    book = checker.book
    sound = book.prove("unit-is-sound",
                       f"(implies (consp as) (ladder.clause-okp (car as) (cdr as) c e atbl) {all_provable('as')}"
                       f" {provable('c')})",
                       use=[book.at("CLAUSE-IS-SOUND", k="(car as)", ls="e", as_="(cdr as)"),
                            book.at("FIRST-OF-PROVABLES"), book.at("REST-OF-PROVABLES")])
    checker.add_step("UNIT", "(if (consp as) (ladder.clause-okp (car as) (cdr as) c e atbl) nil)", unit_test, sound)


def add_lemma(checker: Checker) -> None:
    """Adds LEMMA."""
    book, f, s = checker.book, "(first e)", "(second e)"
    k = f"(logic.formula-substitute {f} {s})"
    book.define(f"(ladder.lemma-okp (c as e {ENV}) (and (if (logic.memberp {f} thms) t (logic.memberp {f} axioms))"
                f" (logic.formulap {f} atbl) (logic.sigmap {s} atbl)"
                f" (ladder.clause-okp {k} as c (third e) atbl)))")
    sound = book.prove("lemma-is-sound",
                       f"(implies (ladder.lemma-okp c as e {ENV}) {all_provable('as')} {provable('c')})",
                       unfold=["ladder.lemma-okp", "logic.instantiation-okp"],
                       use=[book.at("PROVABLE-AXIOM", c=f), book.at("PROVABLE-THEOREM", c=f),
                            book.at("PROVABLE-INSTANTIATION", c=k, a=f, s=s),
                            book.at("FORMULA-OF-INSTANCE", a=f, s=s),
                            book.at("CLAUSE-IS-SOUND", k=k, ls="(third e)")])
    checker.add_step("LEMMA", f"(ladder.lemma-okp c as e {ENV})", lemma_test(book.theory), sound)


def add_refutation_rules(checker: Checker) -> None:
    """Adds UNIT and LEMMA to a checker that has the rules over whole disjunctions and INSTANCE."""
    checker.assumption = None
    define_tests(checker.book)
    verify_refutation(checker.book)
    add_unit(checker)
    add_lemma(checker)
