"""The rules over whole disjunctions, SUBSET and RESOLVE, as tests in a book, proved sound.

 - SUBSET: from a disjunction A conclude C, where each part of A stands in C.
 - RESOLVE: from A and B conclude C; extras are `(L)`; L stands in A, each part of A is L or stands in C, each part of B
   is `not L` or stands in C.
Both check that C is a formula only where it has a part that stands in no premise.
"""
from typing import Optional

from ..book import Book
from ..logic.kernel import Proof
from ..logic.objects import Object, Pair, items
from ..logic.terms import disjunction, negation
from ..rules.disjunctions import covers, is_inside
from .checkers import Checker
from .texts import all_provable, formula_rules, is_formula, list_rules, provable, prove_along


def subset_test(conclusion: Pair, premises: list[Pair], extras: Object) -> Optional[str]:
    """The test of SUBSET on formulas: None, or why it does not hold."""
    if extras != "NIL" or len(premises) != 1:
        return "takes one premise and no extras"
    return None if covers(premises[0], conclusion) else "a part of the premise is not in the conclusion"


def resolve_test(conclusion: Pair, premises: list[Pair], extras: Object) -> Optional[str]:
    """The test of RESOLVE on formulas: None, or why it does not hold."""
    if len(premises) != 2 or len(items(extras) or ()) != 1:
        return "takes two premises and a literal"
    literal = items(extras)[0]
    if not is_inside(literal, premises[0]):
        return "the literal does not stand in the first premise"
    if not covers(premises[0], disjunction(literal, conclusion)):
        return "a part of the first premise is not in the conclusion"
    if not covers(premises[1], disjunction(negation(literal), conclusion)):
        return "a part of the second premise is not in the conclusion"
    return None


def define_tests(book: Book) -> None:
    """INSIDEP, COVERSP and the tests of the two rules."""
    book.define("(ladder.insidep (a c) (if (equal a c) t (if (consp c)"
                " (if (equal c (logic.por (second c) (third c)))"
                "  (if (ladder.insidep a (second c)) t (ladder.insidep a (third c))) nil) nil)))", "(rank c)")
    book.define("(ladder.coversp (a c) (if (ladder.insidep a c) t (if (consp a)"
                " (if (equal a (logic.por (second a) (third a)))"
                "  (if (ladder.coversp (second a) c) (ladder.coversp (third a) c) nil) nil) nil)))", "(rank a)")
    book.define("(ladder.subset-okp (c as e atbl)"
                " (if e nil (if (consp as) (if (cdr as) nil (if (ladder.coversp (first as) c)"
                " (if (ladder.coversp c (first as)) t (logic.formulap c atbl)) nil)) nil)))")
    book.define("(ladder.resolve-okp (c as e atbl)"
                " (let ((a (first as)) (b (second as)) (l (first e)))"
                " (and (equal as (list a b)) (equal e (list l)) (ladder.insidep l a)"
                "  (ladder.coversp a (logic.por l c)) (ladder.coversp b (logic.por (logic.pnot l) c))"
                "  (if (ladder.coversp c (logic.por a b)) t (logic.formulap c atbl)))))")


def verify_disjunctions(book: Book) -> None:
    """What INSIDEP and COVERSP say about formulas and their provability."""
    rules = formula_rules(book)

    def by_halves(name: str, goal: str, variable: str, use: list[Proof]) -> None:
        halves = [{variable: f"(second {variable})"}, {variable: f"(third {variable})"}]
        prove_along(book, name, goal, variable, halves, use=use, rules=rules, depth=9)

    inside = book.definition_at("ladder.insidep", "a", "c")
    covered = book.definition_at("ladder.coversp", "a", "c")
    atom = book.definition_at("logic.formulap", "c", "atbl")
    by_halves("formula-inside", f"(implies (ladder.insidep a c) {is_formula('c')} {is_formula('a')})", "c", [inside])
    by_halves("formula-covered", f"(implies (ladder.coversp a c) {is_formula('c')} {is_formula('a')})", "a",
              [covered, book.at("FORMULA-INSIDE")])
    claimed = provable("(logic.por (logic.pnot a) c)")
    by_halves("inside-implies", f"(implies (ladder.insidep a c) {is_formula('c')} {claimed})", "c",
              [inside, atom, book.at("PROVABLE-PROPOSITIONAL-SCHEMA", a="a"),
               book.at("PROVABLE-DISJOINED-RIGHT-EXPANSION", p="(logic.pnot a)", a="(second c)", b="(third c)"),
               book.at("PROVABLE-DISJOINED-LEFT-EXPANSION", p="(logic.pnot a)", a="(third c)", b="(second c)")])
    by_halves("covered-implies", f"(implies (ladder.coversp a c) {is_formula('c')} {claimed})", "a",
              [covered, book.at("INSIDE-IMPLIES"),
               book.at("PROVABLE-MERGE-IMPLICATIONS", a="(second a)", b="(third a)", c="c")])
    book.prove("provable-covered",
               f"(implies {provable('a')} (ladder.coversp a c) {is_formula('c')} {provable('c')})", rules=rules,
               use=[book.at("COVERED-IMPLIES"), book.at("PROVABLE-MODUS-PONENS", a="a", b="c")])


def add_disjunction_rules(checker: Checker) -> None:
    """Adds SUBSET and RESOLVE to a checker."""
    book = checker.book
    define_tests(book)
    verify_disjunctions(book)
    rules = formula_rules(book) + list_rules(book)
    sound = book.prove("subset-okp-is-sound",
                       f"(implies (ladder.subset-okp c as e atbl) {all_provable('as')} {provable('c')})",
                       unfold=["ladder.subset-okp"], rules=rules, depth=9,
                       use=[book.axiom_at(14, x="as"), book.at("PROVABLE-COVERED", a="(first as)"),
                            book.at("FORMULA-COVERED", a="c", c="(first as)")])
    checker.add_step("SUBSET", "(ladder.subset-okp c as e atbl)", subset_test, sound)
    a, b, l = "(first as)", "(second as)", "(first e)"
    one, two = f"(logic.por {l} c)", f"(logic.por (logic.pnot {l}) c)"
    sound = book.prove("resolve-okp-is-sound",
                       f"(implies (ladder.resolve-okp c as e atbl) {all_provable('as')} {provable('c')})",
                       unfold=["ladder.resolve-okp"], rules=rules, depth=9,
                       use=[book.at("PROVABLE-COVERED", a=a, c=one), book.at("PROVABLE-COVERED", a=b, c=two),
                            book.at("FORMULA-INSIDE", a=l, c=a),
                            book.at("FORMULA-COVERED", a="c", c=f"(logic.por {a} {b})"),
                            book.at("PROVABLE-CUT", a=l, b="c", c="c"), book.at("PROVABLE-CONTRACTION", a="c")])
    checker.add_step("RESOLVE", "(ladder.resolve-okp c as e atbl)", resolve_test, sound)
