"""Equal arguments in calls of any arity, as tests in a book, proved sound.

 - CONGRUENCE: from `a1 = b1`, .. conclude `(f a1 ..) = (f b1 ..)`; a premise for an argument that does not change is
   left out.
 - DISJOINED-CONGRUENCE: the same under `P or`; a premise may stand with `P or` or without.
"""
from typing import Optional

from ..book import Book
from ..logic.objects import Object, Pair, items
from ..logic.terms import disjunction, equation, is_call, is_disjunction, is_equation, left, right
from .calls import verify_functional_equality
from .checkers import Checker
from .equations import ASSUMPTION, add_pattern_rules
from .texts import all_provable, equation_rules, formula_rules, provable, prove_along

# Two calls L and R of one function, as tests.
CALLS = "(consp l) (consp r) (symbolp (car l)) (if (equal (car l) 'quote) nil t) (equal (car l) (car r))"


def _arguments(lefts: tuple, rights: tuple, premises: list[Pair], context: Optional[Pair]) -> Optional[str]:
    """None, or why the premises do not give the equations of the arguments that differ."""
    rest = list(premises)
    for a, b in zip(lefts, rights):
        if a is b:
            continue
        wanted = equation(a, b)
        if not rest or rest[0] not in ((wanted,) if context is None else (wanted, disjunction(context, wanted))):
            return f"the next premise is not {wanted}"
        rest.pop(0)
    return "a premise too many" if rest else None


def _calls(f: Pair) -> Optional[tuple[tuple, tuple]]:
    """The actuals on both sides of an equation of two calls of one function, or None."""
    if not is_equation(f) or not is_call(left(f)) or not is_call(right(f)) or left(f).first != right(f).first:
        return None
    return items(left(f))[1:], items(right(f))[1:]


def congruence_test(conclusion: Pair, premises: list[Pair], extras: Object) -> Optional[str]:
    """The test of CONGRUENCE on formulas: None, or why it does not hold."""
    calls = _calls(conclusion)
    if extras != "NIL" or calls is None:
        return "concludes an equation of two calls of one function"
    return _arguments(*calls, premises, None)


def disjoined_congruence_test(conclusion: Pair, premises: list[Pair], extras: Object) -> Optional[str]:
    """The test of DISJOINED-CONGRUENCE on formulas: None, or why it does not hold."""
    calls = _calls(right(conclusion)) if is_disjunction(conclusion) else None
    if extras != "NIL" or calls is None:
        return "concludes `P or` an equation of two calls of one function"
    return _arguments(*calls, premises, left(conclusion))


# ---- the tests in the book ---------------------------------------------------------------------------------

def verify_arguments(book: Book) -> None:
    """ARGUMENTS-OKP, which says that premises give the equations of the arguments that differ, and what follows."""
    xy = "(logic.pequal (car xs) (car ys))"
    book.define("(ladder.arguments-okp (p xs ys as) (if (consp xs)"
                " (if (equal (car xs) (car ys)) (ladder.arguments-okp p (cdr xs) (cdr ys) as)"
                f"  (if (consp as) (if (if (equal (car as) {xy}) t (equal (car as) (logic.por p {xy})))"
                "   (ladder.arguments-okp p (cdr xs) (cdr ys) (cdr as)) nil) nil))"
                " (equal as nil)))", "(rank xs)")
    for part, goal in (("first", provable("(car as)")), ("rest", all_provable("(cdr as)"))):
        book.prove(f"{part}-of-provables", f"(implies {all_provable('as')} (consp as) {goal})",
                   use=[book.axiom_at(14, x="as"), book.at(f"{part}-OF-ALL-PROVABLE", x="(car as)", xs="(cdr as)")])
    rest, both = "(logic.feq (cdr xs) (cdr ys) e)", {"xs": "(cdr xs)", "ys": "(cdr ys)"}
    under = "(logic.por p (logic.feq xs ys e))"
    prove_along(book, "provable-by-arguments",
                f"(implies {ASSUMPTION} (ladder.arguments-okp p xs ys as) {all_provable('as')} {provable(under)}"
                f" {provable('(logic.por p e)')})", "xs", [both, {**both, "as": "(cdr as)"}],
                rules=formula_rules(book) + equation_rules(book), depth=9,
                use=[book.definition_at("logic.feq", "xs", "ys", "e"),
                     book.definition_at("ladder.arguments-okp", "p", "xs", "ys", "as"),
                     book.at("FIRST-OF-PROVABLES"), book.at("REST-OF-PROVABLES"),
                     book.at("PROVABLE-REFLEXIVITY", a="(car xs)"),
                     book.at("PROVABLE-DISJOINED-MODUS-PONENS", p="p", a=xy, b=rest),
                     book.at("PROVABLE-EXPANSION", a=xy, b="p")])


def add_disjoined_congruence(checker: Checker) -> None:
    """Adds DISJOINED-CONGRUENCE."""
    book, e = checker.book, "(third c)"
    book.define("(ladder.disjoined-congruence-okp (c as atbl)"
                " (let ((p (second c)) (l (second (third c))) (r (third (third c))))"
                f" (and (equal c (logic.por p (logic.pequal l r))) {CALLS}"
                " (ladder.arguments-okp p (cdr l) (cdr r) as) (logic.formulap c atbl))))")
    feq = f"(logic.feq (cdr (second {e})) (cdr (third {e})) (logic.pequal (second {e}) (third {e})))"
    sound = book.prove("disjoined-congruence-okp-is-sound",
                       f"(implies {ASSUMPTION} (ladder.disjoined-congruence-okp c as atbl) {all_provable('as')}"
                       f" {provable('c')})",
                       unfold=["ladder.disjoined-congruence-okp"], depth=9,
                       rules=formula_rules(book) + equation_rules(book),
                       use=[book.at("PROVABLE-FUNCTIONAL-EQUALITY", l=f"(second {e})", r=f"(third {e})"),
                            book.at("PROVABLE-EXPANSION", a=feq, b="(second c)"),
                            book.at("PROVABLE-BY-ARGUMENTS", p="(second c)", xs=f"(cdr (second {e}))",
                               ys=f"(cdr (third {e}))", e=f"(logic.pequal (second {e}) (third {e}))")])
    checker.add_step("DISJOINED-CONGRUENCE", "(if e nil (ladder.disjoined-congruence-okp c as atbl))",
                     disjoined_congruence_test, sound)


def add_plain_congruence(checker: Checker) -> None:
    """Adds CONGRUENCE: P is the conclusion itself, which is then contracted."""
    book = checker.book
    book.define("(ladder.congruence-okp (c as atbl) (let ((l (second c)) (r (third c)))"
                f" (and (equal c (logic.pequal l r)) {CALLS}"
                " (ladder.arguments-okp c (cdr l) (cdr r) as) (logic.formulap c atbl))))")
    feq = "(logic.feq (cdr (second c)) (cdr (third c)) (logic.pequal (second c) (third c)))"
    sound = book.prove("congruence-okp-is-sound",
                       f"(implies {ASSUMPTION} (ladder.congruence-okp c as atbl) {all_provable('as')} {provable('c')})",
                       unfold=["ladder.congruence-okp"], depth=9, rules=formula_rules(book) + equation_rules(book),
                       use=[book.at("PROVABLE-FUNCTIONAL-EQUALITY", l="(second c)", r="(third c)"),
                            book.at("PROVABLE-EXPANSION", a=feq, b="c"),
                            book.at("PROVABLE-BY-ARGUMENTS", p="c", xs="(cdr (second c))", ys="(cdr (third c))",
                               e="(logic.pequal (second c) (third c))"),
                            book.at("PROVABLE-CONTRACTION", a="c")])
    checker.add_step("CONGRUENCE", "(if e nil (ladder.congruence-okp c as atbl))", congruence_test, sound)


def add_equality_rules(checker: Checker) -> None:
    """Adds the rules of equality: those by pattern, and those of this module."""
    add_pattern_rules(checker)
    verify_functional_equality(checker.book)
    verify_arguments(checker.book)
    add_disjoined_congruence(checker)
    add_plain_congruence(checker)
