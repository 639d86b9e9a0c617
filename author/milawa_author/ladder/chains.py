"""Chains of equations, as tests in a book, proved sound.

 - CHAIN: from equations that lead from x to y, each read in either direction, conclude `x = y`.
 - DISJOINED-CHAIN: the same under `P or`; a premise may stand with `P or` or without.
"""
from typing import Optional

from ..book import Book
from ..logic.objects import Object, Pair
from ..logic.terms import is_disjunction, is_equation, left, right
from .checkers import Checker
from .equations import ASSUMPTION
from .instances import add_assumption, add_instance
from .texts import all_provable, equation_rules, formula_rules, is_formula, is_term, provable, prove_along


def _follow(x: Object, y: Object, premises: list[Pair], context: Optional[Pair]) -> Optional[str]:
    """None, or why the premises do not lead from x to y."""
    for f in premises:
        e = right(f) if context is not None and is_disjunction(f) and left(f) is context else f
        if not is_equation(e):
            return "a premise is not an equation"
        if left(e) is x:
            x = right(e)
        elif right(e) is x:
            x = left(e)
        else:
            return "the premises do not form a chain"
    return None if x is y else "the chain ends elsewhere"


def chain_test(conclusion: Pair, premises: list[Pair], extras: Object) -> Optional[str]:
    """The test of CHAIN on formulas: None, or why it does not hold."""
    if extras != "NIL" or not premises or not is_equation(conclusion):
        return "takes one or more premises and concludes an equation"
    return _follow(left(conclusion), right(conclusion), premises, None)


def disjoined_chain_test(conclusion: Pair, premises: list[Pair], extras: Object) -> Optional[str]:
    """The test of DISJOINED-CHAIN on formulas: None, or why it does not hold."""
    if extras != "NIL" or not premises or not is_disjunction(conclusion) or not is_equation(right(conclusion)):
        return "takes one or more premises and concludes `P or` an equation"
    e = right(conclusion)
    return _follow(left(e), right(e), premises, left(conclusion))


HEAD = "(ladder.strip (car as) p)"               # the first premise without `P or`


def verify_chains(book: Book) -> None:
    """What a chain of equations proves under a disjunction."""
    book.define("(ladder.strip (f p) (if (equal f (logic.por p (third f))) (third f) f))")
    book.define("(ladder.chainp (x y as p) (if (consp as)"
                f" (if (equal {HEAD} (logic.pequal x (third {HEAD}))) (ladder.chainp (third {HEAD}) y (cdr as) p)"
                f"  (if (equal {HEAD} (logic.pequal (second {HEAD}) x)) (ladder.chainp (second {HEAD}) y (cdr as) p)"
                " nil))"
                " (equal x y)))", "(rank as)")
    rules = formula_rules(book) + equation_rules(book)
    book.prove("provable-strip",
               f"(implies {is_formula('p')} {provable('f')} {provable('(logic.por p (ladder.strip f p))')})",
               unfold=["ladder.strip"], use=[book.at("PROVABLE-EXPANSION", a="f", b="p")], rules=rules)
    second, third = f"(second {HEAD})", f"(third {HEAD})"
    transitive = [book.at("PROVABLE-DISJOINED-TRANSITIVITY-OF-PEQUAL", p="p", a="x", b=z, c="y")
                  for z in (second, third)]
    prove_along(book, "provable-chain",
                f"(implies {ASSUMPTION} {is_formula('p')} {is_term('x')} {all_provable('as')}"
                f" (ladder.chainp x y as p) {provable('(logic.por p (logic.pequal x y))')})",
                "as", [{"as": "(cdr as)", "x": third}, {"as": "(cdr as)", "x": second}], rules=rules, depth=9,
                use=[book.definition_at("ladder.chainp", "x", "y", "as", "p"), book.at("PROVABLE-STRIP", f="(car as)"),
                     book.at("FIRST-OF-PROVABLES"), book.at("REST-OF-PROVABLES"),
                     book.at("PROVABLE-REFLEXIVITY", a="x"),
                     book.at("PROVABLE-EXPANSION", a="(logic.pequal x x)", b="p"),
                     book.at("PROVABLE-DISJOINED-COMMUTE-PEQUAL", p="p", a=second, b="x"), *transitive])
    book.prove("term-of-chain",
               f"(implies {is_formula('p')} {all_provable('as')} (consp as) (ladder.chainp x y as p) {is_term('x')})",
               use=[book.definition_at("ladder.chainp", "x", "y", "as", "p"), book.at("PROVABLE-STRIP", f="(car as)"),
                    book.at("FIRST-OF-PROVABLES")], rules=rules, depth=9)


def add_disjoined_chain(checker: Checker) -> None:
    """Adds DISJOINED-CHAIN.  P is a formula where some premise has it; else FORMULAP is asked."""
    book = checker.book
    book.define("(ladder.has-under (p as) (if (consp as) (if (equal (car as) (logic.por p (third (car as)))) t"
                " (ladder.has-under p (cdr as))) nil))", "(rank as)")
    prove_along(book, "formula-of-has-under",
                f"(implies (ladder.has-under p as) {all_provable('as')} {is_formula('p')})", "as", [{"as": "(cdr as)"}],
                use=[book.definition_at("ladder.has-under", "p", "as"), book.at("FIRST-OF-PROVABLES"),
                     book.at("REST-OF-PROVABLES")], rules=formula_rules(book) + equation_rules(book), depth=9)
    book.define("(ladder.disjoined-chain-okp (c as atbl)"
                " (let ((p (second c)) (x (second (third c))) (y (third (third c))))"
                " (and (equal c (logic.por p (logic.pequal x y))) (consp as) (ladder.chainp x y as p)"
                "  (if (ladder.has-under p as) t (logic.formulap p atbl)))))")
    p, x, y = "(second c)", "(second (third c))", "(third (third c))"
    sound = book.prove("disjoined-chain-okp-is-sound",
                       f"(implies {ASSUMPTION} (ladder.disjoined-chain-okp c as atbl) {all_provable('as')}"
                       f" {provable('c')})",
                       unfold=["ladder.disjoined-chain-okp"],
                       use=[book.at("PROVABLE-CHAIN", p=p, x=x, y=y), book.at("TERM-OF-CHAIN", p=p, x=x, y=y),
                            book.at("FORMULA-OF-HAS-UNDER", p=p)])
    checker.add_step("DISJOINED-CHAIN", "(if e nil (ladder.disjoined-chain-okp c as atbl))", disjoined_chain_test,
                     sound)


def add_plain_chain(checker: Checker) -> None:
    """Adds CHAIN: under the negation of the first premise, which then goes out."""
    book = checker.book
    book.define("(ladder.chain-okp (c as) (let ((p (logic.pnot (first as))) (x (second c)) (y (third c)))"
                " (and (equal c (logic.pequal x y)) (consp as) (ladder.chainp x y as p))))")
    p, x, y = "(logic.pnot (first as))", "(second c)", "(third c)"
    sound = book.prove("chain-okp-is-sound",
                       f"(implies {ASSUMPTION} (ladder.chain-okp c as) {all_provable('as')} {provable('c')})",
                       unfold=["ladder.chain-okp"], rules=formula_rules(book), depth=9,
                       use=[book.at("PROVABLE-CHAIN", p=p, x=x, y=y), book.at("TERM-OF-CHAIN", p=p, x=x, y=y),
                            book.at("FIRST-OF-PROVABLES"), book.at("PROVABLE-MODUS-PONENS", a="(first as)", b="c")])
    checker.add_step("CHAIN", "(if e nil (ladder.chain-okp c as))", chain_test, sound)


def add_chain_rules(checker: Checker) -> None:
    """Adds ASSUMPTION, INSTANCE and the chains to a checker that has the rules of equality."""
    add_assumption(checker)
    add_instance(checker)
    checker.assumption = ASSUMPTION
    verify_chains(checker.book)
    add_disjoined_chain(checker)
    add_plain_chain(checker)
