"""Two rules that appeal in one step, as tests in a book, proved sound.

 - ASSUMPTION: conclude a disjunction that has X and `not X` among its parts; extras are `(X)`.
 - INSTANCE: conclude F/s for an axiom or theorem F; extras are `(F s)`.
"""
from typing import Optional

from ..book import Book
from ..logic.objects import Object, Pair, items
from ..logic.substitution import substitute, substitution_of
from ..logic.terms import negation
from ..logic.theory import Test, Theory
from ..rules.disjunctions import is_inside
from .checkers import Checker
from .texts import ENV, core, equation_rules, formula_rules, is_formula, is_term, provable, prove_along


def assumption_test(conclusion: Pair, premises: list[Pair], extras: Object) -> Optional[str]:
    """The test of ASSUMPTION on formulas: None, or why it does not hold."""
    members = items(extras)
    if premises or not members or len(members) != 1:
        return "takes no premise and one formula as extras"
    if not is_inside(members[0], conclusion) or not is_inside(negation(members[0]), conclusion):
        return "the formula and its negation do not both stand in the conclusion"
    return None


def instance_test(theory: Theory) -> Test:
    """The test of INSTANCE on formulas of a theory."""
    def test(conclusion: Pair, premises: list[Pair], extras: Object) -> Optional[str]:
        members = items(extras)
        if premises or not members or len(members) != 2:
            return "takes no premise, and a formula and a substitution as extras"
        if members[0] not in theory.axioms and members[0] not in theory.theorems:
            return "the formula is neither an axiom nor a theorem"
        pairs = substitution_of(members[1])
        if pairs is None or substitute(members[0], pairs) is not conclusion:
            return "the conclusion is not that instance"
        return None
    return test


def add_assumption(checker: Checker) -> None:
    """Adds ASSUMPTION, from the implications of INSIDEP."""
    book, x = checker.book, "(first e)"
    use = [book.at("INSIDE-IMPLIES", a=x, c="c"), book.at("INSIDE-IMPLIES", a=f"(logic.pnot {x})", c="c"),
           book.at("PROVABLE-CUT", a=f"(logic.pnot {x})", b="c", c="c"), book.at("PROVABLE-CONTRACTION", a="c")]
    book.define("(ladder.assumption-okp (c as e atbl) (and (equal as nil) (ladder.insidep (first e) c)"
                " (ladder.insidep (logic.pnot (first e)) c) (logic.formulap c atbl)))")
    sound = book.prove("assumption-okp-is-sound", f"(implies (ladder.assumption-okp c as e atbl) {provable('c')})",
                       unfold=["ladder.assumption-okp"], use=use)
    checker.add_step("ASSUMPTION", "(ladder.assumption-okp c as e atbl)", assumption_test, sound)


def verify_term_substitution(book: Book) -> None:
    """TERM-OF-SUBSTITUTE: terms put for the variables of a term make a term."""
    image = "(logic.flag-substitute {} {} s)"
    prove_along(book, "term-of-lookup",
                f"(implies (logic.sigmap s atbl) (logic.lookup x s) {is_term('(cdr (logic.lookup x s))')})",
                "s", [{"s": "(cdr s)"}],
                use=[book.definition_at("logic.sigmap", "s", "atbl"), book.definition_at("logic.lookup", "x", "s")])
    image_of_list = image.format("'list", "x")
    prove_along(book, "len-of-substitute", f"(= (logic.len {image_of_list}) (logic.len x))", "x", [{"x": "(cdr x)"}],
                use=[book.definition_at("logic.flag-substitute", "'list", "x", "s"),
                     book.definition_at("logic.len", "x")],
                unfold=["logic.len"])
    whole = image.format("flag", "x")
    prove_along(book, "term-of-substitute",
                "(implies (logic.sigmap s atbl) (logic.flag-termp flag x atbl)"
                f" (logic.flag-termp flag {whole} atbl))",
                "x", [{"flag": "'list", "x": "(cdr x)"}, {"flag": "'term", "x": "(car x)"}],
                use=[book.definition_at("logic.flag-termp", "flag", "x", "atbl"),
                     book.definition_at("logic.flag-termp", "flag", whole, "atbl"),
                     book.definition_at("logic.flag-substitute", "flag", "x", "s"), book.at("TERM-OF-LOOKUP"),
                     book.definition_at("logic.termp", "(cdr (logic.lookup x s))", "atbl"),
                     book.at("LEN-OF-SUBSTITUTE", x="(cdr x)")])


def verify_substitution(book: Book) -> None:
    """FORMULA-OF-INSTANCE: terms put for the variables of a formula make a formula."""
    verify_term_substitution(book)
    terms = []
    for half in ("(second a)", "(third a)"):
        terms += [book.at("TERM-OF-SUBSTITUTE", flag="'term", x=half),
                  book.definition_at("logic.substitute", half, "s"),
                  book.definition_at("logic.termp", half, "atbl"),
                  book.definition_at("logic.termp", f"(logic.substitute {half} s)", "atbl")]
    image = is_formula("(logic.formula-substitute a s)")
    prove_along(book, "formula-of-instance", f"(implies (logic.sigmap s atbl) {is_formula('a')} {image})",
                "a", [{"a": "(second a)"}, {"a": "(third a)"}], depth=9,
                use=[book.definition_at("logic.formulap", "a", "atbl"),
                     book.definition_at("logic.formula-substitute", "a", "s"), *terms],
                rules=formula_rules(book) + equation_rules(book))


def verify_appeals(book: Book) -> None:
    """PROVABLE-AXIOM, PROVABLE-THEOREM and PROVABLE-INSTANTIATION, each from the method of that name."""
    nothing = book.at("ALL-PROVABLE-OF-NIL")
    for method, pool in (("axiom", "axioms"), ("theorem", "thms")):
        book.prove(f"provable-{method}", f"(implies (logic.memberp c {pool}) {is_formula('c')} {provable('c')})",
                   unfold=["ladder.core", "logic.len"],
                   use=[book.at("PROVABLE-BY-CORE", m=f"'{method}", c="c", as_="'nil", e="'nil"), nothing,
                        book.definition_at("ladder.core", f"'{method}", "c", "'nil", "'nil", "axioms", "thms", "atbl")])
    one, instantiation = "(cons a 'nil)", "'instantiation"
    book.prove("core-instantiation",
               f"(= {core(instantiation, 'c', one, 's')} (logic.instantiation-okp c a s atbl))",
               unfold=["ladder.core", "logic.len"])
    book.prove("provable-instantiation",
               f"(implies {provable('a')} (logic.instantiation-okp c a s atbl) {is_formula('c')} {provable('c')})",
               use=[book.at("PROVABLE-BY-CORE", m=instantiation, c="c", as_=one, e="s"), nothing,
                    book.at("CORE-INSTANTIATION"), book.at("ALL-PROVABLE-OF-CONS", x="a", xs="'nil")])


def add_instance(checker: Checker) -> None:
    """Adds INSTANCE."""
    book = checker.book
    verify_substitution(book)
    verify_appeals(book)
    f, s = "(first e)", "(second e)"
    book.define("(ladder.instance-okp (c as e axioms thms atbl) (and (equal as nil)"
                f" (if (logic.memberp {f} thms) t (logic.memberp {f} axioms)) (logic.formulap {f} atbl)"
                f" (logic.instantiation-okp c {f} {s} atbl)))")
    sound = book.prove("instance-okp-is-sound",
                       f"(implies (ladder.instance-okp c as e {ENV}) {provable('c')})", unfold=["ladder.instance-okp"],
                       use=[book.at("PROVABLE-AXIOM", c=f), book.at("PROVABLE-THEOREM", c=f),
                            book.at("PROVABLE-INSTANTIATION", a=f, s=s), book.at("FORMULA-OF-INSTANCE", a=f, s=s),
                            book.definition_at("logic.instantiation-okp", "c", f, s, "atbl")])
    checker.add_step("INSTANCE", f"(ladder.instance-okp c as e {ENV})", instance_test(book.theory), sound)
