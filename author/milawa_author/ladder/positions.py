"""Equations that traces say: chains of them, read in either direction, and equal actuals in a call."""
from ..book import Book
from .equations import ASSUMPTION
from .holding import all_hold, holds, opened_all, opened_holds, under
from .plugging import is_list
from .texts import equation_rules, formula_rules, is_formula, is_term, prove_along

E = "(car es)"


def verify_chains(book: Book) -> None:
    """FOLLOW and CHAIN: equations that lead from one term to another."""
    book.define(f"(ladder.follow (x y es) (if (consp es) (if (equal {E} (logic.pequal y (third {E})))"
                f" (ladder.follow x (third {E}) (cdr es)) (if (equal {E} (logic.pequal (second {E}) y))"
                f" (ladder.follow x (second {E}) (cdr es)) nil)) (logic.pequal x y)))", "(rank es)")
    book.define(f"(ladder.chain (x es) (if (consp es) (if (equal {E} (logic.pequal x (third {E})))"
                f" (ladder.follow x (third {E}) (cdr es)) (if (equal {E} (logic.pequal (second {E}) x))"
                f" (ladder.follow x (second {E}) (cdr es)) nil)) nil))")
    second, third = f"(second {E})", f"(third {E})"
    book.prove("equation-is-no-truth", "(!= (logic.pequal a b) 't)", unfold=["logic.pequal"])
    book.prove("equation-is-something", "(!= (logic.pequal a b) 'nil)", unfold=["logic.pequal"])
    known = [book.at(name, a=a, b=b) for name in ("EQUATION-IS-NO-TRUTH", "EQUATION-IS-SOMETHING")
             for a, b in (("x", "y"), ("y", third), (second, "y"), ("x", third), (second, "x"))]
    rules = formula_rules(book) + equation_rules(book)
    prove_along(book, "follow-holds",
                f"(implies {ASSUMPTION} {is_formula('c')} {under('(logic.pequal x y)')} {all_hold('es')}"
                f" {holds('(ladder.follow x y es)')})", "es",
                [{"es": "(cdr es)", "y": third}, {"es": "(cdr es)", "y": second}], rules=rules, depth=9,
                use=[*known, book.definition_at("ladder.follow", "x", "y", "es"), *opened_all(book, "es"),
                     *opened_holds(book, "(logic.pequal x y)", "'nil"),
                     book.at("PROVABLE-DISJOINED-COMMUTE-PEQUAL", p="c", a=second, b="y"),
                     *[book.at("PROVABLE-DISJOINED-TRANSITIVITY-OF-PEQUAL", p="c", a="x", b="y", c=z)
                       for z in (second, third)]])
    book.prove("chain-holds", f"(implies {ASSUMPTION} {is_formula('c')} {all_hold('es')}"
               f" {holds('(ladder.chain x es)')})", rules=rules, depth=9,
               use=[*known, book.definition_at("ladder.chain", "x", "es"), *opened_all(book, "es"),
                    *opened_holds(book, "'nil"), book.at("FOLLOW-HOLDS", y=third, es="(cdr es)"),
                    book.at("FOLLOW-HOLDS", y=second, es="(cdr es)"),
                    book.at("PROVABLE-DISJOINED-COMMUTE-PEQUAL", p="c", a=second, b="x")])


NEW, CALL = "(ladder.replaced xs es)", "(cons (car l) (ladder.replaced (cdr l) es))"


def verify_replaced(book: Book) -> None:
    """REPLACED: the actuals with those put in that equations give; ALIGNEDP says that the equations are theirs."""
    book.define(f"(ladder.replaced (xs es) (if (consp xs) (cons (if {E} (third {E}) (car xs))"
                " (ladder.replaced (cdr xs) (cdr es))) nil))", "(rank xs)")
    book.define(f"(ladder.alignedp (xs es) (if (consp xs) (if (if {E} (equal {E} (logic.pequal (car xs) (third {E})))"
                " t) (ladder.alignedp (cdr xs) (cdr es)) nil) t))", "(rank xs)")
    both, new = [{"xs": "(cdr xs)", "es": "(cdr es)"}], [book.definition_at("ladder.replaced", "xs", "es")]
    terms = [book.definition_at("logic.flag-termp", "'list", xs, "atbl") for xs in ("xs", NEW)]
    terms += [book.definition_at("logic.termp", t, "atbl") for t in ("(car xs)", f"(third {E})")]
    aligned = [book.definition_at("ladder.alignedp", "xs", "es"), *opened_all(book, "es"), book.axiom_at(12, x="es"),
               book.at("EQUATION-IS-NO-TRUTH", a="(car xs)", b=f"(third {E})")]
    rules = formula_rules(book) + equation_rules(book)
    given = f"(ladder.alignedp xs es) {all_hold('es')} {is_list('xs')}"
    more = [book.definition_at("ladder.all-hold", "(cdr es)", "c", "axioms", "thms", "atbl"), book.axiom_at(13, x="es")]
    prove_along(book, "terms-replaced", f"(implies {given} {is_list(NEW)})", "xs", both, rules=rules, depth=9,
                use=[*new, *terms, *aligned, *more])
    prove_along(book, "len-of-replaced", f"(= (logic.len {NEW}) (logic.len xs))", "xs", both,
                use=[*new, book.definition_at("logic.len", "xs"), book.definition_at("logic.len", NEW),
                     book.definition_at("logic.len", "'nil")], unfold=["logic.len"])
    rest = "(logic.feq (cdr xs) (ladder.replaced (cdr xs) (cdr es)) e)"
    xy = f"(logic.pequal (car xs) (third {E}))"
    same = "(logic.pequal (car xs) (car xs))"
    prove_along(book, "provable-aligned",
                f"(implies {ASSUMPTION} {is_formula('c')} {given} {under(f'(logic.feq xs {NEW} e)')} {under('e')})",
                "xs", both, rules=rules, depth=9,
                use=[*new, *terms, *aligned, *more, book.definition_at("logic.feq", "xs", NEW, "e"),
                     book.at("PROVABLE-REFLEXIVITY", a="(car xs)"), book.at("PROVABLE-EXPANSION", a=same, b="c"),
                     book.at("PROVABLE-DISJOINED-MODUS-PONENS", p="c", a=xy, b=rest),
                     book.at("PROVABLE-DISJOINED-MODUS-PONENS", p="c", a=same, b=rest)])


def verify_congruence(book: Book) -> None:
    """CONGRUE: a call with other actuals is equal to it."""
    book.define("(ladder.congrue (l es) (if (consp l) (if (symbolp (car l)) (if (equal (car l) 'quote) nil"
                f" (if (ladder.alignedp (cdr l) es) (logic.pequal l {CALL}) nil)) nil) nil))")
    good = f"{is_term('l')} (consp l) (symbolp (car l)) (!= (car l) 'quote)"
    hold = f"(ladder.alignedp (cdr l) es) {all_hold('es')}"
    book.prove("term-of-replaced", f"(implies {good} {hold} {is_term(CALL)})",
               use=[book.at("CALL-PARTS"), book.at("CALL-ARITY"), book.at("CALL-LOOKUP"),
                    book.at("TERMS-REPLACED", xs="(cdr l)"), book.at("LEN-OF-REPLACED", xs="(cdr l)"),
                    book.definition_at("logic.termp", CALL, "atbl"),
                    book.definition_at("logic.flag-termp", "'term", CALL, "atbl"), book.axiom_at(23, x="(car l)")])
    e = f"(logic.pequal l {CALL})"
    feq = f"(logic.feq (cdr l) (ladder.replaced (cdr l) es) {e})"
    book.prove("congrue-holds",
               f"(implies {ASSUMPTION} {is_formula('c')} {is_term('l')} {all_hold('es')}"
               f" {holds('(ladder.congrue l es)')})", rules=formula_rules(book) + equation_rules(book), depth=9,
               use=[book.definition_at("ladder.congrue", "l", "es"), *opened_holds(book, "'nil", e),
                    book.at("EQUATION-IS-NO-TRUTH", a="l", b=CALL), book.at("TERM-OF-REPLACED"),
                    book.at("CALL-PARTS"), book.at("FORMULA-PEQUAL", a="l", b=CALL),
                    book.at("PROVABLE-FUNCTIONAL-EQUALITY", r=CALL), book.at("PROVABLE-EXPANSION", a=feq, b="c"),
                    book.at("PROVABLE-ALIGNED", xs="(cdr l)", e=e)])
