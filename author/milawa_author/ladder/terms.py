"""A faster look at terms, formulas and substitutions, which gives the same answers as the built-in one.

LADDER.FLAG-TERMP looks a name up once where LOGIC.FLAG-TERMP does so twice, and compares a constant with the list that
it must be.  Lambda calls are left to the built-in function.
"""
from ..book import Book
from .texts import is_formula, is_term, prove_along

FAST = "(ladder.flag-termp {} {} atbl)"
SLOW = "(logic.flag-termp {} {} atbl)"


def fast_term(x: str) -> str:
    """x is a term."""
    return FAST.format("'term", x)


def fast_formula(x: str) -> str:
    """x is a formula."""
    return f"(ladder.formulap {x} atbl)"


def fast_sigma(s: str) -> str:
    """s is a substitution."""
    return f"(ladder.sigmap {s} atbl)"


def verify_fast_terms(book: Book) -> None:
    """LADDER.FLAG-TERMP, and that it says the same."""
    constant = "(cons (car x) (cons (car (cdr x)) 'nil))"
    whole, rest = SLOW.format("'term", "x"), FAST.format("'list", "(cdr x)")
    book.define("(ladder.flag-termp (flag x atbl) (if (equal flag 'term) (if (consp x)"
                f" (if (equal (car x) 'quote) (equal x {constant}) (if (consp (car x)) {whole}"
                " (if (symbolp (car x)) (let ((entry (logic.lookup (car x) atbl))) (if entry"
                f" (if (equal (logic.len (cdr x)) (cdr entry)) {rest} nil) nil)) nil)))"
                f" (logic.variablep x)) (if (consp x) (if {fast_term('(car x)')} {rest} nil) (equal x nil))))",
                "(rank x)")
    opened = book.definition_at("logic.flag-termp", "'term", "x", "atbl")
    book.prove("constant-is-boolean", "(or (= (logic.constantp x) 't) (= (logic.constantp x) 'nil))",
               unfold=["logic.constantp", "logic.lenp"])
    book.prove("constant-is-list", f"(implies (consp x) (= (car x) 'quote) (= {whole} (equal x {constant})))",
               use=[opened, book.at("CONSTANT-IS-MADE"), book.definition_at("logic.termp", "x", "atbl"),
                    book.at("TERM-OF-CONSTANT", u="(car (cdr x))"), book.at("CONSTANT-IS-BOOLEAN"),
                    book.definition_at("logic.termp", "(cons 'quote (cons (car (cdr x)) 'nil))", "atbl")])
    prove_along(book, "fast-terms", f"(= {FAST.format('flag', 'x')} {SLOW.format('flag', 'x')})", "x",
                [{"flag": "'term", "x": "(car x)"}, {"flag": "'list", "x": "(cdr x)"}],
                use=[book.definition_at("ladder.flag-termp", "flag", "x", "atbl"),
                     book.definition_at("logic.flag-termp", "flag", "x", "atbl"), book.at("CONSTANT-IS-LIST")])
    book.prove("fast-term", f"(= {fast_term('x')} {is_term('x')})",
               use=[book.at("FAST-TERMS", flag="'term"), book.definition_at("logic.termp", "x", "atbl")])


def verify_fast_formulas(book: Book) -> None:
    """LADDER.FORMULAP and LADDER.SIGMAP, and that they say the same."""
    book.define("(ladder.formulap (x atbl) (if (consp x) (cond ((equal (car x) 'pequal*) (and (logic.lenp x 3)"
                f" {fast_term('(second x)')} {fast_term('(third x)')})) ((equal (car x) 'pnot*) (and (logic.lenp x 2)"
                f" {fast_formula('(second x)')})) ((equal (car x) 'por*) (and (logic.lenp x 3)"
                f" {fast_formula('(second x)')} {fast_formula('(third x)')}))) nil))", "(rank x)")
    prove_along(book, "fast-formulas", f"(= {fast_formula('x')} {is_formula('x')})", "x",
                [{"x": "(second x)"}, {"x": "(third x)"}],
                use=[book.definition_at("ladder.formulap", "x", "atbl"), book.at("FAST-TERM", x="(second x)"),
                     book.definition_at("logic.formulap", "x", "atbl"), book.at("FAST-TERM", x="(third x)")])
    book.define("(ladder.sigmap (s atbl) (if (consp s) (and (consp (car s)) (logic.variablep (car (car s)))"
                f" {fast_term('(cdr (car s))')} {fast_sigma('(cdr s)')}) (equal s nil)))", "(rank s)")
    prove_along(book, "fast-sigmas", f"(= {fast_sigma('s')} (logic.sigmap s atbl))", "s", [{"s": "(cdr s)"}],
                use=[book.definition_at("ladder.sigmap", "s", "atbl"), book.definition_at("logic.sigmap", "s", "atbl"),
                     book.at("FAST-TERM", x="(cdr (car s))")])


def verify_fast(book: Book) -> None:
    """All of the above."""
    verify_fast_terms(book)
    verify_fast_formulas(book)
