"""Calls of one function: the formula of FUNCTIONAL-EQUALITY for two of them is provable."""
from ..book import Book
from ..logic.kernel import Proof
from ..logic.notation import term
from .texts import ENV, equation_rules, formula_rules, is_formula, is_term, provable, prove_along


def natural_length(book: Book) -> Proof:
    """(natp (logic.len (cdr x))) = t."""
    if "NATP-OF-LEN" not in book.lemmas:
        book.prove_by_list("natp-of-len", "(= (natp (logic.len x)) 't)", "x", unfold=["logic.len"],
                           rules=[(term("(+ a b)"), book.axiom_at(27))])
    return book.at("NATP-OF-LEN", x="(cdr x)")


def verify_lengths(book: Book) -> None:
    """The length of a list and that of its CDR."""
    book.prove("len-of-cdr", "(implies (consp x) (= (logic.len (cdr x)) (- (logic.len x) '1)))",
               unfold={"logic.len": "once"},
               use=[book.axiom_at(50, a="'1", b="(logic.len (cdr x))"),
                    book.axiom_at(28, a="'0", b="(logic.len (cdr x))"),
                    book.axiom_at(30, a="(logic.len (cdr x))"), natural_length(book)])
    book.prove("len-of-consp", "(implies (consp x) (!= (logic.len x) '0))", unfold={"logic.len": "once"},
               use=[book.axiom_at(28, a="'1", b="(logic.len (cdr x))"),
                    book.at("POSITIVE-SUCCESSOR", b="(logic.len (cdr x))")])


def verify_disjuncts(book: Book) -> None:
    """LOGIC.FEQ, which makes the formula of FUNCTIONAL-EQUALITY: its last disjunct, and that it is a formula."""
    feq, both = book.definition_at("logic.feq", "xs", "ys", "e"), {"xs": "(cdr xs)", "ys": "(cdr ys)"}
    prove_along(book, "last-of-feq",
                "(implies (equal (car e) 'pequal*) (= (logic.last-disjunct (logic.feq xs ys e)) e))",
                "xs", [both], unfold=["logic.por"],
                use=[feq, book.definition_at("logic.last-disjunct", "(logic.feq xs ys e)"), book.axiom_at(12, x="e")])
    lists = "(logic.flag-termp 'list xs atbl) (logic.flag-termp 'list ys atbl) (= (logic.len xs) (logic.len ys))"
    prove_along(book, "formula-feq", f"(implies {lists} {is_formula('e')} {is_formula('(logic.feq xs ys e)')})",
                "xs", [both], rules=formula_rules(book) + equation_rules(book), depth=9,
                use=[feq, book.definition_at("logic.flag-termp", "'list", "xs", "atbl"),
                     book.definition_at("logic.flag-termp", "'list", "ys", "atbl"), book.at("LEN-OF-CDR", x="xs"),
                     book.at("LEN-OF-CDR", x="ys"), book.at("LEN-OF-CONSP", x="xs"),
                     book.definition_at("logic.len", "ys"), book.definition_at("logic.termp", "(car xs)", "atbl"),
                     book.definition_at("logic.termp", "(car ys)", "atbl")])


def verify_functional_equality(book: Book) -> None:
    """PROVABLE-FUNCTIONAL-EQUALITY, for two calls L and R of one function."""
    verify_lengths(book)
    verify_disjuncts(book)
    book.prove("call-parts", f"(implies {is_term('l')} (consp l) (symbolp (car l)) (!= (car l) 'quote)"
               " (logic.flag-termp 'list (cdr l) atbl))", unfold=["logic.termp"],
               use=[book.definition_at("logic.flag-termp", "'term", "l", "atbl"),
                    book.axiom_at(23, x="(car l)")])
    book.prove("call-arity", f"(implies {is_term('l')} (consp l) (symbolp (car l)) (!= (car l) 'quote)"
               " (= (logic.len (cdr l)) (cdr (logic.lookup (car l) atbl))))", unfold=["logic.termp"],
               use=[book.definition_at("logic.flag-termp", "'term", "l", "atbl"),
                    book.axiom_at(23, x="(car l)")])
    good = "(consp l) (consp r) (symbolp (car l)) (!= (car l) 'quote) (= (car l) (car r))"
    e = "(logic.pequal l r)"
    c = f"(logic.feq (cdr l) (cdr r) {e})"
    book.prove("formula-functional-equality", f"(implies {is_formula(e)} {good} {is_formula(c)})",
               rules=equation_rules(book), depth=9,
               use=[book.at("FORMULA-FEQ", xs="(cdr l)", ys="(cdr r)", e=e), book.at("CALL-PARTS"),
                    book.at("CALL-ARITY"), book.at("CALL-PARTS", l="r"), book.at("CALL-ARITY", l="r")])
    book.prove("core-functional-equality", f"(implies {good} (ladder.core 'functional-equality {c} 'nil 'nil {ENV}))",
               unfold=["ladder.core", "logic.len", "logic.functional-equality-okp", "logic.pequal"],
               use=[book.at("LAST-OF-FEQ", xs="(cdr l)", ys="(cdr r)", e=e)])
    book.prove("provable-functional-equality", f"(implies {is_formula(e)} {good} {provable(c)})",
               use=[book.at("PROVABLE-BY-CORE", m="'functional-equality", c=c, as_="'nil", e="'nil"),
                    book.at("CORE-FUNCTIONAL-EQUALITY"), book.at("ALL-PROVABLE-OF-NIL"),
                    book.at("FORMULA-FUNCTIONAL-EQUALITY")])
