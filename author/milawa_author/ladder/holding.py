"""What the parts of a trace say under a clause C, and how they are put together: clauses whose literals are struck out.

A trace says a formula F, which means that `C or F` is provable; or T, that C is; or NIL, nothing.  HOLDS is that claim,
and ALL-HOLD that of each member of a list.  STRIKE takes literals out of a clause that is said, by what refutes them.
"""
from ..book import Book
from .texts import ENV, formula_rules, is_formula, provable, prove_along


def holds(r: str, c: str = "c") -> str:
    """What is said under c holds."""
    return f"(ladder.holds {r} {c} {ENV})"


def all_hold(rs: str, c: str = "c") -> str:
    """All that is said holds."""
    return f"(ladder.all-hold {rs} {c} {ENV})"


def under(f: str, c: str = "c") -> str:
    """`c or f` is provable."""
    return provable(f"(logic.por {c} {f})")


def opened_holds(book: Book, *rs: str, c: str = "c") -> list:
    """What HOLDS means of some terms."""
    return [book.definition_at("ladder.holds", r, c, "axioms", "thms", "atbl") for r in rs]


def opened_all(book: Book, rs: str, c: str = "c") -> list:
    """What ALL-HOLD means of a list, and HOLDS of its first member."""
    return [book.definition_at("ladder.all-hold", rs, c, "axioms", "thms", "atbl"),
            *opened_holds(book, f"(car {rs})", c=c)]


def verify_holding(book: Book) -> None:
    """HOLDS and ALL-HOLD, and that what holds under c does so under `c or f`."""
    book.define(f"(ladder.holds (r c {ENV}) (if (equal r 't) {provable('c')} (if r {under('r')} t)))")
    book.define(f"(ladder.all-hold (rs c {ENV}) (if (consp rs) (if {holds('(car rs)')} {all_hold('(cdr rs)')} nil) t))",
                "(rank rs)")
    more = "(logic.por c f)"
    book.prove("later-formula", f"(implies {under('r')} {is_formula('f')} {under('r', more)})",
               rules=formula_rules(book), depth=9,
               use=[book.at("PROVABLE-EXPANSION", a="(logic.por c r)", b="f"),
                    book.at("PROVABLE-ASSOCIATIVITY", a="f", b="c", c="r"),
                    book.at("PROVABLE-LHS-COMMUTE-OR-THEN-RASSOC", a="f", b="c", c="r"),
                    book.at("PROVABLE-ASSOCIATIVITY", a="c", b="f", c="r")])
    book.prove("holds-later", f"(implies {holds('r')} {is_formula('f')} {holds('r', more)})",
               use=[*opened_holds(book, "r"), *opened_holds(book, "r", c=more), book.at("LATER-FORMULA"),
                    book.at("PROVABLE-RIGHT-EXPANSION", a="c", b="f")])
    prove_along(book, "all-hold-later", f"(implies {all_hold('rs')} {is_formula('f')} {all_hold('rs', more)})", "rs",
                [{"rs": "(cdr rs)"}],
                use=[*opened_all(book, "rs")[:1], *opened_all(book, "rs", c=more)[:1],
                     book.at("HOLDS-LATER", r="(car rs)")])


def verify_strike(book: Book) -> None:
    """STRIKE, and that what it leaves of a clause holds."""
    book.define("(ladder.refutesp-literal (r l) (if (equal r (logic.pnot l)) t (equal l (logic.pnot r))))")
    book.define("(ladder.join (x y) (if y (if (equal y 't) x (logic.por x y)) nil))")
    book.define("(ladder.strike (k rs) (if (consp rs) (if (consp (cdr rs))"
                " (if (equal k (logic.por (second k) (third k))) (if (car rs)"
                "  (if (ladder.refutesp-literal (car rs) (second k)) (ladder.strike (third k) (cdr rs)) nil)"
                "  (ladder.join (second k) (ladder.strike (third k) (cdr rs)))) nil)"
                " (if (car rs) (if (ladder.refutesp-literal (car rs) k) 't nil) k)) nil))", "(rank rs)")
    rules, r, a, b = formula_rules(book), "(car rs)", "(second k)", "(third k)"
    refutes = "(ladder.refutesp-literal r l)"
    book.prove("last-is-struck", f"(implies {holds('r')} r {refutes} (!= r 't) {under('l')} {provable('c')})",
               unfold=["ladder.refutesp-literal", "logic.pnot"], rules=rules, depth=9,
               use=[*opened_holds(book, "r"), book.at("PROVABLE-COMMUTE-OR", a="c", b="l"),
                    book.at("PROVABLE-COMMUTE-OR", a="c", b="r"),
                    book.at("PROVABLE-CUT", a="l", b="c", c="c"), book.at("PROVABLE-CUT", a="r", b="c", c="c"),
                    book.at("PROVABLE-CONTRACTION", a="c")])
    book.prove("literal-is-struck",
               f"(implies {holds('r')} r {refutes} (!= r 't) {under('(logic.por l f)')} {under('f')})",
               unfold=["ladder.refutesp-literal", "logic.pnot"], rules=rules, depth=9,
               use=[*opened_holds(book, "r"), book.at("PROVABLE-DISJOINED-MODUS-PONENS", p="c", a="r", b="f"),
                    book.at("PROVABLE-DISJOINED-MODUS-PONENS-2", p="c", a="l", b="f")])
    book.prove("truth-refutes-nothing", "(implies (= (ladder.refutesp-literal 't l) 't) (= l (logic.pnot 't)))",
               unfold=["ladder.refutesp-literal", "logic.pnot"])
    rest, more = f"(ladder.strike {b} (cdr rs))", f"(logic.por c {a})"
    book.prove("join-holds", f"(implies {is_formula('c')} {is_formula('a')} {holds('y', '(logic.por c a)')}"
               f" {holds('(ladder.join a y)')})", unfold=["ladder.join"],
               use=[*opened_holds(book, "y", c="(logic.por c a)"), *opened_holds(book, "(ladder.join a y)"),
                    book.at("PROVABLE-RIGHT-ASSOCIATIVITY", a="c", b="a", c="y"), book.at("TRUTH-IS-NO-FORMULA"),
                    book.definition_at("logic.por", "a", "y")])
    prove_along(book, "strike-holds",
                f"(implies {is_formula('c')} {under('k')} {all_hold('rs')} {holds('(ladder.strike k rs)')})", "rs",
                [{"rs": "(cdr rs)", "k": b}, {"rs": "(cdr rs)", "k": b, "c": more}],
                rules=rules, depth=9,
                use=[book.definition_at("ladder.strike", "k", "rs"), *opened_all(book, "rs")[:1],
                     *opened_holds(book, "(ladder.strike k rs)", "k", "'t", "'nil"),
                     book.at("LAST-IS-STRUCK", r=r, l="k"), book.at("LITERAL-IS-STRUCK", r=r, l=a, f=b),
                     book.at("ALL-HOLD-LATER", rs="(cdr rs)", f=a), book.at("JOIN-HOLDS", a=a, y=rest),
                     book.at("PROVABLE-ASSOCIATIVITY", a="c", b=a, c=b), book.at("TRUTH-IS-NO-FORMULA"),
                     *[book.definition_at("ladder.refutesp-literal", r, l) for l in ("k", a)],
                     book.at("NO-NEGATION-OF-TRUTH", a="k"), book.at("NO-NEGATION-OF-TRUTH", a=a),
                     book.definition_at("logic.pnot", "k"), book.definition_at("logic.pnot", a)])


def verify_truth(book: Book) -> None:
    """T is no formula, and neither is its negation."""
    book.prove("truth-is-no-formula", "(= (logic.formulap 't atbl) 'nil)",
               use=[book.definition_at("logic.formulap", "'t", "atbl")])
    book.prove("no-negation-of-truth", f"(implies {is_formula('a')} (!= a (logic.pnot 't)))",
               use=[book.at("TRUTH-IS-NO-FORMULA"), book.at("FORMULA-PNOT-A", a="'t")])
