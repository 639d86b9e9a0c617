"""A faster look at formulas for checkers in a book.

Nearly all units of a checker in a book go into LOGIC.FORMULAP, and there into looking up names in an arity table whose
oldest entries, the primitives, stand last.  LADDER.CACHED puts the entries of some names in front.  This changes no
look-up, hence no answer of FORMULAP, hence no proof: PROVABLE-OF-CACHED says that what is provable under the longer
table is provable.
"""
from ..book import Book
from ..logic.kernel import Proof
from .texts import prove_along

NAMES = ("if", "equal", "consp", "cons", "car", "cdr", "logic.provablep", "ladder.all-provablep", "logic.formulap",
         "logic.por", "logic.pnot", "logic.pequal", "logic.termp", "logic.len", "+", "rank", "ord<", "<", "natp",
         "ordp", "logic.flag-termp", "symbolp", "ladder.core", "logic.lookup")
# For a checker after which no other is proved sound: the ladder's own functions are not among its names.
LAST_NAMES = ("if", "equal", "consp", "car", "cdr", "cons", "<", "+", "natp", "-", "rank", "ord<")
CACHED = "(ladder.cached names atbl)"


def names_constant(names: tuple[str, ...] = NAMES) -> str:
    """The constant list of some names, as text."""
    return "'(" + " ".join(names) + ")"


def _both(book: Book, name: str, *parts: str) -> list[Proof]:
    """The definition under both tables."""
    return [book.definition_at(name, *parts, table) for table in (CACHED, "atbl")]


def _same(name: str, *parts: str) -> str:
    """The formula that a function of the built-in judge has the same value under both tables."""
    return "(= ({0} {1} {2}) ({0} {1} atbl))".format(name, " ".join(parts), CACHED)


def verify_lookups(book: Book) -> None:
    """LADDER.CACHED, and that looking up a name in the longer table gives the same."""
    book.define("(ladder.cached (names atbl) (if (consp names) (if (logic.lookup (car names) atbl)"
                " (cons (logic.lookup (car names) atbl) (ladder.cached (cdr names) atbl))"
                " (ladder.cached (cdr names) atbl)) atbl))", "(rank names)")
    prove_along(book, "name-of-lookup", "(implies (logic.lookup f x) (= (car (logic.lookup f x)) f))", "x",
                [{"x": "(cdr x)"}], use=[book.definition_at("logic.lookup", "f", "x")])
    extended = "(cons (logic.lookup (car names) atbl) (ladder.cached (cdr names) atbl))"
    prove_along(book, "lookup-in-cached", _same("logic.lookup", "f"), "names", [{"names": "(cdr names)"}],
                use=[book.definition_at("ladder.cached", "names", "atbl"),
                     book.at("NAME-OF-LOOKUP", f="(car names)", x="atbl"),
                     book.definition_at("logic.lookup", "f", extended)])


def verify_forms(book: Book) -> None:
    """Terms, formulas and substitutions are the same under both tables."""
    term_parts = [{"flag": "'term", "x": "(third (car x))"}, {"flag": "'list", "x": "(cdr x)"},
                  {"flag": "'term", "x": "(car x)"}]
    prove_along(book, "termp-of-cached", _same("logic.flag-termp", "flag", "x"), "x", term_parts,
                use=_both(book, "logic.flag-termp", "flag", "x") + [book.at("LOOKUP-IN-CACHED", f="(car x)")])

    def termp(x: str) -> list[Proof]:
        return _both(book, "logic.termp", x) + [book.at("TERMP-OF-CACHED", flag="'term", x=x)]

    prove_along(book, "formulap-of-cached", _same("logic.formulap", "x"), "x",
                [{"x": "(second x)"}, {"x": "(third x)"}],
                use=_both(book, "logic.formulap", "x") + termp("(second x)") + termp("(third x)"))
    prove_along(book, "sigmap-of-cached", _same("logic.sigmap", "x"), "x", [{"x": "(cdr x)"}],
                use=_both(book, "logic.sigmap", "x") + termp("(cdr (car x))"))
    for name, part in (("sigma-listp", "sigmap"), ("sigma-list-listp", "sigma-listp")):
        prove_along(book, f"{name}-of-cached", _same(f"logic.{name}", "x"), "x", [{"x": "(cdr x)"}],
                    use=_both(book, f"logic.{name}", "x") + [book.at(f"{part}-of-cached", x="(car x)")])


def verify_steps(book: Book) -> None:
    """A step is judged the same under both tables."""
    book.prove("instantiation-of-cached", _same("logic.instantiation-okp", "c", "a", "s"),
               use=_both(book, "logic.instantiation-okp", "c", "a", "s") + [book.at("SIGMAP-OF-CACHED", x="s")])
    book.prove("induction-of-cached", _same("logic.induction-okp", "c", "as", "e"), unfold=["logic.induction-okp"],
               use=[book.at("SIGMA-LIST-LISTP-OF-CACHED", x="(third e)")])
    book.prove("core-of-cached", _same("ladder.core", "m", "c", "as", "e", "axioms", "thms"), unfold=["ladder.core"],
               use=[book.at("INSTANTIATION-OF-CACHED", a="(first as)", s="e"), book.at("INDUCTION-OF-CACHED")],
               splits=200)


def verify_cached(book: Book) -> None:
    """PROVABLE-OF-CACHED, by way of proofs under both tables."""
    verify_lookups(book)
    verify_forms(book)
    verify_steps(book)
    steps = [book.at("STEP-IS-CORE"), book.at("STEP-IS-CORE", atbl=CACHED),
             book.at("CORE-OF-CACHED", m="(car x)", c="(second x)", as_="(logic.conclusions (third x))",
                     e="(fourth x)")]
    prove_along(book, "proofp-of-cached", _same("logic.flag-proofp", "flag", "x", "axioms", "thms"), "x",
                [{"flag": "'list", "x": "(third x)"}, {"flag": "'proof", "x": "(car x)"},
                 {"flag": "'list", "x": "(cdr x)"}],
                use=_both(book, "logic.flag-proofp", "flag", "x", "axioms", "thms") + steps
                + [book.at("FORMULAP-OF-CACHED", x="(second x)")])
    proof = f"(logic.provable-witness x axioms thms {CACHED})"
    book.prove("provable-of-cached",
               f"(implies (logic.provablep x axioms thms {CACHED}) (logic.provablep x axioms thms atbl))",
               use=[book.at("WITNESS-IS-PROOF", atbl=CACHED), book.at("WITNESS-CONCLUDES", atbl=CACHED),
                    book.at("PROOFP-OF-CACHED", flag="'proof", x=proof), book.at("PROVABLE-BY-PROOF", p=proof)])
