"""Terms and theorems about provability, as texts: what the modules of the ladder are written in.

The variables AXIOMS, THMS and ATBL stand for the lists that a checker is handed.
"""
from ..book import Book
from ..logic.kernel import Case, Proof
from ..logic.notation import term
from ..logic.objects import Object, Pair
from ..logic.terms import call, holds
from ..logic.text import write
from ..prover.induction import induct

ENV = "axioms thms atbl"


def provable(x: str) -> str:
    """The formula x is provable."""
    return f"(logic.provablep {x} {ENV})"


def all_provable(xs: str) -> str:
    """All members of the list xs are provable."""
    return f"(ladder.all-provablep {xs} {ENV})"


def is_formula(x: str) -> str:
    """x is a formula."""
    return f"(logic.formulap {x} atbl)"


def is_term(x: str) -> str:
    """x is a term."""
    return f"(logic.termp {x} atbl)"


def witness(x: str) -> str:
    """A proof of x, where there is one."""
    return f"(logic.provable-witness {x} {ENV})"


def witnesses(xs: str) -> str:
    """Such proofs of the members of xs."""
    return f"(ladder.witnesses {xs} {ENV})"


def core(method: str, conclusion: str, premises: str, extras: str = "'nil") -> str:
    """A step by the twelve methods, as a test on what it looks at."""
    return f"(ladder.core {method} {conclusion} {premises} {extras} {ENV})"


def quoted(x: Object) -> str:
    """The constant of an object."""
    return "'" + write(x, labels=False)


def list_of(parts: list[str]) -> str:
    """The list of some terms, by CONS."""
    text = "'nil"
    for part in reversed(parts):
        text = f"(cons {part} {text})"
    return text


# ---- theorems of a book ------------------------------------------------------------------------------------

def prove_along(book: Book, name: str, goal: str, variable: str, hypotheses: list[dict[str, str]], **options) -> Proof:
    """VERIFY by induction on the rank of a variable that is a pair, with these substitutions (texts) in the
    hypotheses; the options are those of the prover, with more splits."""
    options = {"splits": 200, **options}
    cases: list[Case] = [(holds(call("CONSP", variable.upper())),
                          [{v.upper(): term(t) for v, t in h.items()} for h in hypotheses])]
    return book.verify(name, induct(book, goal, call("RANK", variable.upper()), cases, **options))


def formula_rules(book: Book) -> list[tuple[Pair, Proof]]:
    """The prover's rules on FORMULAP of disjunctions and negations."""
    por, pnot = is_formula("(logic.por a b)"), is_formula("(logic.pnot a)")
    return [book.rule("FORMULA-POR", por), book.rule("FORMULA-POR-A", por), book.rule("FORMULA-POR-B", por),
            book.rule("FORMULA-PNOT", pnot), book.rule("FORMULA-PNOT-A", pnot),
            book.rule("FORMULA-OF-PROVABLE", provable("x"))]


def equation_rules(book: Book) -> list[tuple[Pair, Proof]]:
    """The prover's rules on FORMULAP of equations."""
    whole = is_formula("(logic.pequal a b)")
    return [book.rule(name, whole) for name in ("FORMULA-PEQUAL", "FORMULA-PEQUAL-A", "FORMULA-PEQUAL-B")]


def list_rules(book: Book) -> list[tuple[Pair, Proof]]:
    """The prover's rules on the members of a list of provable formulas."""
    return [book.rule(name, all_provable("(cons x xs)")) for name in ("FIRST-OF-ALL-PROVABLE", "REST-OF-ALL-PROVABLE")]
