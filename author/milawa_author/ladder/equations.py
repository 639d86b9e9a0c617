"""Equations as formulas, and the rules of equality by pattern: instances of axioms 1 and 2 are provable.

They presuppose that these two are among the axioms that the checker is handed, which LADDER.EQUALITY-AXIOMSP tests.
"""
from collections.abc import Callable

from ..book import Book
from ..logic.kernel import Proof
from ..logic.objects import Pair
from ..logic.terms import is_disjunction, is_equation, left, right
from ..logic.text import write
from ..rules.schemes import SCHEMES
from .checkers import Checker
from .texts import ENV, equation_rules, formula_rules, is_formula, is_term, provable, quoted

ASSUMPTION = "(ladder.equality-axiomsp axioms)"
PATTERN_RULES = """reflexivity equality-axiom commute-pequal transitivity-of-pequal disjoined-commute-pequal
    disjoined-transitivity-of-pequal""".split()


def verify_equations(book: Book) -> None:
    """FORMULAP of equations."""
    use = [book.definition_at("logic.formulap", "(logic.pequal a b)", "atbl")]
    shape = ["logic.pequal", "logic.lenp", "logic.listp", "logic.len"]
    whole = is_formula("(logic.pequal a b)")
    book.prove("formula-pequal", f"(implies {is_term('a')} {is_term('b')} {whole})", unfold=shape, use=use)
    book.prove("formula-pequal-a", f"(implies {whole} {is_term('a')})", unfold=shape, use=use)
    book.prove("formula-pequal-b", f"(implies {whole} {is_term('b')})", unfold=shape, use=use)


EVALUATE = ["ladder.core", "logic.len", "logic.listp", "logic.lenp", "logic.formulap", "logic.termp",
            "logic.flag-termp", "logic.variablep"]
SUBSTITUTE = ["logic.formula-substitute", "logic.substitute", "logic.flag-substitute", "logic.lookup"]


def _name(word: str, f: Pair) -> str:
    return f"{word}-" + write(f, labels=False).upper().replace("(", "").replace(")", "").replace(" ", "-")


def _parts(f: Pair) -> list[Pair]:
    return [left(f), right(f)] if is_disjunction(f) else [left(f)]


def constant_formula(book: Book, f: Pair) -> Proof:
    """The theorem that the constant of a formula over variables is a formula, part by part."""
    name = _name("FORMULA", f)
    if name in book.lemmas:
        return book.lemmas[name]
    if is_equation(f):
        return book.prove(name, is_formula(quoted(f)), unfold=EVALUATE)
    word = "por" if is_disjunction(f) else "pnot"
    use = [constant_formula(book, p) for p in _parts(f)]
    use.append(book.at(f"FORMULA-{word}", **{l: quoted(p) for l, p in zip("ab", _parts(f))}))
    return book.prove(name, is_formula(quoted(f)), unfold=[f"logic.{word}"], use=use)


def constant_substitute(book: Book, f: Pair, pairs: str, image: Callable[[Pair], str]) -> Proof:
    """The theorem that says what substitution makes of the constant of a formula, part by part."""
    name = _name("SUBSTITUTE", f)
    if name in book.lemmas:
        return book.lemmas[name]
    goal = f"(= (logic.formula-substitute {quoted(f)} {pairs}) {image(f)})"
    if is_equation(f):
        return book.prove(name, goal, unfold=SUBSTITUTE)
    use = [constant_substitute(book, p, pairs, image) for p in _parts(f)]
    use.append(book.definition_at("logic.formula-substitute", quoted(f), pairs))
    return book.prove(name, goal, use=use)


def verify_axioms(book: Book) -> None:
    """PROVABLE-AXIOM-ONE and -TWO: axioms 1 and 2, as constants, are provable where they are among the axioms."""
    one, two = book.theory.primitive_axioms[:2]
    book.define(f"(ladder.equality-axiomsp (axioms) (if (logic.memberp {quoted(one)} axioms)"
                f" (logic.memberp {quoted(two)} axioms) nil))")
    for name, f in (("one", one), ("two", two)):
        c = quoted(f)
        is_one = constant_formula(book, f)
        book.prove(f"provable-axiom-{name}", f"(implies {ASSUMPTION} {provable(c)})",
                   unfold=["ladder.core", "logic.len", "ladder.equality-axiomsp"],
                   use=[book.at("PROVABLE-BY-CORE", m="'axiom", c=c, as_="'nil", e="'nil"),
                        book.at("ALL-PROVABLE-OF-NIL"), is_one])


def verify_instances(book: Book) -> None:
    """PROVABLE-REFLEXIVITY and PROVABLE-EQUALITY-AXIOM: their instances are."""
    one, two = book.theory.primitive_axioms[:2]
    verify_instance(book, "reflexivity", one, "one", "(cons (cons 'x a) 'nil)", {"X": "a"})
    pairs = "(cons (cons 'x1 a) (cons (cons 'y1 b) (cons (cons 'x2 c) (cons (cons 'y2 d) 'nil))))"
    verify_instance(book, "equality-axiom", two, "two", pairs, {"X1": "a", "Y1": "b", "X2": "c", "Y2": "d"})


def verify_instance(book: Book, name: str, f: Pair, number: str, pairs: str, letters: dict[str, str]) -> None:
    """The same for one of them: `pairs` is the substitution as a term, and `letters` the variable that stands for the
    term that is put for each variable of the axiom."""
    def image(g: Pair) -> str:
        """The term, as text, for what becomes of a part of the axiom."""
        if is_equation(g):
            return f"(logic.pequal {letters[left(g)]} {letters[right(g)]})"
        return "(logic.{} {})".format("por" if is_disjunction(g) else "pnot", " ".join(map(image, _parts(g))))

    conclusion, terms = image(f), " ".join(map(is_term, letters.values()))
    substituted = constant_substitute(book, f, pairs, image)
    book.prove(f"sigma-of-{name}", f"(implies {terms} (logic.sigmap {pairs} atbl))",
               unfold=["logic.sigmap", "logic.variablep"])
    book.prove(f"core-{name}",
               f"(implies {terms} (ladder.core 'instantiation {conclusion} (cons {quoted(f)} 'nil) {pairs} {ENV}))",
               unfold=["ladder.core", "logic.len", "logic.instantiation-okp"],
               use=[substituted, book.at(f"SIGMA-OF-{name}")])
    book.prove(f"provable-{name}", f"(implies {ASSUMPTION} {terms} {provable(conclusion)})",
               rules=formula_rules(book) + equation_rules(book), depth=9,
               use=[book.at("PROVABLE-BY-CORE", m="'instantiation", c=conclusion, e=pairs,
                       as_=f"(cons {quoted(f)} 'nil)"),
                    book.at(f"CORE-{name}"), book.at(f"PROVABLE-AXIOM-{number}"),
                    book.at("ALL-PROVABLE-OF-CONS", x=quoted(f), xs="'nil"), book.at("ALL-PROVABLE-OF-NIL")])


def add_pattern_rules(checker: Checker) -> None:
    """Adds the rules of equality by pattern: REFLEXIVITY, EQUALITY-AXIOM, COMMUTE-PEQUAL, TRANSITIVITY-OF-PEQUAL, and
    the last two disjoined.  What is added later presupposes axioms 1 and 2."""
    book = checker.book
    verify_equations(book)
    verify_axioms(book)
    verify_instances(book)
    checker.assumption, checker.rules = ASSUMPTION, equation_rules(book)
    for name in ("REFLEXIVITY", "EQUALITY-AXIOM"):
        checker.proved[name] = SCHEMES[name]
    for name in PATTERN_RULES:
        checker.add_rule(name)
