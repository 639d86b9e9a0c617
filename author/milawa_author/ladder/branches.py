"""IF on constants: that its axioms' instances are provable, and that different constants are provably unequal.

They presuppose that axioms 3, 4, 6 and 7 are among the axioms that the checker is handed, and formulas under its arity
table, which LADDER.BRANCH-AXIOMSP tests.
"""
from ..book import Book
from ..logic.kernel import Proof
from ..logic.objects import Object, Pair, items
from ..logic.terms import is_constant, is_disjunction, is_equation, left, right, variables
from .equations import ASSUMPTION, SUBSTITUTE
from .texts import equation_rules, formula_rules, is_formula, is_term, list_of, provable, quoted

NUMBERS = (3, 4, 6, 7)
BRANCHES = "(ladder.branch-axiomsp axioms atbl)"
U, V = "(cons 'quote (cons u 'nil))", "(cons 'quote (cons v 'nil))"


def term_image(t: Object) -> str:
    """The term that stands for a term, as text; a variable stands for what is put for it."""
    if isinstance(t, str):
        return t.lower()
    if is_constant(t):
        return quoted(t)
    return list_of([quoted(t.first), *map(term_image, items(t)[1:])])


def image(f: Pair) -> str:
    """The same for a formula."""
    if is_equation(f):
        return f"(logic.pequal {term_image(left(f))} {term_image(right(f))})"
    if is_disjunction(f):
        return f"(logic.por {image(left(f))} {image(right(f))})"
    return f"(logic.pnot {image(left(f))})"


def _formula_variables(f: Pair) -> list[str]:
    parts = [left(f), right(f)] if is_equation(f) or is_disjunction(f) else [left(f)]
    find = variables if is_equation(f) else _formula_variables
    return list(dict.fromkeys(v for p in parts for v in find(p)))


def verify_instance(book: Book, number: int) -> None:
    """PROVABLE-AXIOM-number-INSTANCE: an axiom with terms put for its variables, which stand for themselves."""
    f = book.theory.primitive_axioms[number - 1]
    names = [v.lower() for v in _formula_variables(f)]
    pairs = list_of([f"(cons '{v} {v})" for v in names])
    terms, name = " ".join(map(is_term, names)), f"axiom-{number}-instance"
    made = f"(logic.formula-substitute {quoted(f)} {pairs})"
    substituted = _substituted(book, f, pairs, name)
    sigma = [book.prove(f"sigma-of-{name}", f"(implies {terms} (logic.sigmap {pairs} atbl))" if terms else
                        f"(logic.sigmap {pairs} atbl)", unfold=["logic.sigmap", "logic.variablep"])]
    book.prove(f"provable-{name}", f"(implies {BRANCHES} {terms} {provable(image(f))})",
               unfold=["ladder.branch-axiomsp", "logic.instantiation-okp"],
               use=[substituted, *sigma, book.at("PROVABLE-AXIOM", c=quoted(f)),
                    book.at("PROVABLE-INSTANTIATION", a=quoted(f), s=pairs, c=made),
                    book.at("FORMULA-OF-INSTANCE", a=quoted(f), s=pairs)])


def _substituted(book: Book, f: Pair, pairs: str, name: str) -> Proof:
    """What substitution makes of the constant of a formula, part by part."""
    goal = f"(= (logic.formula-substitute {quoted(f)} {pairs}) {image(f)})"
    name = f"{name}-part"
    if is_equation(f):
        return book.prove(name, goal, unfold=SUBSTITUTE)
    parts = [left(f), right(f)] if is_disjunction(f) else [left(f)]
    use = [_substituted(book, p, pairs, f"{name}-{k}") for k, p in enumerate(parts, 1)]
    return book.prove(name, goal, use=[*use, book.definition_at("logic.formula-substitute", quoted(f), pairs)])


def verify_unequal(book: Book) -> None:
    """PROVABLE-UNEQUAL: two different constants are provably unequal."""
    same, e, no, yes = f"(logic.pequal {U} {V})", list_of(["'equal", U, V]), "''nil", "''t"
    book.prove("term-of-constant", is_term(U),
               unfold=["logic.termp", "logic.constantp", "logic.lenp", "logic.listp", "logic.len"],
               use=[book.definition_at("logic.flag-termp", "'term", U, "atbl")])
    c = f"(logic.pequal {e} {no})"
    book.prove("core-unequal", f"(implies (!= u v) {_core(c)})",
               unfold=["ladder.core", "logic.len", "logic.base-eval-okp", "logic.pequal", "logic.primitivep",
                       "logic.memberp", "logic.const-listp", "logic.constantp", "logic.lenp", "logic.listp",
                       "logic.apply", "logic.unquote-list"], splits=200)
    p, t_is_nil = f"(logic.pnot {same})", f"(logic.pequal {yes} {no})"
    book.prove("provable-unequal", f"(implies {ASSUMPTION} {BRANCHES} (!= u v) {provable(p)})", depth=9,
               rules=formula_rules(book) + equation_rules(book),
               use=[book.at("PROVABLE-AXIOM-4-INSTANCE", x=U, y=V), book.at("PROVABLE-AXIOM-3-INSTANCE"),
                    book.at("TERM-OF-CONSTANT"), book.at("TERM-OF-CONSTANT", u="v"),
                    book.at("TERM-OF-CONSTANT", u="'t"), book.at("TERM-OF-CONSTANT", u="'nil"),
                    book.at("CORE-UNEQUAL"), book.at("FORMULA-PEQUAL", a=e, b=no),
                    book.at("PROVABLE-BY-CORE", m="'base-eval", c=c, as_="'nil", e="'nil"),
                    book.at("ALL-PROVABLE-OF-NIL"),
                    book.at("PROVABLE-DISJOINED-COMMUTE-PEQUAL", p=p, a=e, b=yes),
                    book.at("PROVABLE-EXPANSION", a=c, b=p),
                    book.at("PROVABLE-DISJOINED-TRANSITIVITY-OF-PEQUAL", p=p, a=yes, b=e, c=no),
                    book.at("PROVABLE-COMMUTE-OR", a=p, b=t_is_nil),
                    book.at("PROVABLE-MODUS-PONENS-2", a=t_is_nil, b=p)])


def _core(c: str) -> str:
    return f"(ladder.core 'base-eval {c} 'nil 'nil axioms thms atbl)"


def verify_branches(book: Book) -> None:
    """LADDER.BRANCH-AXIOMSP, and the theorems above for it; that IF on a constant is provably its branch."""
    axioms = [quoted(book.theory.primitive_axioms[n - 1]) for n in NUMBERS]
    tests = " ".join(f"(logic.memberp {f} axioms) {is_formula(f)}" for f in axioms)
    book.define(f"(ladder.branch-axiomsp (axioms atbl) (and {tests}))")
    for number in NUMBERS:
        verify_instance(book, number)
    verify_unequal(book)
    for name, number, chosen, given in (("true", 7, "y", "(!= u 'nil)"), ("false", 6, "z", "(= u 'nil)")):
        test = f"(logic.pequal {U} ''nil)"
        c = f"(logic.pequal {list_of([quoted('IF'), U, 'y', 'z'])} {chosen})"
        book.prove(f"provable-if-{name}",
                   f"(implies {ASSUMPTION} {BRANCHES} {given} {is_term('y')} {is_term('z')} {provable(c)})",
                   use=[book.at(f"PROVABLE-AXIOM-{number}-INSTANCE", x=U), book.at("TERM-OF-CONSTANT"),
                        book.at("PROVABLE-UNEQUAL", v="'nil"), book.at("PROVABLE-REFLEXIVITY", a=U),
                        book.at("PROVABLE-MODUS-PONENS-2", a=test, b=c), book.at("PROVABLE-MODUS-PONENS", a=test, b=c)])
