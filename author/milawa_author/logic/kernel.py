"""Proofs.  Only this module makes a `Proof`: by the twelve methods below, each of which checks its side
conditions, and after a SWITCH by `further`, which asks the test of a method that the running checker has
beyond them.  So a `Proof` in hand is one that the checker of its theory accepts, so far as Python lets
a module guard what is its own; the program judges in the end, and never asks this package.

Formulas and terms are objects (`logic.notation.formula` and `term` make them from text).  Each function
answers the Proof of its conclusion, and raises RuleError where it does not apply.
"""
from collections.abc import Iterable, Sequence

from ..errors import RuleError, quotation
from . import tables
from .objects import Object, Pair, items, make_list
from .substitution import substitute, substitution_object
from .terms import (Substitution, T, call, disjunction, equation, is_constant, is_disjunction, is_lambda_call,
                    is_negation, is_variable, lambda_parts, left, negation, quote, right)
from .theory import Theory

METHODS = ("AXIOM THEOREM PROPOSITIONAL-SCHEMA FUNCTIONAL-EQUALITY BETA-REDUCTION BASE-EVAL EXPANSION CONTRACTION"
           " ASSOCIATIVITY CUT INSTANTIATION INDUCTION").split()

_TOKEN = object()


class Proof:
    """A proof over a theory: `method`, `conclusion`, `subproofs` and `extras`; `object` is its form in a
    book, and `methods` are those of its methods that are beyond the twelve.  It cannot be changed."""

    __slots__ = ("theory", "method", "conclusion", "subproofs", "extras", "object", "methods")

    def __init__(self, token: object, theory: Theory, method: str, conclusion: Pair, subproofs: Sequence["Proof"],
                 extras: Object, form: Pair):
        if token is not _TOKEN:
            raise TypeError("a Proof is made by the functions of the kernel alone, as `axiom` or `cut`")
        own = frozenset([method]) - _TWELVE
        give = super().__setattr__
        give("theory", theory)
        give("method", method)
        give("conclusion", conclusion)
        give("subproofs", tuple(subproofs))
        give("extras", extras)
        give("object", form)
        give("methods", own.union(*[p.methods for p in subproofs]))

    def __setattr__(self, name: str, value: object) -> None:
        raise TypeError("a Proof cannot be changed; make another")

    def __delattr__(self, name: str) -> None:
        raise TypeError("a Proof cannot be changed; make another")

    def __repr__(self):
        return f"<{self.method} proves {quotation(self.conclusion)}>"


_TWELVE = frozenset(METHODS)


def _make(theory: Theory, method: str, conclusion: Pair, subproofs: Sequence[Proof] = (),
          extras: Object = "NIL") -> Proof:
    for proof in subproofs:
        _want(proof.theory is theory, method, "a premise is proved over another theory", proof.conclusion)
    theory.check_formula(conclusion, method)
    parts = [method, conclusion]
    if subproofs or extras != "NIL":
        parts.append(make_list(*[p.object for p in subproofs]))
    if extras != "NIL":
        parts.append(extras)
    form = make_list(*parts)
    proof = theory._proofs.get(form)
    if proof is None:
        proof = Proof(_TOKEN, theory, method, conclusion, subproofs, extras, form)
        theory._proofs[form] = proof
    return proof


def _want(holds: bool, rule: str, reason: str, formula: Object = None) -> None:
    if not holds:
        raise RuleError(rule, reason, formula)


# ---- the twelve methods ------------------------------------------------------------------------------------

def axiom(theory: Theory, formula: Pair) -> Proof:
    """An axiom: of the primitives, or of a definition."""
    _want(formula in theory.axioms, "AXIOM", "not among the axioms", formula)
    return _make(theory, "AXIOM", formula)


def theorem(theory: Theory, formula: Pair) -> Proof:
    """A formula that was verified earlier in the book."""
    _want(formula in theory.theorems, "THEOREM", "not among the theorems", formula)
    return _make(theory, "THEOREM", formula)


def propositional_schema(theory: Theory, a: Pair) -> Proof:
    """`not A or A`."""
    return _make(theory, "PROPOSITIONAL-SCHEMA", disjunction(negation(a), a))


def functional_equality(theory: Theory, function: str, lefts: Sequence[Object], rights: Sequence[Object]) -> Proof:
    """`a1 != b1 or .. or (f a1 ..) = (f b1 ..)`."""
    _want(function in theory.arities, "FUNCTIONAL-EQUALITY", "not the name of a function", function)
    _want(len(lefts) == len(rights), "FUNCTIONAL-EQUALITY", "two lists of equal length are wanted")
    parts = [negation(equation(a, b)) for a, b in zip(lefts, rights)]
    last = equation(call(function, *lefts), call(function, *rights))
    return _make(theory, "FUNCTIONAL-EQUALITY", disjunction(*parts, last))


def beta_reduction(theory: Theory, t: Pair) -> Proof:
    """`((lambda (x1 ..) b) t1 ..) = b` with the ti put for the xi."""
    _want(is_lambda_call(t), "BETA-REDUCTION", "not a lambda call", t)
    theory.check_term(t, "BETA-REDUCTION")
    formals, body = lambda_parts(t)
    reduct = substitute(body, dict(zip(formals, items(t)[1:])))
    return _make(theory, "BETA-REDUCTION", equation(t, reduct))


def base_eval(theory: Theory, t: Pair) -> Proof:
    """`(f 'c1 ..) = 'v` for a primitive f with that value."""
    theory.check_term(t, "BASE-EVAL")
    members = items(t) or (None,)
    _want(members[0] in theory.primitives, "BASE-EVAL", "not a call of a primitive", t)
    _want(all(map(is_constant, members[1:])), "BASE-EVAL", "an actual is not a constant", t)
    value = tables.apply_primitive(members[0], [u.rest.first for u in members[1:]])
    return _make(theory, "BASE-EVAL", equation(t, quote(value)))


def expansion(b: Pair, proof: Proof) -> Proof:
    """From A, `B or A`."""
    return _make(proof.theory, "EXPANSION", disjunction(b, proof.conclusion), [proof])


def contraction(proof: Proof) -> Proof:
    """From `A or A`, A."""
    f = proof.conclusion
    _want(is_disjunction(f) and left(f) is right(f), "CONTRACTION", "a premise `A or A` is wanted", f)
    return _make(proof.theory, "CONTRACTION", left(f), [proof])


def associativity(proof: Proof) -> Proof:
    """From `A or (B or C)`, `(A or B) or C`."""
    f = proof.conclusion
    _want(is_disjunction(f) and is_disjunction(right(f)), "ASSOCIATIVITY", "a premise `A or (B or C)` is wanted", f)
    a, b, c = left(f), left(right(f)), right(right(f))
    return _make(proof.theory, "ASSOCIATIVITY", disjunction(disjunction(a, b), c), [proof])


def cut(first: Proof, second: Proof) -> Proof:
    """From `A or B` and `not A or C`, `B or C`."""
    f, g = first.conclusion, second.conclusion
    _want(is_disjunction(f), "CUT", "the first premise is not a disjunction", f)
    _want(is_disjunction(g) and is_negation(left(g)) and left(left(g)) is left(f), "CUT",
          "the second premise does not begin with the negation of the first's left part", disjunction(f, g))
    return _make(first.theory, "CUT", disjunction(right(f), right(g)), [first, second])


def instantiation(proof: Proof, substitution: Substitution) -> Proof:
    """From F, F/s.  Where F/s is F, the proof itself is the answer."""
    theory = proof.theory
    for variable, t in substitution.items():
        _want(is_variable(variable), "INSTANTIATION", "not a variable", variable)
        theory.check_term(t, "INSTANTIATION")
    conclusion = substitute(proof.conclusion, substitution)
    if conclusion is proof.conclusion:
        return proof
    return _make(theory, "INSTANTIATION", conclusion, [proof], substitution_object(substitution))


Case = tuple[Pair, Sequence[Substitution]]     # a condition, and what may be supposed where it holds


def induction_premises(formula: Pair, measure: Object, cases: Sequence[Case]) -> list[Pair]:
    """The formulas that INDUCTION wants proved, in order."""
    premises = [disjunction(formula, *[q for q, _ in cases])]
    for q, substitutions in cases:
        instances = [negation(substitute(formula, s)) for s in substitutions]
        premises.append(disjunction(formula, negation(q), *instances))
    premises.append(equation(call("ORDP", measure), T))
    for q, substitutions in cases:
        for s in substitutions:
            less = equation(call("ORD<", substitute(measure, s), measure), T)
            premises.append(disjunction(negation(q), less))
    return premises


def induction(formula: Pair, measure: Object, cases: Sequence[Case], proofs: Sequence[Proof]) -> Proof:
    """The formula by induction along the measure; the proofs are those of `induction_premises`, in order."""
    wanted = induction_premises(formula, measure, cases)
    _want(len(wanted) == len(proofs), "INDUCTION", f"{len(wanted)} premises are wanted, {len(proofs)} given")
    for proof, premise in zip(proofs, wanted):
        _want(proof.conclusion is premise, "INDUCTION", f"in place of {quotation(proof.conclusion)} is wanted", premise)
    theory = proofs[0].theory
    for q, substitutions in cases:
        theory.check_formula(q, "INDUCTION")
        for s in substitutions:
            for variable, t in s.items():
                _want(is_variable(variable), "INDUCTION", "not a variable", variable)
                theory.check_term(t, "INDUCTION")
    lists = [make_list(*map(substitution_object, substitutions)) for _, substitutions in cases]
    extras = make_list(measure, make_list(*[q for q, _ in cases]), make_list(*lists))
    return _make(theory, "INDUCTION", formula, proofs, extras)


# ---- methods of a later checker ----------------------------------------------------------------------------

def further(theory: Theory, method: str, conclusion: Pair, subproofs: Iterable[Proof] = (),
            extras: Object = "NIL") -> Proof:
    """A step by a method that the running checker has beyond the twelve."""
    subproofs = list(subproofs)
    test = theory.methods.get(method)
    _want(test is not None, method, "the running checker has no such method")
    theory.check_formula(conclusion, method)
    reason = test(conclusion, [p.conclusion for p in subproofs], extras)
    _want(reason is None, method, str(reason), conclusion)
    return _make(theory, method, conclusion, subproofs, extras)


def packed(proof: Proof) -> Proof:
    """The proof as one step SHARED: its steps in a list, each once, with numbers for its premises.  Its one subproof is
    the proof itself; in a book the list stands in its place.  Raises RuleError where the running checker lacks SHARED.
    """
    _want("SHARED" in proof.theory.methods, "SHARED", "the running checker has no such method")
    places: dict[Proof, int] = {}
    steps, work = [], [proof]
    while work:
        step = work[-1]
        missing = [p for p in step.subproofs if p not in places]
        if step in places or missing:
            work.pop() if step in places else work.extend(reversed(missing))
            continue
        numbers = make_list(*[len(steps) - 1 - places[p] for p in step.subproofs])
        parts = [step.method, step.conclusion] + [numbers] * bool(step.subproofs or step.extras != "NIL")
        steps.append(make_list(*parts, *[step.extras] * (step.extras != "NIL")))
        places[step] = len(places)
        work.pop()
    form = make_list("SHARED", proof.conclusion, "NIL", make_list(*steps))
    return Proof(_TOKEN, proof.theory, "SHARED", proof.conclusion, [proof], form.rest.rest.rest.first, form)


def with_subproofs(proof: Proof, subproofs: Sequence[Proof]) -> Proof:
    """The same step over other proofs of the same premises."""
    _want([p.conclusion for p in subproofs] == [p.conclusion for p in proof.subproofs], proof.method,
          "other premises", proof.conclusion)
    return _make(proof.theory, proof.method, proof.conclusion, list(subproofs), proof.extras)
