"""Traces: how a clause is proved by rewriting, without the formulas that come out on the way.

`says` is what a trace says under a clause; ladder.rewriting has the kinds of traces, and the same function in a book.
`rewritten` makes one step REWRITE of a proof, where the running checker has that rule; of an induction it makes one of
each case.
"""
from collections.abc import Callable, Container
from typing import Optional

from ..errors import RuleError
from ..limits import within_depth
from ..logic import tables
from ..logic.kernel import Proof, further, with_subproofs
from ..logic.measures import distinct_steps
from ..logic.moves import run
from ..logic.objects import Object, Pair, items, member
from ..logic.substitution import substitute, substitution_of
from ..logic.terms import (call, disjunction, equation, is_call, is_constant, is_disjunction, is_equation,
                           is_lambda_call, is_variable, lambda_parts, left, negation, quote, right, variables)
from ..logic.theory import Test, Theory
from ..rules.disjunctions import is_inside
from .tracing import Tracer, Untraceable

TRUE = "T"


def rewrite_test(theory: Theory) -> Test:
    """The test of REWRITE on formulas of a theory."""
    def test(conclusion: Pair, premises: list[Pair], extras: Object) -> Optional[str]:
        if premises:
            return "takes no premises"
        return None if says(theory, extras, conclusion) == TRUE else "the trace does not say so"
    return test


@within_depth
def says(theory: Theory, trace: Object, clause: Pair) -> Optional[Object]:
    """What a trace says under a clause: a formula, T where it proves the clause, or None."""
    return _Says(theory).one(trace, clause)


class _Says:
    """What traces say over a theory; each under a clause once."""

    def __init__(self, theory: Theory):
        self.theory, self.known = theory, {}

    def one(self, trace: Object, clause: Pair) -> Optional[Object]:
        """What a trace says."""
        if not isinstance(trace, Pair):
            return None
        key = (trace, clause)
        if key not in self.known:
            self.known[key] = self.anew(trace, clause)
        return self.known[key]

    def anew(self, trace: Pair, clause: Pair) -> Optional[Object]:
        """The same, anew."""
        kind, data = member(trace, 0), member(trace, 1)
        if kind == "ASSUME":
            if not self.is_good(self.theory.check_formula, data):
                return None
            return data if self.one(member(trace, 2), disjunction(data, clause)) == TRUE else None
        said = [self.one(t, clause) for t in items(member(trace, 2)) or ()]
        make = getattr(self, "_" + str(kind).lower(), None)
        return None if make is None else make(data, said, clause)

    @staticmethod
    def is_good(check: Callable[[Object], None], x: Object) -> bool:
        """Is it a term, or a formula, as the check says?"""
        try:
            check(x)
        except RuleError:
            return False
        return True

    def is_call(self, t: Object) -> bool:
        """Is it a term that calls a function?"""
        return is_call(t) and self.is_good(self.theory.check_term, t)

    def image(self, data: Object, pool: Container[Pair]) -> Optional[Object]:
        """F/s for a formula of a pool."""
        if not isinstance(data, Pair) or data.first not in pool:
            return None
        pairs = substitution_of(data.rest)
        if pairs is None or not all(is_variable(v) and self.is_good(self.theory.check_term, t)
                                    for v, t in pairs.items()):
            return None
        return substitute(data.first, pairs)

    def _deny(self, data: Object, said: list, clause: Pair) -> Optional[Object]:
        return negation(data) if is_inside(data, clause) else None

    def _grant(self, data: Object, said: list, clause: Pair) -> Optional[Object]:
        return data if is_inside(negation(data), clause) else None

    def _axiom(self, data: Object, said: list, clause: Pair) -> Optional[Object]:
        return self.image(data, self.theory.axioms)

    def _theorem(self, data: Object, said: list, clause: Pair) -> Optional[Object]:
        return self.image(data, self.theory.theorems)

    def _same(self, data: Object, said: list, clause: Pair) -> Optional[Object]:
        return equation(data, data) if self.is_good(self.theory.check_term, data) else None

    def _apply(self, data: Object, said: list, clause: Pair) -> Optional[Object]:
        if not self.is_call(data) or data.first not in self.theory.primitives \
                or not all(map(is_constant, items(data)[1:])):
            return None
        return equation(data, quote(tables.apply_primitive(data.first, [u.rest.first for u in items(data)[1:]])))

    def _beta(self, data: Object, said: list, clause: Pair) -> Optional[Object]:
        if not is_lambda_call(data) or not self.is_good(self.theory.check_term, data):
            return None
        formals, body = lambda_parts(data)
        return equation(data, substitute(body, dict(zip(formals, items(data)[1:]))))

    def _compute(self, data: Object, said: list, clause: Pair) -> Optional[Object]:
        t, moves, *names = items(data) or (None, None)
        if not isinstance(moves, int) or not self.is_good(self.theory.check_term, t) or variables(t):
            return None
        found = run(self.theory, t, moves)
        return None if found is None or not set(found[2]) <= set(names) else equation(t, found[0])

    def _chain(self, data: Object, said: list, clause: Pair) -> Optional[Object]:
        t = data
        for e in said:
            if e is None or not is_equation(e) or t not in (left(e), right(e)):
                return None
            t = right(e) if left(e) is t else left(e)
        return equation(data, t) if said else None

    def _congruence(self, data: Object, said: list, clause: Pair) -> Optional[Object]:
        if not self.is_call(data):
            return None
        actuals = list(items(data)[1:])
        for k, e in enumerate(said[:len(actuals)]):
            if e is None:
                continue
            if not is_equation(e) or left(e) is not actuals[k]:
                return None
            actuals[k] = right(e)
        return equation(data, call(data.first, *actuals))

    def _unit(self, data: Object, said: list, clause: Pair) -> Optional[Object]:
        if len(said) < 2 or not isinstance(said[0], Pair):
            return None
        kept, rest = [], said[0]
        for k, fact in enumerate(said[1:], 1):
            is_last = k == len(said) - 1
            if not is_last and not is_disjunction(rest):
                return None
            literal = rest if is_last else left(rest)
            if fact is None:
                kept.append(literal)
            elif fact == TRUE or fact is not negation(literal) and literal is not negation(fact):
                return None
            rest = rest if is_last else right(rest)
        return disjunction(*kept) if kept else TRUE


def rewritten(proof: Proof) -> Proof:
    """The proof with one step REWRITE in place of each part that rests on no induction, where the running checker has
    that rule and the part can be said by a trace."""
    if "REWRITE" not in proof.theory.methods:
        return proof
    inductive = set()
    for step in distinct_steps([proof]):
        if step.method == "INDUCTION" or any(p in inductive for p in step.subproofs):
            inductive.add(step)
    return _rewritten(proof, inductive)


@within_depth
def _rewritten(proof: Proof, inductive: set[Proof]) -> Proof:
    if proof in inductive:
        return with_subproofs(proof, [_rewritten(p, inductive) for p in proof.subproofs])
    if not proof.subproofs:
        return proof
    try:
        trace = Tracer(proof.theory).whole(proof)
    except Untraceable:
        return proof
    try:
        return further(proof.theory, "REWRITE", proof.conclusion, [], trace)
    except RuleError as why:
        raise RuleError("REWRITE", f"a fault of the package: {why.reason}", proof.conclusion) from None
