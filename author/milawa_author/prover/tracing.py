"""The trace of a proof, step by step: what each step says under the clause that is to be proved.

Of what a step concludes, the parts that stand in the clause go out, since they are assumed to be false; the rest is
what its trace says.  Where a step has no kind of trace of its own, its rest is assumed to be false too, and its
premises contradict each other.
"""
from collections.abc import Mapping
from types import MappingProxyType
from typing import Optional

from ..errors import AuthorError
from ..limits import within_depth
from ..logic.kernel import Proof
from ..logic.objects import Object, Pair, cons, items, make_list
from ..logic.substitution import instance_of, substitute, substitution_object, substitution_of
from ..logic.terms import (disjunction, equation, is_disjunction, is_equation, is_negation, left, literals, negation,
                           right)
from ..logic.theory import Theory
from ..rules.disjunctions import covers, parts

TRUE = "T"
Said = tuple[Pair, Object]              # a trace, and what it says

# For each rule that cuts, the premise that has the literal and the one that has its negation.
CUTS = {"CUT": (0, 1), "RESOLVE": (0, 1), "MODUS-PONENS": (0, 1), "MODUS-PONENS-2": (1, 0),
        "DISJOINED-MODUS-PONENS": (0, 1), "DISJOINED-MODUS-PONENS-2": (1, 0), "DISJOINED-CUT": (0, 1)}
REORDERINGS = frozenset("""EXPANSION CONTRACTION ASSOCIATIVITY COMMUTE-OR RIGHT-EXPANSION RIGHT-ASSOCIATIVITY SUBSET
    DISJOINED-LEFT-EXPANSION DISJOINED-RIGHT-EXPANSION DISJOINED-CONTRACTION DISJOINED-COMMUTE-OR
    LHS-COMMUTE-OR-THEN-RASSOC DISJOINED-RIGHT-ASSOCIATIVITY DISJOINED-ASSOCIATIVITY CANCEL-NEG-NEG
    LHS-CANCEL-NEG-NEG INSERT-NEG-NEG LHS-INSERT-NEG-NEG""".split())
EQUATIONS = frozenset("""CHAIN CONGRUENCE COMMUTE-PEQUAL TRANSITIVITY-OF-PEQUAL REFLEXIVITY BETA-REDUCTION BASE-EVAL
    COMPUTE""".split())
APPEALS = frozenset("AXIOM THEOREM INSTANCE INSTANTIATION EQUALITY-AXIOM".split())


class Untraceable(AuthorError):
    """A step of the proof has no trace."""


def spine(f: Pair) -> list[Pair]:
    """The parts of a disjunction along its right sides."""
    members = []
    while is_disjunction(f):
        members.append(left(f))
        f = right(f)
    return members + [f]


def trace(kind: str, data: Object = "NIL", *traces: Object) -> Pair:
    """A trace as an object."""
    return make_list(kind, data, make_list(*traces)) if traces else make_list(kind, data)


def assumed(f: Pair, inner: Pair) -> Pair:
    """A trace of the kind ASSUME."""
    return make_list("ASSUME", f, inner)


class Tracer:
    """Makes traces of proofs over a theory; each of a proof and a clause once."""

    def __init__(self, theory: Theory):
        self.theory = theory
        self.made: dict[tuple[Proof, Pair], Said] = {}
        self.parts: dict[Pair, frozenset[Pair]] = {}
        self.refuted: dict[tuple[Pair, Pair], Optional[Pair]] = {}

    @within_depth
    def whole(self, proof: Proof) -> Pair:
        """A trace that says T under the conclusion.  Raises Untraceable."""
        outer = [proof.conclusion]              # what `not not D` denies is a part of a clause, too
        for literal in literals(proof.conclusion):
            if is_negation(literal) and is_negation(left(literal)):
                outer.append(disjunction(left(left(literal)), outer[-1]))
        found, said = self.of(proof, outer[-1])
        if said != TRUE:
            raise Untraceable(proof.method)
        for clause, wider in zip(outer[-2::-1], outer[:0:-1]):
            d = left(wider)
            found = trace("UNIT", "NIL", self.refutation(d, clause), assumed(d, found))
        return found

    def of(self, proof: Proof, clause: Pair) -> Said:
        """A trace of a proof under a clause, and what it says."""
        key = (proof, clause)
        if key not in self.made:
            self.made[key] = self.step(proof, clause)
        return self.made[key]

    # ---- literals that are false under the clause -------------------------------------------------------------

    def stands_in(self, f: Pair, clause: Pair) -> bool:
        """Is it one of the parts of the clause?"""
        if clause not in self.parts:
            self.parts[clause] = frozenset(parts(clause))
        return f in self.parts[clause]

    def refutation(self, literal: Pair, clause: Pair) -> Optional[Pair]:
        """A trace that refutes a literal, or a disjunction, whose parts stand in the clause; None for another."""
        key = (literal, clause)
        if key not in self.refuted:
            self.refuted[key] = self.refute(literal, clause)
        return self.refuted[key]

    def refute(self, literal: Pair, clause: Pair) -> Optional[Pair]:
        """The same, anew."""
        if self.stands_in(literal, clause):
            return trace("DENY", literal)
        if is_negation(literal) and is_negation(left(literal)) and self.stands_in(left(left(literal)), clause):
            return trace("DENY", left(left(literal)))
        double = negation(negation(literal))
        if self.stands_in(double, clause):
            return assumed(negation(literal), trace("UNIT", "NIL", trace("DENY", double), trace("DENY", left(double))))
        if is_disjunction(literal):
            opposite = negation(literal)
            refuted = [self.refutation(p, disjunction(opposite, clause)) for p in spine(literal)]
            if None not in refuted:
                return assumed(opposite, trace("UNIT", "NIL", trace("GRANT", literal), *refuted))
        return None

    def unit(self, base: Said, clause: Pair, facts: Mapping[Pair, Proof] = MappingProxyType({})) -> Said:
        """What is left of a clause that is said, without what is false, and what proofs refute."""
        found, said = base
        if said == TRUE:
            return base
        traces, kept = [], []
        for literal in spine(said):
            refuted = self.refutation(literal, clause)
            if refuted is None and literal in facts:
                refuted, fact = self.of(facts[literal], clause)
                if fact == TRUE:
                    return refuted, TRUE
                if fact is not negation(literal) and literal is not negation(fact):
                    raise Untraceable("UNIT")
            traces.append("NIL" if refuted is None else refuted)
            kept += [literal] * (refuted is None)
        if len(kept) == len(traces):
            return base
        return trace("UNIT", "NIL", found, *traces), disjunction(*kept) if kept else TRUE

    # ---- steps ------------------------------------------------------------------------------------------------

    def step(self, proof: Proof, clause: Pair) -> Said:
        """A trace of the last step of a proof under a clause."""
        if proof.method in APPEALS:
            return self.unit(self.appeal(proof), clause)
        members = spine(proof.conclusion)
        rest = [p for p in members if self.refutation(p, clause) is None]
        if not rest or rest == members[-1:] or len(members) == len(rest):
            try:
                said = self.direct(proof, clause)
            except Untraceable:
                if not rest:
                    raise
            else:
                said = self.unit(said, clause)
                if said[1] == TRUE or rest and said[1] is disjunction(*rest):
                    return said
        if not rest:
            raise Untraceable(proof.method)
        missing = disjunction(*rest)
        inner, closed = self.of(proof, disjunction(missing, clause))
        if closed != TRUE:
            raise Untraceable(proof.method)
        return assumed(missing, inner), missing

    def direct(self, proof: Proof, clause: Pair) -> Said:
        """The same by the kind of trace that the step has.  Raises Untraceable where it has none."""
        method = proof.method.removeprefix("DISJOINED-")
        if proof.method in ("LEMMA", "UNIT"):
            return self.clause_step(proof, clause)
        if proof.method in ("ASSUMPTION", "PROPOSITIONAL-SCHEMA"):
            return self.assumption(proof, clause)
        if proof.method in CUTS:
            return self.cut(proof, clause)
        if proof.method in REORDERINGS:
            return self.of(proof.subproofs[0], clause)
        if method in EQUATIONS:
            return self.equation_step(proof, method, clause)
        if proof.method == "FUNCTIONAL-EQUALITY":
            return self.functional(proof, clause)
        if proof.method == "REWRITE" and covers(proof.conclusion, clause):
            return proof.extras, TRUE
        raise Untraceable(proof.method)

    def appeal(self, proof: Proof) -> Said:
        """An axiom or a theorem, or an instance of one."""
        f, pairs = proof.conclusion, "NIL"
        if proof.method == "INSTANCE":
            f, pairs = items(proof.extras)
        elif proof.method == "INSTANTIATION":
            f, pairs = proof.subproofs[0].conclusion, proof.extras
            if proof.subproofs[0].method not in ("AXIOM", "THEOREM"):
                raise Untraceable(proof.method)
        elif proof.method == "EQUALITY-AXIOM":
            f = self.theory.primitive_axioms[1]
            pairs = substitution_object(instance_of(f, proof.conclusion))
        kind = "THEOREM" if f in self.theory.theorems else "AXIOM"
        return trace(kind, cons(f, pairs)), proof.conclusion

    def clause_step(self, proof: Proof, clause: Pair) -> Said:
        """LEMMA and UNIT."""
        if proof.method == "LEMMA":
            f, pairs, literals = items(proof.extras)
            base = trace("THEOREM" if f in self.theory.theorems else "AXIOM", cons(f, pairs)), \
                substitute(f, substitution_of(pairs))
            premises = proof.subproofs
        else:
            base, literals, premises = self.of(proof.subproofs[0], clause), proof.extras, proof.subproofs[1:]
        return self.unit(base, clause, dict(zip(items(literals), premises)))

    def assumption(self, proof: Proof, clause: Pair) -> Said:
        """X and `not X` stand in the conclusion."""
        x = items(proof.extras)[0] if proof.method == "ASSUMPTION" else right(proof.conclusion)
        denied = self.refutation(x, clause)
        granted = trace("GRANT", x) if self.stands_in(negation(x), clause) else None
        if denied is not None and granted is not None:
            return trace("UNIT", "NIL", granted, denied), TRUE
        if granted is not None:
            return granted, x
        if denied is None or not self.stands_in(x, clause) and is_negation(x):
            raise Untraceable(proof.method)
        return denied, negation(x)

    def cut(self, proof: Proof, clause: Pair) -> Said:
        """Two premises of which one says what refutes the other, or a part of it."""
        one, two = [self.of(proof.subproofs[k], clause) for k in CUTS[proof.method]]
        for said in (one, two):
            if said[1] == TRUE:
                return said
        for (base, f), (other, fact) in ((two, one), (one, two)):
            members = spine(f)
            struck = [p for p in members if fact is negation(p) or p is negation(fact)]
            if struck:
                kept = [p for p in members if p not in struck]
                traces = [other if p in struck else "NIL" for p in members]
                return trace("UNIT", "NIL", base, *traces), disjunction(*kept) if kept else TRUE
        raise Untraceable(proof.method)

    def functional(self, proof: Proof, clause: Pair) -> Said:
        """The actuals' equations are granted, and the last equation is false."""
        e = spine(proof.conclusion)[-1]
        pairs = list(zip(items(left(e))[1:], items(right(e))[1:]))
        grants = ["NIL" if a is b else trace("GRANT", equation(a, b)) for a, b in pairs]
        if not all(self.stands_in(negation(equation(a, b)), clause) for a, b in pairs if a is not b):
            raise Untraceable(proof.method)
        made = trace("CONGRUENCE", left(e), *grants) if set(grants) != {"NIL"} else trace("SAME", left(e))
        return self.unit((made, e), clause)

    def equation_step(self, proof: Proof, method: str, clause: Pair) -> Said:
        """The rules of equality: an equation, which may stand in the clause."""
        e = spine(proof.conclusion)[-1]
        said = [self.of(p, clause) for p in proof.subproofs]
        for made in said:
            if made[1] == TRUE:
                return made
        traces = [t for t, _ in said]
        if not is_equation(e) or not all(is_equation(f) for _, f in said):
            raise Untraceable(proof.method)
        if method == "REFLEXIVITY":
            made = trace("SAME", left(e))
        elif method == "BETA-REDUCTION":
            made = trace("BETA", left(e))
        elif method == "BASE-EVAL":
            made = trace("APPLY", left(e))
        elif method == "COMPUTE":
            made = trace("COMPUTE", cons(left(e), proof.extras))
        elif method == "CONGRUENCE":
            pairs = list(zip(items(left(e))[1:], items(right(e))[1:]))
            rest = iter(traces)
            made = trace("CONGRUENCE", left(e), *["NIL" if a is b else next(rest) for a, b in pairs]) \
                if any(a is not b for a, b in pairs) else trace("SAME", left(e))
        else:
            made = trace("CHAIN", left(e), *traces)
        return self.unit((made, e), clause)
