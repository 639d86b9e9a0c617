"""Clauses that lose their false literals: from a clause and facts that refute all its literals but one, that one."""
from typing import Optional

from ..errors import RuleError
from ..logic.kernel import Proof, associativity, contraction, cut, expansion, further
from ..logic.objects import Pair, items, make_list
from ..logic.terms import disjunction, is_negation, left
from ..rules.propositional import (commute_or, disjoined_left_expansion, disjoined_modus_ponens,
                                   disjoined_modus_ponens_2, modus_ponens, modus_ponens_2)
from .facts import Fact


class Eliminate:
    """Takes the false literals out of a clause, from the left, at a level of a case.

    `branch` is the case, of which the theory and the contexts are read; the goal is the context of the level.
    The state is a proof of `X or R`: R are the members still to do, X the context so far: nothing, the goal,
    the target, or `goal or target`."""

    def __init__(self, branch, level: int):
        self.theory, self.contexts, self.level = branch.theory, branch.contexts, level
        self.goal = branch.contexts[level] if level >= 0 else None
        self.target, self.has_goal, self.has_target = None, False, False

    def run(self, clause: Fact, members: list[Pair], target: Optional[Pair], facts: dict[Pair, Fact]) -> Proof:
        """Proves the target (or, without one, the goal) from a clause and facts that refute the other members.
        What is proved is plain where the level is -1, else it stands under the goal."""
        if "LEMMA" in self.theory.methods:
            return self.refute_at_once(clause, target, facts)
        if "RESOLVE" in self.theory.methods:
            return self.resolve(clause, members, target, facts)
        self.target, self.has_goal, self.has_target = target, clause.level >= 0, False
        proof = clause.proof(self.contexts, self.level if self.has_goal else -1)
        for k, literal in enumerate(members):
            last = k == len(members) - 1
            if literal is target and not self.has_target:
                if not last and self.has_goal:
                    proof = associativity(proof)
                self.has_target = True
            else:
                proof = self.remove(proof, literal, facts[literal], last)
        return proof

    def refute_at_once(self, clause: Fact, target: Optional[Pair], facts: dict[Pair, Fact]) -> Proof:
        """The same by one step LEMMA or UNIT."""
        refuted = list(facts)
        conditional = max([clause.level] + [f.level for f in facts.values()]) >= 0
        parts = [self.goal] * conditional + [target] * (target is not None)
        proofs = [f.proof(self.contexts, f.level) for f in facts.values()]     # under smaller contexts, too
        proof = clause.proof(self.contexts, clause.level)
        extras = make_list(*refuted)
        if not refuted:
            return proof
        if clause.level == -1 and proof.method == "INSTANCE":
            return further(self.theory, "LEMMA", disjunction(*parts), proofs, make_list(*items(proof.extras), extras))
        if clause.level == -1 and proof.method in ("AXIOM", "THEOREM"):
            return further(self.theory, "LEMMA", disjunction(*parts), proofs,
                           make_list(proof.conclusion, "NIL", extras))
        return further(self.theory, "UNIT", disjunction(*parts), [proof] + proofs, extras)

    def resolve(self, clause: Fact, members: list[Pair], target: Optional[Pair], facts: dict[Pair, Fact]) -> Proof:
        """The same by one step RESOLVE for each literal that goes out."""
        conditional, left_over = clause.level >= 0, list(members)
        proof = clause.proof(self.contexts, clause.level)
        for literal in members:
            if literal is target:
                continue
            fact = facts[literal]
            known = fact.proof(self.contexts, fact.level)
            conditional = conditional or fact.level >= 0
            left_over = [m for m in left_over if m is not literal]
            conclusion = disjunction(*[self.goal] * conditional, *left_over)
            if is_negation(literal) and left(literal) is fact.formula:
                proof = further(self.theory, "RESOLVE", conclusion, [known, proof], make_list(fact.formula))
            else:
                proof = further(self.theory, "RESOLVE", conclusion, [proof, known], make_list(literal))
        return proof

    def context(self) -> Optional[Pair]:
        """What the proof so far stands under, or None."""
        parts = [self.goal] * self.has_goal + [self.target] * self.has_target
        return disjunction(*parts) if parts else None

    def remove(self, proof: Proof, literal: Pair, fact: Fact, last: bool) -> Proof:
        """Takes the first of the members still to do out of the proof."""
        known = fact.proof(self.contexts, self.level if fact.level >= 0 else -1)
        positive = is_negation(literal) and left(literal) is fact.formula   # the fact is F, the literal `not F`
        context = self.context()
        if fact.level == -1:
            return self.remove_by_plain(proof, known, positive, last)
        if context is None:
            self.has_goal = True
            known = commute_or(known)                                       # fact or goal
            if last:
                return (modus_ponens_2 if positive else modus_ponens)(proof, known)
            return cut(known, proof) if positive else commute_or(cut(proof, known))
        if not self.has_goal:
            proof, self.has_goal = associativity(expansion(self.goal, proof)), True
        if self.has_target:
            known = associativity(disjoined_left_expansion(known, self.target))
        if last:
            first, second = commute_or(proof), commute_or(known)
            return contraction(cut(second, first) if positive else cut(first, second))
        return (disjoined_modus_ponens if positive else disjoined_modus_ponens_2)(known, proof)

    def remove_by_plain(self, proof: Proof, known: Proof, positive: bool, last: bool) -> Proof:
        """The same, by a fact that rests on nothing."""
        context = self.context()
        if context is None and last:
            raise RuleError("PROVER", "the lemmas contradict each other", known.conclusion)
        if context is None or last:
            return (modus_ponens if positive else modus_ponens_2)(known, commute_or(proof) if last else proof)
        return (disjoined_modus_ponens if positive else disjoined_modus_ponens_2)(expansion(context, known), proof)
