"""Propositional rules by pattern.

Their names, and the choice of them as what a second checker should know, are those of level 2 of Jared
Davis's Milawa ("A Self-Verifying Theorem Prover", dissertation, University of Texas at Austin, 2009).
"""
from ..logic.kernel import Proof, associativity, contraction, cut, expansion, propositional_schema
from ..logic.objects import Object
from ..logic.terms import disjunction, negation
from .schemes import rule


@rule("(por* a b)", gives="(por* b a)")
def commute_or(proof: Proof, a: Object) -> Proof:
    return cut(proof, propositional_schema(proof.theory, a))


@rule("a", gives="(por* a b)", given="b")
def right_expansion(proof: Proof, b: Object) -> Proof:
    return commute_or(expansion(b, proof))


@rule("a", "(por* (pnot* a) b)", gives="b")
def modus_ponens(first: Proof, second: Proof, b: Object) -> Proof:
    return contraction(cut(right_expansion(first, b), second))


@rule("(pnot* a)", "(por* a b)", gives="b")
def modus_ponens_2(first: Proof, second: Proof, b: Object) -> Proof:
    return contraction(cut(second, right_expansion(first, b)))


@rule("(por* (por* a b) c)", gives="(por* a (por* b c))")
def right_associativity(proof: Proof) -> Proof:
    proof = associativity(commute_or(proof))
    proof = associativity(commute_or(proof))
    return commute_or(proof)


@rule("(por* p a)", gives="(por* p (por* b a))", given="b")
def disjoined_left_expansion(proof: Proof, b: Object) -> Proof:
    return commute_or(associativity(expansion(b, commute_or(proof))))


@rule("(por* p a)", gives="(por* p (por* a b))", given="b")
def disjoined_right_expansion(proof: Proof, b: Object) -> Proof:
    proof = associativity(expansion(b, proof))
    return commute_or(associativity(commute_or(proof)))


@rule("(por* p (por* a a))", gives="(por* p a)")
def disjoined_contraction(proof: Proof, p: Object) -> Proof:
    return contraction(associativity(expansion(p, commute_or(associativity(proof)))))


@rule("(pnot* (pnot* a))", gives="a")
def cancel_neg_neg(proof: Proof, a: Object) -> Proof:
    return modus_ponens_2(proof, propositional_schema(proof.theory, a))


@rule("a", gives="(pnot* (pnot* a))")
def insert_neg_neg(proof: Proof, a: Object) -> Proof:
    return modus_ponens(proof, commute_or(propositional_schema(proof.theory, negation(a))))


@rule("(por* a b)", gives="(por* (pnot* (pnot* a)) b)")
def lhs_insert_neg_neg(proof: Proof, a: Object) -> Proof:
    return commute_or(cut(proof, commute_or(propositional_schema(proof.theory, negation(a)))))


@rule("(por* (pnot* (pnot* a)) b)", gives="(por* a b)")
def lhs_cancel_neg_neg(proof: Proof, a: Object) -> Proof:
    return cut(propositional_schema(proof.theory, a), proof)


@rule("(por* p a)", gives="(por* p (pnot* (pnot* a)))")
def disjoined_insert_neg_neg(proof: Proof, a: Object) -> Proof:
    return cut(commute_or(proof), commute_or(propositional_schema(proof.theory, negation(a))))


@rule("(por* (pnot* a) c)", "(por* (pnot* b) c)", gives="(por* (pnot* (por* a b)) c)")
def merge_implications(first: Proof, second: Proof, a: Object, b: Object) -> Proof:
    theory = first.theory
    proof = associativity(propositional_schema(theory, disjunction(a, b)))      # (N or a) or b, N: not (a or b)
    proof = cut(commute_or(proof), second)                                      # (N or a) or c
    proof = associativity(commute_or(proof))                                    # (c or N) or a
    proof = cut(commute_or(proof), first)                                       # (c or N) or c
    proof = associativity(commute_or(proof))                                    # (c or c) or N
    return disjoined_contraction(commute_or(proof))


@rule("(pnot* a)", "(pnot* b)", gives="(pnot* (por* a b))")
def merge_negatives(first: Proof, second: Proof, a: Object, b: Object) -> Proof:
    proof = associativity(propositional_schema(first.theory, disjunction(a, b)))   # (N or a) or b
    return modus_ponens_2(first, commute_or(modus_ponens_2(second, commute_or(proof))))


@rule("(por* p a)", "(por* p (por* (pnot* a) b))", gives="(por* p b)")
def disjoined_modus_ponens(first: Proof, second: Proof, b: Object) -> Proof:
    first = commute_or(associativity(expansion(b, first)))                      # a or (b or p)
    second = commute_or(associativity(commute_or(associativity(second))))       # not a or (b or p)
    return commute_or(contraction(cut(first, second)))


@rule("(por* p (pnot* a))", "(por* p (por* a b))", gives="(por* p b)")
def disjoined_modus_ponens_2(first: Proof, second: Proof, b: Object) -> Proof:
    first = commute_or(associativity(expansion(b, first)))                      # not a or (b or p)
    second = commute_or(associativity(commute_or(associativity(second))))       # a or (b or p)
    return commute_or(contraction(cut(second, first)))


@rule("(por* p (por* a b))", gives="(por* p (por* b a))")
def disjoined_commute_or(proof: Proof, p: Object, a: Object, b: Object) -> Proof:
    """The parts stand in a circle, which can be turned, and in which new parts can be put in front."""
    proof = associativity(commute_or(associativity(proof)))                     # (b or p) or a
    proof = associativity(expansion(b, commute_or(proof)))                      # (b or a) or (b or p)
    proof = associativity(commute_or(associativity(proof)))                     # (p or (b or a)) or b
    proof = associativity(expansion(a, proof))                                  # (a or (p or (b or a))) or b
    proof = associativity(commute_or(proof))                                    # (b or a) or (p or (b or a))
    return contraction(associativity(expansion(p, proof)))


@rule("(por* (por* a b) c)", gives="(por* b (por* a c))")
def lhs_commute_or_then_rassoc(proof: Proof) -> Proof:
    return disjoined_commute_or(commute_or(associativity(commute_or(proof))))


@rule("(por* p (por* a b))", "(por* p (por* (pnot* a) c))", gives="(por* p (por* b c))")
def disjoined_cut(first: Proof, second: Proof, b: Object, c: Object) -> Proof:
    first = associativity(associativity(expansion(c, first)))                   # ((c or p) or a) or b
    first = commute_or(associativity(commute_or(first)))                        # a or (b or (c or p))
    second = associativity(commute_or(associativity(second)))                   # (c or p) or not a
    second = commute_or(associativity(expansion(b, second)))                    # not a or (b or (c or p))
    return commute_or(associativity(contraction(cut(first, second))))
