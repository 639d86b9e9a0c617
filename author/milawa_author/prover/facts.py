"""Facts of one case of a proof, and how each is proved there.

A case is told by its contexts: contexts[0] is the goal, and each further one is a literal that was split upon,
or the context before it.  What rests on the assumption that contexts[n] is false stands as `contexts[n] or F`
and has the level n; what rests on nothing has the level -1.
"""
from collections.abc import Callable

from ..logic.kernel import Proof, associativity, contraction, cut, expansion, further, propositional_schema
from ..logic.objects import Pair, make_list
from ..logic.terms import disjunction, is_negation, left, literals, negation, right
from ..logic.theory import Theory
from ..rules.disjunctions import subset
from ..rules.propositional import commute_or


class Fact:
    """A formula that holds in a case, its level, and how to prove it; the proof is made when it is asked for."""

    __slots__ = ("formula", "level", "_make", "_proofs")

    def __init__(self, formula: Pair, level: int, make: Callable[[], Proof]):
        self.formula, self.level, self._make, self._proofs = formula, level, make, {}

    def proof(self, contexts: list[Pair], level: int) -> Proof:
        """`contexts[level] or formula`; the formula itself where level is -1."""
        context = contexts[level] if level >= 0 else None
        if context not in self._proofs:         # a fact may be asked for in several cases of one level
            if level == self.level:
                proof = self._make()
            elif self.level == -1:
                proof = expansion(context, self.proof(contexts, -1))
            elif "SUBSET" in self.proof(contexts, self.level).theory.methods:
                proof = subset(self.proof(contexts, self.level), disjunction(context, self.formula))
            else:
                lower = self.proof(contexts, level - 1)
                proof = associativity(expansion(left(context), lower))
            self._proofs[context] = proof
        return self._proofs[context]


def plain(proof: Proof) -> Fact:
    """The fact of a proof that rests on no assumption."""
    return Fact(proof.conclusion, -1, lambda: proof)


def hypothesis(theory: Theory, context: Pair, leaf: Pair) -> Proof:
    """`context or F`, where F is what holds where a leaf of the context does not."""
    if "ASSUMPTION" in theory.methods:
        atom = left(leaf) if is_negation(leaf) else leaf
        known = atom if is_negation(leaf) else negation(leaf)
        return further(theory, "ASSUMPTION", disjunction(context, known), [], make_list(atom))
    if is_negation(leaf):
        proof = propositional_schema(theory, left(leaf))
    else:
        proof = commute_or(propositional_schema(theory, leaf))
    if "SUBSET" in theory.methods:
        return subset(proof, disjunction(context, right(proof.conclusion)))
    path, node = [], context
    while node is not leaf:
        inside_left = leaf in literals(left(node))
        path.append((inside_left, right(node) if inside_left else left(node)))
        node = left(node) if inside_left else right(node)
    for inside_left, sibling in reversed(path):
        if inside_left:
            proof = associativity(expansion(sibling, commute_or(proof)))
            proof = associativity(commute_or(proof))
        else:
            proof = associativity(expansion(sibling, proof))
    return proof


def join_cases(first: Proof, second: Proof) -> Proof:
    """From `E or C` and `not E or C`, C."""
    e, c = left(first.conclusion), right(first.conclusion)
    if "RESOLVE" in first.theory.methods:
        return further(first.theory, "RESOLVE", c, [first, second], make_list(e))
    return contraction(cut(first, second))
