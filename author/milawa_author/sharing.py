"""Shared parts of a proof as theorems of their own.

The program's own judge looks at equal steps once.  A checker of a book walks the proof as a tree, so a part
that stands in several places is judged each time.  `share` verifies such parts first and appeals to them.
What a step costs is reckoned by the size of the formula that must be looked at anew.
"""
from typing import TYPE_CHECKING

from .logic.kernel import Proof, packed, with_subproofs
from .logic.measures import distinct_steps, tree_steps
from .logic.objects import Object, Pair
from .prover.traces import rewritten

if TYPE_CHECKING:
    from .book import Book

# Methods whose conclusion is made of the premises alone: FORMULAP is not asked of it.
NEEDS_NO_LOOK = frozenset("""CONTRACTION ASSOCIATIVITY CUT COMMUTE-OR MODUS-PONENS MODUS-PONENS-2 RIGHT-ASSOCIATIVITY
    DISJOINED-CONTRACTION CANCEL-NEG-NEG INSERT-NEG-NEG LHS-INSERT-NEG-NEG LHS-CANCEL-NEG-NEG MERGE-IMPLICATIONS
    MERGE-NEGATIVES DISJOINED-MODUS-PONENS DISJOINED-MODUS-PONENS-2 DISJOINED-COMMUTE-OR LHS-COMMUTE-OR-THEN-RASSOC
    DISJOINED-RIGHT-ASSOCIATIVITY DISJOINED-ASSOCIATIVITY DISJOINED-CUT RESOLVE COMMUTE-PEQUAL
    TRANSITIVITY-OF-PEQUAL DISJOINED-COMMUTE-PEQUAL DISJOINED-TRANSITIVITY-OF-PEQUAL""".split())

_sizes: dict[Pair, int] = {}


def size(x: Object) -> int:
    """The pairs of an object, written out as a tree."""
    work = [x]
    while work:
        y = work[-1]
        if not isinstance(y, Pair) or y in _sizes:
            work.pop()
            continue
        parts = [z for z in (y.first, y.rest) if isinstance(z, Pair)]
        open_parts = [z for z in parts if z not in _sizes]
        if open_parts:
            work += open_parts
        else:
            _sizes[y] = 1 + sum(_sizes[z] for z in parts)
            work.pop()
    return _sizes.get(x, 0)


def weight(proof: Proof) -> int:
    """What judging the step alone costs, roughly, in pairs looked at."""
    return 4 if proof.method in NEEDS_NO_LOOK else 4 + size(proof.conclusion)


def share(book: "Book", name: str, proof: Proof) -> Proof:
    """The proof with its shared parts verified as theorems NAME.1, NAME.2, ..; where the running checker takes a list
    of steps, as such a list."""
    if "SHARED" in book.theory.methods:
        return pack(proof)
    order, uses = distinct_steps([proof]), {}
    for step in order:
        for part in step.subproofs:
            uses[part] = uses.get(part, 0) + 1
    made, cost, count = {}, {}, 0
    for step in order:
        rebuilt = with_subproofs(step, [made[p] for p in step.subproofs])
        total = weight(step) + sum(cost[p] for p in step.subproofs)
        appeal = 4 + size(step.conclusion)
        if step is not proof and uses[step] > 1 and total > 2 * appeal:
            count += 1
            rebuilt, total = book.verify_as_it_stands(f"{name}.{count}", rebuilt), appeal
        made[step], cost[step] = rebuilt, total
    return made[proof]


def pack(proof: Proof) -> Proof:
    """The proof by steps REWRITE where the running checker takes them, and as a list of steps, where it takes one and
    some part would be judged twice."""
    proof = rewritten(proof)
    has_method = "SHARED" in proof.theory.methods and proof.method != "SHARED"
    return packed(proof) if has_method and tree_steps([proof]) > len(distinct_steps([proof])) + 1 else proof
