"""How large proofs are."""
from collections.abc import Iterable

from .kernel import Proof


def distinct_steps(proofs: Iterable[Proof]) -> list[Proof]:
    """All steps of the proofs, each once, subproofs first."""
    seen, order, work = set(), [], [(p, False) for p in reversed(list(proofs))]
    while work:
        proof, done = work.pop()
        if done:
            order.append(proof)
        elif proof not in seen:
            seen.add(proof)
            work.append((proof, True))
            work += [(p, False) for p in reversed(proof.subproofs)]
    return order


def tree_steps(proofs: Iterable[Proof]) -> int:
    """The number of steps of the proofs, written out as trees; of a step SHARED those of its list."""
    proofs, size = list(proofs), {}
    for proof in distinct_steps(proofs):
        if proof.method == "SHARED":
            size[proof] = len(distinct_steps([proof]))
        else:
            size[proof] = 1 + sum(size[p] for p in proof.subproofs)
    return sum(size[p] for p in proofs)
