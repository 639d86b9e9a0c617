"""Instances of axioms and theorems: one step where the running checker has the method INSTANCE."""
from collections.abc import Sequence

from ..errors import RuleError
from ..logic.kernel import Proof, axiom, further, instantiation
from ..logic.objects import Object, make_list
from ..logic.substitution import substitute, substitution_object
from ..logic.terms import Substitution
from ..logic.theory import Theory


def instance(proof: Proof, substitution: Substitution) -> Proof:
    """F/s from a proof of F."""
    theory = proof.theory
    if proof.method in ("AXIOM", "THEOREM") and "INSTANCE" in theory.methods:
        conclusion = substitute(proof.conclusion, substitution)
        if conclusion is proof.conclusion:
            return proof
        extras = make_list(proof.conclusion, substitution_object(substitution))
        return further(theory, "INSTANCE", conclusion, [], extras)
    return instantiation(proof, substitution)


def primitive_axiom(theory: Theory, number: int, **substitution) -> Proof:
    """An instance of an axiom of the primitives, by its number from 1 to 53, or to 60 in the second profile; `x=t`
    puts t for X.

    Raises RuleError where there is no such number, or the axiom has no such variable."""
    if not 1 <= number <= len(theory.primitive_axioms):
        raise RuleError("AXIOM", f"there are axioms 1 to {len(theory.primitive_axioms)}, no axiom {number}")
    proof = axiom(theory, theory.primitive_axioms[number - 1])
    return instance(proof, {v.upper(): t for v, t in substitution.items()})


def definition_axiom(theory: Theory, name: str) -> Proof:
    """The axiom of a function or witness.  Raises RuleError where there is none of that name."""
    entry = theory.definitions.get(name.upper())
    if entry is None:
        raise RuleError("AXIOM", f"there is no definition of {name}")
    return axiom(theory, entry.axiom())


def definition_instance(theory: Theory, name: str, actuals: Sequence[Object]) -> Proof:
    """`(f actuals) = body` with the actuals put for the formals.  Raises RuleError where there is no such
    function, or it takes another number of actuals."""
    proof = definition_axiom(theory, name)
    formals = theory.definitions[name.upper()].formals
    if len(formals) != len(actuals):
        raise RuleError("AXIOM", f"{name} takes {len(formals)} actuals, not {len(actuals)}")
    return instance(proof, dict(zip(formals, actuals)))
