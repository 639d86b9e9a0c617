"""Values of ground terms, with proofs: BASE-EVAL, the axioms of definitions and those of IF."""
from typing import Optional

from ..errors import RuleError
from ..limits import within_depth
from ..logic.kernel import Proof, base_eval, beta_reduction, further
from ..logic.moves import extras_of
from ..logic.objects import Object, Pair, items
from ..logic.terms import NIL, call, equation, is_constant, is_lambda_call, right, variables
from ..logic.theory import Theory
from ..rules.equality import reflexivity, replace, transitivity_of_pequal, unequal_constants
from ..rules.instances import definition_instance, primitive_axiom
from ..rules.propositional import modus_ponens, modus_ponens_2

Known = dict[Pair, Optional[Proof]]             # for each ground term a proof of t = 'v


@within_depth
def evaluate(theory: Theory, t: Object) -> Proof:
    """A proof of t = 'v, where v is the value of the ground term t.

    Takes a few steps for each unit of the run.  Raises RuleError for a term with variables, and where the value
    needs a witness; TooDeep where the run is too deep."""
    theory.check_term(t, "EVALUATE")
    if variables(t):
        raise RuleError("EVALUATE", f"a term with the variables {', '.join(variables(t))}", t)
    if "COMPUTE" in theory.methods and not is_constant(t):
        computed = extras_of(theory, t)
        if computed is not None:
            return further(theory, "COMPUTE", equation(t, computed[0]), [], computed[1])
    found = _value(theory, t, {})
    return reflexivity(theory, t) if found is None else found


def _then(first: Optional[Proof], second: Optional[Proof]) -> Optional[Proof]:
    """t = w from t = u and u = w; None stands for an equation of equal sides."""
    return second if first is None else first if second is None else transitivity_of_pequal(first, second)


def _result(proof: Optional[Proof], t: Object) -> Object:
    return t if proof is None else right(proof.conclusion)


def _value(theory: Theory, t: Pair, memo: Known) -> Optional[Proof]:
    """A proof of t = 'v, or None where t is a constant."""
    if is_constant(t):
        return None
    if t not in memo:
        memo[t] = _if(theory, t, memo) if t.first == "IF" else _call(theory, t, memo)
    return memo[t]


def _if(theory: Theory, t: Pair, memo: Known) -> Optional[Proof]:
    _, test, then, other = items(t)
    known = _value(theory, test, memo)
    value = _result(known, test)
    first = None
    if known is not None:
        first = replace(theory, "IF", [known, reflexivity(theory, then), reflexivity(theory, other)])
    if value is NIL:
        chosen = modus_ponens(reflexivity(theory, NIL), primitive_axiom(theory, 6, x=NIL, y=then, z=other))
    else:
        chosen = modus_ponens_2(unequal_constants(theory, value, NIL),
                                primitive_axiom(theory, 7, x=value, y=then, z=other))
    return _then(_then(first, chosen), _value(theory, right(chosen.conclusion), memo))


def _call(theory: Theory, t: Pair, memo: Known) -> Optional[Proof]:
    function, actuals = t.first, items(t)[1:]
    proofs = [_value(theory, u, memo) for u in actuals]
    if is_lambda_call(t):
        # the body with the actuals put in; their values are found again by the memo
        opened = beta_reduction(theory, t)
        return _then(opened, _value(theory, right(opened.conclusion), memo))
    first = None
    if any(p is not None for p in proofs):
        first = replace(theory, function, [p or reflexivity(theory, u) for p, u in zip(proofs, actuals)])
    ready = call(function, *[_result(p, u) for p, u in zip(proofs, actuals)])
    if function in theory.primitives:
        return _then(first, base_eval(theory, ready))
    if ready in memo:
        return _then(first, memo[ready])
    if theory.definitions[function].bound is not None:
        raise RuleError("EVALUATE", "WITNESS: a call of a function without code", ready)
    opened = definition_instance(theory, function, items(ready)[1:])
    memo[ready] = _then(opened, _value(theory, right(opened.conclusion), memo))
    return _then(first, memo[ready])
