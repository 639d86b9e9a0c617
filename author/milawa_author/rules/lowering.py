"""The five rules that the command `lower` takes beyond the twelve methods, as tests."""
from typing import Optional

from ..logic.objects import Object, Pair, items
from ..logic.terms import equation, is_call, is_equation, left, right
from ..logic.theory import Test
from .equality import commute_pequal, transitivity_of_pequal
from .propositional import commute_or, modus_ponens


def replace_test(conclusion: Pair, premises: list[Pair], extras: Object) -> Optional[str]:
    """The test of REPLACE: None, or why it does not hold."""
    if extras != "NIL" or not is_equation(conclusion):
        return "concludes an equation and takes no extras"
    t, u = left(conclusion), right(conclusion)
    if not is_call(t) or not is_call(u) or t.first != u.first:
        return "the sides are not calls of one function"
    wanted = [equation(a, b) for a, b in zip(items(t)[1:], items(u)[1:])]
    return None if wanted == premises else "the premises are not the equations of the actuals"


def lower_methods() -> dict[str, Test]:
    """The rules by the names that `lower` has for them, each with its test."""
    return {"COMMUTE-OR": commute_or.scheme.test, "MODUS-PONENS": modus_ponens.scheme.test,
            "SYMMETRY": commute_pequal.scheme.test, "TRANSITIVITY": transitivity_of_pequal.scheme.test,
            "REPLACE": replace_test}
