"""Proofs by induction, whose cases `search.prove` proves."""
from collections.abc import Callable, Iterable, Sequence
from typing import TYPE_CHECKING, Optional

from ..errors import RuleError
from ..logic.kernel import Case, Proof, induction, induction_premises, propositional_schema
from ..logic.notation import as_formula, term
from ..logic.objects import Object, Pair, items
from ..logic.substitution import substitute
from ..logic.terms import (Substitution, T, call, disjunction, equation, holds, is_call, is_negation, is_variable, left,
                           literals, negation, quote, variables)
from ..rules.disjunctions import resolve, subset
from ..rules.instances import definition_instance
from .decreases import solve_obligation
from .obligations import recursive_calls
from .search import prove

if TYPE_CHECKING:
    from ..book import Book


def induct(book: "Book", goal: str | Pair, measure: Object, cases: Sequence[Case], **options) -> Proof:
    """A proof of the goal by induction.  Each case is a condition and the substitutions for which the goal may be
    supposed where it holds; the options are those of `prove`.

    That the measure is an ordinal and falls is proved as for a simple recursion, or by `prove`.
    Raises Unproved where a case is not proved."""
    goal = as_formula(goal)
    book.theory.check_formula(goal, "INDUCTION")
    proofs = []
    for k, premise in enumerate(induction_premises(goal, measure, cases)):
        if k <= len(cases):
            proofs.append(_open_condition(premise, lambda f: prove(book.theory, f, **options)))
        elif k == len(cases) + 1:
            proofs.append(solve_obligation(book, premise))
        else:
            proofs.append(_open_condition(premise, lambda f: _falls(book, f, options)))
    return induction(goal, measure, cases, proofs)


def _open_condition(premise: Pair, solve: Callable[[Pair], Proof]) -> Proof:
    """A proof of a premise from one of the same with D in place of `not not D`, which denies a condition that is
    `not D`."""
    doubles = [f for f in literals(premise) if is_negation(f) and is_negation(left(f))]
    parts = [left(left(f)) if f in doubles else f for f in literals(premise)]
    proof = solve(disjunction(*parts) if doubles else premise)
    for f in doubles:
        proof = resolve(proof, propositional_schema(proof.theory, left(f)), left(left(f)))
    return subset(proof, premise)


def _falls(book: "Book", premise: Pair, options: dict) -> Proof:
    """A proof of `D or (ord< m/s m) = 't`."""
    try:
        return subset(solve_obligation(book, premise), premise)
    except RuleError:
        return prove(book.theory, premise, **options)


def _variable_of(goal: str | Pair, name: str) -> str:
    """A variable of the goal, by its name.  Raises RuleError where the goal has none of that name."""
    if name.upper() not in variables(as_formula(goal)):
        raise RuleError("INDUCTION", f"{name.upper()} is not a variable of the goal", as_formula(goal))
    return name.upper()


def induct_on_list(book: "Book", goal: str | Pair, variable: str, hypotheses: Iterable[Substitution] = ({},),
                   **options) -> Proof:
    """Induction along the CDR of a list; each hypothesis says which further variables change in it, and to what."""
    variable = _variable_of(goal, variable)
    q = holds(call("CONSP", variable))
    substitutions = [{variable: call("CDR", variable), **h} for h in hypotheses]
    return induct(book, goal, call("RANK", variable), [(q, substitutions)], **options)


def induct_on_natural(book: "Book", goal: str | Pair, variable: str, hypotheses: Iterable[Substitution] = ({},),
                      **options) -> Proof:
    """Induction by `(- n 1)` where `(< 0 n)`; the hypotheses as for a list."""
    variable = _variable_of(goal, variable)
    q = holds(call("<", quote(0), variable))
    substitutions = [{variable: call("-", variable, quote(1)), **h} for h in hypotheses]
    return induct(book, goal, call("+", quote(0), variable), [(q, substitutions)], **options)


def induct_on_call(book: "Book", goal: str | Pair, t: Object, measure: Optional[str] = None, **options) -> Proof:
    """Induction as a function recurs, for a call of it on distinct variables: a case for each set of tests that governs
    calls of itself.  `measure` is wanted for a function that is built in, and is over its formals.  The definition of
    the call is among the lemmas.  Raises RuleError where t is no such call."""
    definition = book.theory.definitions.get(t.first) if is_call(t) else None
    if definition is None or definition.measure is None and measure is None:
        raise RuleError("INDUCTION", "not a call of a function of the book, and no measure is given", t)
    falling = definition.measure if measure is None else term(measure)
    chosen = items(t)[1:]
    if not all(map(is_variable, chosen)) or len({*chosen}) != len(definition.formals):
        raise RuleError("INDUCTION", "not a call on distinct variables", t)
    renamed = dict(zip(definition.formals, chosen))
    body, cases = substitute(definition.body, renamed), {}
    for tests, _, actuals in recursive_calls([t.first], body):
        condition = negation(disjunction(*tests)) if tests else equation(T, T)
        cases.setdefault(condition, []).append(dict(zip(chosen, actuals)))
    if not cases:
        raise RuleError("INDUCTION", "the function does not call itself", t)
    options["use"] = [*options.get("use", ()), definition_instance(book.theory, t.first, chosen)]
    return induct(book, goal, substitute(falling, renamed), list(cases.items()), **options)
