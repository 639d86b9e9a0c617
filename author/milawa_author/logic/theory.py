"""Theories: the arities, axioms, theorems and definitions that proofs are made over."""
from collections.abc import Callable, Iterable, Mapping
from typing import Optional

from ..errors import RuleError
from . import tables
from .objects import Object, Pair, items, make_list
from .terms import (call, disjunction, equation, is_constant, is_lambda_call, is_variable, lambda_parts, negation,
                    quote, variables)

# The test of a further method: conclusion, the premises' formulas, extras; the answer is None, or why it fails.
Test = Callable[[Pair, list[Pair], Object], Optional[str]]


class Definition:
    """A function's definition, or a witness; then `bound` is its bound variable.  `measure` is that of a function of
    the book, by which `prover.induction.induct_on_call` goes."""

    def __init__(self, name: str, formals: Iterable[str], body: Object, bound: Optional[str] = None,
                 measure: Optional[Object] = None):
        self.name, self.formals, self.body, self.bound = name, tuple(formals), body, bound
        self.measure = measure

    def axiom(self) -> Pair:
        """The axiom that admission adds."""
        here = call(self.name, *self.formals)
        if self.bound is None:
            return equation(here, self.body)
        function = make_list("LAMBDA", make_list(self.bound, *self.formals), self.body)
        there = call(function, here, *self.formals)
        return disjunction(equation(self.body, quote("NIL")), negation(equation(there, quote("NIL"))))


class Theory:
    """What a book has at some place.  It only grows, so a proof made over it stays one.

    `profile`, `primitives`, `arities`, `axioms`, `theorems` (each formula with its first name), `definitions` and
    `methods` (of the running checker beyond the twelve, each with its test) are to be read; `Book` adds to them.
    """

    def __init__(self, profile: int = 1):
        if profile not in tables.PROFILES:
            raise RuleError("PROFILE", f"there are profiles 1 and 2, no profile {profile}")
        self.profile, self.primitives = profile, tables.primitives(profile)
        self.arities = dict(self.primitives)
        self.primitive_axioms = tables.axioms(profile)
        self.axioms = dict.fromkeys(self.primitive_axioms)
        self.theorems: dict[Pair, str] = {}
        self.definitions: dict[str, Definition] = {}
        self.methods: dict[str, Test] = {}
        self.level = 1
        self.is_hypothetical = False
        self._good: dict[bool, set[Pair]] = {False: set(), True: set()}         # checked terms, and checked formulas
        self._proofs: dict[Pair, object] = {}   # each proof by its form, made once
        for entry in tables.definitions(profile):
            self.add_definition(Definition(*entry))

    # ---- growing ----------------------------------------------------------------------------------------

    def add_definition(self, definition: Definition) -> None:
        """Adds a function or witness that the program admits; its obligations are looked at by `Book`."""
        self.arities[definition.name] = len(definition.formals)
        self.definitions[definition.name] = definition
        self.axioms.setdefault(definition.axiom())

    def add_theorem(self, name: str, proof: "object") -> None:
        """Adds the conclusion of a proof over this theory.  Raises RuleError for a proof over another."""
        if proof.theory is not self:
            raise RuleError("VERIFY", "a proof over another theory", proof.conclusion)
        self.theorems.setdefault(proof.conclusion, name)

    def assume(self, formula: Pair, name: str = "ASSUMED") -> None:
        """Adds a formula without proof, so that a rule can be tried on it.  From then on the theory is
        hypothetical, and no book takes its proofs.  Raises RuleError where it is not a formula."""
        self.check_formula(formula, "ASSUME")
        self.is_hypothetical = True
        self.theorems.setdefault(formula, name)

    def set_methods(self, methods: Mapping[str, Test], level: Optional[int] = None) -> None:
        """Gives the theory the methods that its checker has beyond the twelve."""
        self.methods = dict(methods)
        self.level = self.level if level is None else level

    # ---- what is a term, what a formula -------------------------------------------------------------------

    def check_term(self, t: Object, rule: str = "TERM", new: Optional[Mapping[str, int]] = None) -> None:
        """Raises RuleError unless t is a term under the arities, and those of new functions if there are any."""
        self._check([(t, False)], rule, new or {})

    def check_formula(self, f: Object, rule: str = "FORMULA") -> None:
        """Raises RuleError unless f is a formula under the arities."""
        self._check([(f, True)], rule, {})

    def _check(self, work: list[tuple[Object, bool]], rule: str, new: Mapping[str, int]) -> None:
        seen: dict[bool, set[Pair]] = {False: set(), True: set()}
        while work:
            x, is_formula = work.pop()
            if x in self._good[is_formula] or x in seen[is_formula] or not is_formula and is_variable(x):
                continue
            if not isinstance(x, Pair) or not items(x):
                raise RuleError(rule, "not a formula" if is_formula else "not a term", x)
            seen[is_formula].add(x)
            work += self._formula_parts(x, rule) if is_formula else self._term_parts(x, rule, new)
        for t in seen[False]:                   # their bodies are known to be terms by now
            if is_lambda_call(t) and not set(variables(lambda_parts(t)[1])) <= set(lambda_parts(t)[0]):
                raise RuleError(rule, "the body of a lambda has a variable that is not a formal", t)
        if not new:                             # else it is a term only if the definition is admitted
            self._good[False] |= seen[False]
            self._good[True] |= seen[True]

    @staticmethod
    def _formula_parts(f: Pair, rule: str) -> list[tuple[Object, bool]]:
        word, *parts = items(f)
        if {"PEQUAL*": 2, "PNOT*": 1, "POR*": 2}.get(word) != len(parts):
            raise RuleError(rule, "not a formula", f)
        return [(part, word != "PEQUAL*") for part in parts]

    def _term_parts(self, t: Pair, rule: str, new: Mapping[str, int]) -> list[tuple[Object, bool]]:
        head, *actuals = items(t)
        if is_constant(t):
            if len(actuals) != 1:
                raise RuleError(rule, "QUOTE takes one object", t)
            return []
        if is_lambda_call(t):
            formals, body = self._lambda(t, rule)
            wanted, parts = len(formals), [(body, False)]
        else:
            wanted, parts = new.get(head, self.arities.get(head)), []
            if wanted is None:
                raise RuleError(rule, f"{head} is not a known function{_hint(head)}", t)
        if len(actuals) != wanted:
            raise RuleError(rule, f"{wanted} actuals are wanted, {len(actuals)} given", t)
        return parts + [(u, False) for u in actuals]

    @staticmethod
    def _lambda(t: Pair, rule: str) -> tuple[tuple, Object]:
        """The formals and the body of the lambda that t calls."""
        function = items(t.first)
        if function is None or len(function) != 3 or function[0] != "LAMBDA":
            raise RuleError(rule, "not a lambda", t)
        formals = items(function[1])
        if formals is None or not all(map(is_variable, formals)) or len(set(formals)) != len(formals):
            raise RuleError(rule, "the formals are not a list of distinct variables", t)
        return formals, function[2]


def _hint(head: Object) -> str:
    """What may be wrong with the name of an unknown function."""
    if head in ("=", "!=", "NOT", "IMPLIES", "PEQUAL*", "PNOT*", "POR*"):
        return ": it makes a formula, and here a term is wanted; tests in terms are made with EQUAL, IF, AND, OR"
    return "; names are in upper case" if isinstance(head, str) and head != head.upper() else ""
