"""Rewriting by conditional equations, with a trace.

A rule is a theorem that ends in an equation, whose other literals are its conditions: `(or C1 .. (= l r))`.  Where l
matches a term and each Ci is seen to be false, r stands for the term from then on.  `Rewriter.term` rewrites a term
from the inside; its `trace` has each use of a rule.  `prove_by_rewriting` finds the uses in a goal, and proves it from
them.
"""
from collections.abc import Iterable
from typing import NamedTuple, Optional

from ..errors import RuleError
from ..limits import within_depth
from ..logic.kernel import Proof
from ..logic.notation import as_formula
from ..logic.objects import Object, Pair, items
from ..logic.substitution import instance_of, substitute
from ..logic.tables import apply_primitive
from ..logic.terms import (NIL, T, call, is_call, is_constant, is_equation, is_negation, left, literals, quote, right,
                           variables)
from ..logic.text import write
from ..logic.theory import Theory
from ..rules.instances import instance
from .knowledge import TWO_VALUED
from .search import prove

DEPTH = 4                       # conditions within conditions
MOST_USES = 2000                # of rules, for one goal


class Rule(NamedTuple):
    """A theorem as a rule: its conditions, as literals that must be false, and the sides of its equation."""

    proof: Proof
    conditions: tuple[Pair, ...]
    left: Pair
    right: Object


class Use(NamedTuple):
    """A use of a rule: the instance of the theorem, and the terms before and after."""

    proof: Proof
    before: Object
    after: Object


def as_rule(proof: Proof) -> Rule:
    """A theorem as a rule.  Raises RuleError where it does not end in an equation whose left side is a call that has
    all its variables."""
    *conditions, last = literals(proof.conclusion)
    if not is_equation(last) or not is_call(left(last)):
        raise RuleError("REWRITE", "a rule ends in an equation whose left side is a call", proof.conclusion)
    bound = set(variables(left(last)))
    free = [v for f in [*conditions, last] for t in _sides(f) for v in variables(t) if v not in bound]
    if free:
        raise RuleError("REWRITE", f"the left side of a rule lacks {', '.join(free)}", proof.conclusion)
    return Rule(proof, tuple(conditions), left(last), right(last))


def _sides(literal: Pair) -> tuple[Object, Object]:
    while is_negation(literal):
        literal = left(literal)
    return (left(literal), right(literal)) if is_equation(literal) else (NIL, NIL)


def _order(t: Object) -> tuple[int, str]:
    """By length, and then by the text."""
    text = write(t)
    return len(text), text


class Rewriter:
    """Rewrites terms by rules, where the literals of a goal are false.  `trace` has the uses of rules, in order."""

    def __init__(self, theory: Theory, rules: Iterable[Proof], false: Iterable[Pair] = ()):
        self.theory, self.trace = theory, []
        self.rules: dict[str, list[Rule]] = {}
        for rule in map(as_rule, rules):
            self.rules.setdefault(rule.left.first, []).append(rule)
        self.known: dict[Object, Object] = {}
        self.not_nil: set[Object] = set()
        for literal in false:
            self.take(literal)

    def take(self, literal: Pair) -> None:
        """Takes a literal as false: `a != b` gives a = b, and `t = nil` that t is not nil."""
        if is_negation(literal) and is_equation(left(literal)):
            a, b = _sides(literal)
            if is_constant(a) or not is_constant(b) and len(write(a)) < len(write(b)):
                a, b = b, a
            if not is_constant(a):
                self.known.setdefault(a, b)
        elif is_equation(literal) and right(literal) is NIL:
            t = left(literal)
            self.not_nil.add(t)
            if is_call(t) and t.first in TWO_VALUED:
                self.known.setdefault(t, T)

    @within_depth
    def term(self, t: Object) -> Object:
        """What a term is rewritten to.  Raises RuleError where rules are used too often, as in a circle."""
        return self.inside(t, 0)

    def inside(self, t: Object, depth: int) -> Object:
        """The same within conditions, so many deep."""
        if len(self.trace) > MOST_USES:
            raise RuleError("REWRITE", f"rules were used {MOST_USES} times; do they go in a circle?", t)
        if t in self.known:
            return self.known[t]
        if not is_call(t):
            return t
        if t.first == "IF":
            new = self.branch(t, depth)
        else:
            new = call(t.first, *[self.inside(u, depth) for u in items(t)[1:]])
        changed = self.at_root(new, depth)
        return new if changed is None else self.inside(changed, depth)

    def branch(self, t: Pair, depth: int) -> Object:
        """An IF, whose branches are rewritten where its test is not decided."""
        test, then, other = items(t)[1:]
        test = self.inside(test, depth)
        if is_constant(test) or test in self.not_nil:
            return self.inside(other if test is NIL else then, depth)
        return call("IF", test, self.inside(then, depth), self.inside(other, depth))

    def at_root(self, t: Object, depth: int) -> Optional[Object]:
        """One step at the root of a term whose parts are rewritten, or None."""
        if t in self.known:
            return self.known[t]
        if not is_call(t):
            return None
        parts = items(t)[1:]
        if t.first in self.theory.primitives and t.first != "IF" and all(map(is_constant, parts)):
            return quote(apply_primitive(t.first, [u.rest.first for u in parts]))
        if parts and is_call(parts[0], "CONS") and t.first in ("CAR", "CDR", "CONSP"):
            return {"CAR": items(parts[0])[1], "CDR": items(parts[0])[2], "CONSP": T}[t.first]
        if t.first == "EQUAL" and parts[0] is parts[1]:
            return T
        for rule in self.rules.get(t.first, ()):
            found = instance_of(rule.left, t)
            if found is None:
                continue
            new = substitute(rule.right, found)
            if instance_of(rule.left, new) is not None and _order(t) <= _order(new):
                continue                        # such a rule turns a term round; it is used one way
            if all(self.is_false(substitute(c, found), depth) for c in rule.conditions):
                self.trace.append(Use(instance(rule.proof, found), t, new))
                return new
        return None

    def is_false(self, literal: Pair, depth: int) -> bool:
        """Is a condition seen to be false?"""
        if depth >= DEPTH:
            return False
        a, b = (self.inside(side, depth + 1) for side in _sides(literal))
        if is_negation(literal):
            return a is b
        return is_constant(a) and is_constant(b) and a is not b or b is NIL and a in self.not_nil


def prove_by_rewriting(theory: Theory, goal: str | Pair, rules: Iterable[Proof], **options) -> Proof:
    """A proof of a disjunction whose terms are rewritten by rules, where its other literals are false; the options are
    those of `prove`.  Raises Unproved, and RuleError where a theorem is no rule."""
    goal = as_formula(goal)
    theory.check_formula(goal, "REWRITE")
    members, uses = literals(goal), {}
    rules = list(rules)
    for literal in members:
        rewriter = Rewriter(theory, rules, [f for f in members if f is not literal])
        for side in _sides(literal):
            rewriter.term(side)
        uses.update(dict.fromkeys(use.proof for use in rewriter.trace))
    return prove(theory, goal, use=[*options.pop("use", ()), *uses], **options)
