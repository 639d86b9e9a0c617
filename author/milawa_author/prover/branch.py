"""One case of a search: what follows in it without a split."""
from collections.abc import Iterable, Mapping
from typing import Optional, Union

from ..errors import RuleError, quotation
from ..logic.kernel import Proof, base_eval
from ..logic.objects import Object, Pair, items
from ..logic.substitution import substitute
from ..logic.terms import (NIL, Substitution, call, equation, is_call, is_constant, is_lambda_call, is_negation,
                           lambda_parts, left, right)
from ..logic.theory import Theory
from ..rules.instances import definition_instance, instance
from .elimination import Eliminate
from .facts import Fact, plain
from .knowledge import Knowledge

Unfold = Union[Iterable[str], Mapping[str, str]]        # names of definitions, or names with a policy
Rules = Iterable[tuple[Pair, Proof]]                    # patterns of terms, each with a lemma
POLICIES = ("always", "decided", "once")
MOST_UNFOLDINGS = 300           # within one another; a definition that always unfolds to itself ends by this


class Options:
    """What a search may use; `search.prove` says what each is.  Raises RuleError where one is not of its form."""

    def __init__(self, theory: Theory, unfold: Unfold = (), rules: Rules = (), depth: int = 3):
        if isinstance(unfold, str):
            raise RuleError("PROVER", f"`unfold` is a list of names or a dict, not the text {unfold!r}")
        self.unfold: dict[str, str] = {}
        for name in unfold:
            definition = theory.definitions.get(name.upper())
            if definition is None or definition.bound is not None:
                raise RuleError("PROVER", f"`unfold` names {name}, which is not a defined function")
            policy = unfold[name] if isinstance(unfold, Mapping) else default_policy(theory, name.upper())
            if policy not in POLICIES:
                raise RuleError("PROVER", f"{policy!r} is not a policy; there are {', '.join(POLICIES)}")
            if policy == "decided" and not is_call(definition.body, "IF"):
                raise RuleError("PROVER", f"`decided` is for a body that begins with IF, which that of {name} does not")
            self.unfold[name.upper()] = policy
        self.rules, self.depth = list(rules), depth
        for rule in self.rules:
            if not isinstance(rule, tuple) or len(rule) != 2 or not isinstance(rule[1], Proof):
                raise RuleError("PROVER", f"`rules` takes pairs as `book.rule` makes them, not {rule!r}")
            if not is_call(pattern := rule[0]):
                raise RuleError("PROVER", "the pattern of a rule is not a call of a function", pattern)


def default_policy(theory: Theory, name: str) -> str:
    """Definitions that do not call themselves, by others either, are always unfolded; others where their first test is
    decided, or once where they do not begin with a test."""
    seen, work = set(), [theory.definitions[name].body]
    while work:
        t = work.pop()
        if not isinstance(t, Pair) or is_constant(t) or t in seen:
            continue
        seen.add(t)
        if t.first == name:
            return "decided" if is_call(theory.definitions[name].body, "IF") else "once"
        work += items(t)[1:]
        if is_lambda_call(t):
            work.append(lambda_parts(t)[1])
        elif t.first in theory.definitions:
            work.append(theory.definitions[t.first].body)
    return "always"


class Branch(Knowledge):
    """A case with what a search may use in it."""

    def __init__(self, theory: Theory, contexts: list[Pair], options: Options):
        super().__init__(theory, contexts)
        self.options = options
        self.unfolded, self.evaluated, self.matched = set(), set(), set()

    def propagate(self) -> None:
        """Everything that follows without a split."""
        changed = True
        while changed and not self.conflict:
            self.join()
            self.check_unequal()
            if self.conflict:
                return
            changed = self.follow_clauses()
            if not changed and not self.conflict:
                changed = self.evaluate() or self.apply_rules() or self.unfold()

    def follow_clauses(self) -> bool:
        """Facts that clauses give in which all but one member is false."""
        entries, self.clauses, changed = self.clauses, [], False
        for entry in entries:
            fact, members, generation = entry
            values = [self.value(m) for m in members]
            if True in values:
                continue
            open_ones = [m for m, v in zip(members, values) if v is None]
            if len(open_ones) > 1:
                self.clauses.append(entry)
                continue
            target = open_ones[0] if open_ones else None
            facts = {m: self.refute(m) for m in members if m is not target}
            level = max([fact.level] + [f.level for f in facts.values()])

            def make(fact=fact, members=members, target=target, facts=facts, level=level) -> Proof:
                return Eliminate(self, level).run(fact, members, target, facts)
            if target is None:
                self.conflict = (level, make)
            else:
                self.add_fact(Fact(target, level, make), generation)
                if not self.conflict:
                    self.check_unequal()
            changed = True
            if self.conflict:
                return True
        return changed

    def evaluate(self) -> bool:
        """Calls of primitives whose actuals are known constants."""
        changed = False
        for t in list(self.parent):
            if t in self.evaluated or not is_call(t) or t.first not in self.theory.primitives or t.first == "IF":
                continue
            constants = [self.constant.get(self.find(u)) for u in items(t)[1:]]
            if None in constants:
                continue
            self.evaluated.add(t)
            u = call(t.first, *constants)
            value = base_eval(self.theory, u)
            if self.constant.get(self.find(t)) is right(value.conclusion):
                continue                        # nothing new; another value would contradict what is known
            self.evaluated.add(u)
            self.add_term(u, self.generation[t])
            self.add_fact(plain(value), self.generation[t])
            changed = True
            if self.conflict:
                return True
        return changed

    def apply_rules(self) -> bool:
        """Instances of the rules for each known term that matches a rule's pattern up to known equalities."""
        changed = False
        for pattern, proof in self.options.rules:
            for t in self.heads.get(pattern.first, ())[:]:
                if self.generation[t] >= self.options.depth:
                    continue
                for found in self.matches(pattern, t, {}):
                    key = (proof, *[self.find(u) for u in found.values()])
                    if key not in self.matched:
                        self.matched.add(key)
                        self.add_any(plain(instance(proof, found)), self.generation[t] + 1)
                        changed = True
                        if self.conflict:
                            return True
        return changed

    def matches(self, pattern: Pair, t: Pair, found: Substitution) -> list[Substitution]:
        """The substitutions under which the pattern is t, its parts up to known equalities."""
        rows = [found]
        for p, u in zip(items(pattern)[1:], items(t)[1:]):
            rows = [more for row in rows for more in self.part_matches(p, u, row)]
        return rows

    def part_matches(self, p: Object, u: Object, found: Substitution) -> list[Substitution]:
        """The same for a part of a pattern."""
        if isinstance(p, str):
            if p not in found:
                return [{**found, p: u}]
            return [found] if self.find(found[p]) is self.find(u) else []
        if is_constant(p):
            return [found] if self.constant.get(self.find(u)) is p else []
        return [row for m in self.members[self.find(u)] if is_call(m, p.first) for row in self.matches(p, m, found)]

    def unfold(self) -> bool:
        """Definitions, by the policies of the options."""
        for t in list(self.parent):
            if t in self.unfolded or not is_call(t) or t.first not in self.options.unfold:
                continue
            definition = self.theory.definitions[t.first]
            actuals = dict(zip(definition.formals, items(t)[1:]))
            policy = self.options.unfold[t.first]
            if self.generation[t] > (0 if policy == "once" else MOST_UNFOLDINGS):
                continue
            if policy == "decided" and not self.decided(substitute(items(definition.body)[1], actuals)):
                continue
            self.unfolded.add(t)
            here = definition_instance(self.theory, t.first, items(t)[1:])
            self.add_fact(plain(here), self.generation[t] + 1)
            return True
        return False

    def decided(self, test: Object) -> bool:
        """Is it known whether the test is nil?"""
        if test in self.parent:
            return self.value(equation(test, NIL)) is not None
        parts = items(test)[1:] if is_call(test) else (None,)
        if any(u not in self.parent for u in parts):
            return False
        classes = [self.find(u) for u in parts]
        if test.first == "CONSP" and any(is_call(m, "CONS") for m in self.members[classes[0]]):
            return True
        if test.first in self.theory.primitives and all(c in self.constant for c in classes):
            return True
        same = self.table.get((test.first, *classes))
        return same is not None and self.value(equation(same, NIL)) is not None

    # -- splitting -------------------------------------------------------------------------------------------

    def choose(self) -> Optional[Pair]:
        """The equation to split upon, or None where there is none."""
        for e in self.tests:
            if self.value(e) is None:
                return e
        best = None
        for _, members, _ in self.clauses:
            open_ones = [m for m in members if self.value(m) is None]
            if open_ones and (best is None or len(open_ones) < len(best)):
                best = open_ones
        if best is None:
            return None
        e = best[0]
        while is_negation(e):
            e = left(e)
        return e

    def describe(self) -> str:
        """What is known, for the message of a failed proof."""
        lines = ["  " + quotation(fact.formula, 200) for fact in self.facts if fact.level >= 0]
        return "\n".join(lines[-40:])
