"""What is known in a case: terms with what the axioms say of them, facts, clauses, and the value of a literal."""
from typing import Optional

from ..logic.kernel import Proof, axiom, beta_reduction
from ..logic.objects import Object, Pair, items
from ..logic.terms import (NIL, call, disjunction, equation, is_constant, is_disjunction, is_equation, is_lambda_call,
                           is_negation, left, literals, negation, right, variables)
from ..rules.disjunctions import subset, under
from ..rules.equality import CONS_NOT_NIL, cons_not_nil_lemma
from ..rules.instances import instance, primitive_axiom
from ..rules.propositional import cancel_neg_neg, commute_or, lhs_cancel_neg_neg
from .differences import Differences
from .facts import Fact, plain

TWO_VALUED = {"CONSP": 11, "SYMBOLP": 15, "SYMBOL-<": 16, "NATP": 26, "<": 32}      # the axiom that says so


class Knowledge(Differences):
    """Terms, facts and clauses.  A clause is a fact with its literals and a generation: how many unfoldings lie
    between it and the goal."""

    def __init__(self, theory, contexts: list[Pair]):
        super().__init__(theory, contexts)
        self.facts, self.clauses, self.tests = [], [], []
        self.generation, self.heads = {}, {}

    # -- terms -----------------------------------------------------------------------------------------------

    def add_term(self, t: Object, generation: int) -> None:
        """Registers a term and what the axioms say of it."""
        if t in self.parent:
            return
        self.parent[t], self.members[t], self.users[t] = t, [t], []
        self.generation[t] = generation
        if isinstance(t, str):
            return
        if is_constant(t):
            self.constant[t] = t
            return
        if is_lambda_call(t):
            self.add_fact(plain(beta_reduction(self.theory, t)), generation)
        elif t.first == "IF":
            self.add_if(t, generation)
        else:
            self.heads.setdefault(t.first, []).append(t)
            for u in items(t)[1:]:
                self.add_term(u, generation)
                self.users[self.find(u)].append(t)
            self.close(t)
            self.add_axioms(t, generation)

    def add_if(self, t: Pair, generation: int) -> None:
        """What the axioms say of a call of IF."""
        test, then, other = items(t)[1:]
        self.add_term(test, generation)
        self.add_term(NIL, 0)
        self.tests.append(equation(test, NIL))
        for number in (7, 6):
            self.add_clause(plain(primitive_axiom(self.theory, number, x=test, y=then, z=other)), generation)

    def add_axioms(self, t: Pair, generation: int) -> None:
        """What the axioms say of a call of CONS, EQUAL or a test."""
        theory, name, parts = self.theory, t.first, items(t)[1:]
        if name == "CONS":
            x, y = parts
            for number, function in ((8, "CONSP"), (9, "CAR"), (10, "CDR")):
                self.add_term(call(function, t), generation)
                self.add_fact(plain(primitive_axiom(theory, number, x=x, y=y)), generation)
            if CONS_NOT_NIL in theory.theorems:
                self.add_term(NIL, 0)
                self.add_fact(plain(instance(cons_not_nil_lemma(theory), {"X": x, "Y": y})), generation)
        elif name == "EQUAL":
            x, y = parts
            for number in (4, 5):
                self.add_clause(plain(primitive_axiom(theory, number, x=x, y=y)), generation)
        elif name in TWO_VALUED:
            formula = axiom(theory, theory.primitive_axioms[TWO_VALUED[name] - 1])
            names = variables(left(left(formula.conclusion)))
            self.add_clause(plain(instance(formula, dict(zip(names, parts)))), generation)

    # -- facts -----------------------------------------------------------------------------------------------

    def add_any(self, fact: Fact, generation: int) -> None:
        """Takes a fact of any form."""
        if is_disjunction(fact.formula):
            self.add_clause(fact, generation, register=True)
        else:
            self.add_fact(fact, generation)

    def add_clause(self, fact: Fact, generation: int, register: bool = False) -> None:
        """Takes a disjunction; its terms are registered where that is asked for."""
        members = literals(fact.formula)
        flat = disjunction(*members)
        if flat is not fact.formula:
            fact = Fact(flat, fact.level, lambda fact=fact: self.flattened(fact, flat))
        if register:
            for literal in members:
                self.register(literal, generation)
        self.clauses.append((fact, members, generation))

    def flattened(self, fact: Fact, flat: Pair) -> Proof:
        """The proof of a clause with its literals nested to the right."""
        proof = fact.proof(self.contexts, fact.level)
        return subset(proof, flat) if fact.level == -1 else under(proof, flat)

    def register(self, literal: Pair, generation: int) -> None:
        """Registers the terms of a literal."""
        while is_negation(literal):
            literal = left(literal)
        if is_equation(literal):
            self.add_term(left(literal), generation)
            self.add_term(right(literal), generation)

    def add_fact(self, fact: Fact, generation: int = 0) -> None:
        """Takes a literal as true in this case."""
        f = fact.formula
        if f in self.known or self.conflict:
            return
        self.known[f] = fact
        if is_disjunction(f):
            self.add_clause(fact, generation, register=True)
        elif is_equation(f):
            self.facts.append(fact)
            self.register(f, generation)
            self.waiting.append((left(f), right(f), fact, fact.level))
        elif is_negation(f) and is_equation(left(f)):
            self.facts.append(fact)
            self.register(f, generation)
            self.unequal.append(fact)
        elif is_negation(f) and is_negation(left(f)):
            def make():
                if fact.level == -1:
                    return cancel_neg_neg(fact.proof(self.contexts, -1))
                return commute_or(lhs_cancel_neg_neg(commute_or(fact.proof(self.contexts, fact.level))))
            self.add_fact(Fact(left(left(f)), fact.level, make), generation)
        self.join()

    # -- what holds ------------------------------------------------------------------------------------------

    def value(self, literal: Pair) -> Optional[bool]:
        """True, False or None where it is open."""
        if literal in self.known:
            return True
        if is_negation(literal):
            v = self.value(left(literal))
            return None if v is None else not v
        if is_equation(literal):
            a, b = left(literal), right(literal)
            if a is b:
                return True
            if a not in self.parent or b not in self.parent:
                return False if negation(literal) in self.known else None
            a, b = self.find(a), self.find(b)
            if a is b:
                return True
            if a in self.constant and b in self.constant:
                return False
            return False if self.separated(a, b) is not None else None
        return False if negation(literal) in self.known else None
