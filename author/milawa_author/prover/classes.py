"""Classes of equal terms, closed under congruence, that know how to prove each equality.

Two terms of one class are joined by one path of edges.  An edge is a fact `a = b`, or stands for
two calls of one function whose actuals are equal in turn.
"""
from typing import Optional

from ..logic.kernel import Proof, functional_equality, further
from ..logic.objects import Object, Pair, items
from ..logic.terms import disjunction, equation, left, negation, right
from ..logic.theory import Theory
from ..rules.equality import (commute_pequal, disjoined_commute_pequal, disjoined_transitivity_of_pequal, reflexivity,
                              replace, transitivity_lemma, transitivity_of_pequal)
from ..rules.instances import instance
from .elimination import Eliminate
from .facts import Fact, plain

Edge = tuple[Object, Object, Optional[Fact], int]       # from, to, the fact if it is one, its level


class Classes:
    """Terms in classes.  What comes in is queued in `waiting`: (a, b, fact or None, level).

    Each class has a root, at which `parent` ends, its `members`, the calls that use a member (`users`) and the
    constant in it; `edge` has the edge of each term towards the root of its tree; `table` finds a call by its
    function and the classes of its actuals; `known` has each formula that was told or asked for."""

    def __init__(self, theory: Theory, contexts: list[Pair]):
        self.theory, self.contexts = theory, contexts
        self.parent, self.members, self.edge, self.constant = {}, {}, {}, {}
        self.table, self.users, self.waiting = {}, {}, []
        self.known, self.turns, self.conflict = {}, {}, None

    def find(self, t: Object) -> Object:
        """The root of the class of a term."""
        while self.parent[t] is not t:
            self.parent[t] = self.parent[self.parent[t]]
            t = self.parent[t]
        return t

    def close(self, t: Pair) -> None:
        """Congruence: joins t with a call that has equal actuals."""
        key = (t.first, *[self.find(u) for u in items(t)[1:]])
        other = self.table.setdefault(key, t)
        if other is not t and self.find(other) is not self.find(t):
            level = max([self.path_level(a, b) for a, b in zip(items(t)[1:], items(other)[1:])], default=-1)
            self.waiting.append((t, other, None, level))

    def join(self) -> None:
        """Joins the classes of all waiting equations."""
        while self.waiting and not self.conflict:
            a, b, fact, level = self.waiting.pop()
            ra, rb = self.find(a), self.find(b)
            if ra is rb:
                continue
            if len(self.members[ra]) > len(self.members[rb]):
                a, b, ra, rb = b, a, rb, ra
            self.turn(a)
            self.edge[a] = (b, fact, level)
            self.parent[ra] = rb
            self.members[rb] += self.members.pop(ra)
            users = self.users.pop(ra)
            if ra in self.constant:
                if rb in self.constant:
                    self.clash(self.constant[ra], self.constant[rb])
                    return
                self.constant[rb] = self.constant[ra]
            self.users[rb] += users
            for t in users:
                self.close(t)

    def turn(self, a: Object) -> None:
        """Makes a the root of its tree of edges."""
        below, edge = a, self.edge.pop(a, None)
        while edge is not None:
            above, fact, level = edge
            following = self.edge.pop(above, None)
            self.edge[above] = (below, fact, level)
            below, edge = above, following

    def path(self, a: Object, b: Object) -> list[Edge]:
        """The edges from a to b: (from, to, fact or None, level)."""
        up, seen, node = [], {}, a
        while True:
            seen[node] = len(up)
            if node not in self.edge:
                break
            above, fact, level = self.edge[node]
            up.append((node, above, fact, level))
            node = above
        down, node = [], b
        while node not in seen:
            above, fact, level = self.edge[node]
            down.append((above, node, fact, level))
            node = above
        return up[:seen[node]] + down[::-1]

    def path_level(self, a: Object, b: Object) -> int:
        """The level on which the equality of two terms of one class rests."""
        return max([level for *_, level in self.path(a, b)], default=-1)

    def equal(self, a: Object, b: Object) -> Fact:
        """The fact a = b, for two terms of one class."""
        f = equation(a, b)
        if f in self.known:
            return self.known[f]
        level = self.path_level(a, b)
        fact = Fact(f, level, lambda: self.chain(a, b, level))
        self.known[f] = fact
        return fact

    def chain(self, a: Object, b: Object, level: int) -> Proof:
        """Its proof, along the path from a to b."""
        if a is b:
            return reflexivity(self.theory, a)
        path = [(start, end, fact or self.congruent(start, end, edge_level))
                for start, end, fact, edge_level in self.path(a, b)]
        if "DISJOINED-CHAIN" in self.theory.methods:
            return self.one_chain(a, b, level, [fact for *_, fact in path])
        total = None
        for start, end, fact in path:
            edge_fact = fact if fact.formula is equation(start, end) else self.turned(fact)
            total = edge_fact if total is None else self.transitive(total, edge_fact)
        return total.proof(self.contexts, level)

    def one_chain(self, a: Object, b: Object, level: int, facts: list[Fact]) -> Proof:
        """The same by one step CHAIN or DISJOINED-CHAIN."""
        wanted = equation(a, b)
        if len(facts) == 1 and facts[0].formula is wanted:
            return facts[0].proof(self.contexts, level)
        proofs = [f.proof(self.contexts, level if f.level >= 0 else -1) for f in facts]
        if level == -1:
            return further(self.theory, "CHAIN", wanted, proofs)
        return further(self.theory, "DISJOINED-CHAIN", disjunction(self.contexts[level], wanted), proofs)

    def turned(self, fact: Fact) -> Fact:
        """b = a from a = b."""
        def make():
            proof = fact.proof(self.contexts, fact.level)
            return commute_pequal(proof) if fact.level == -1 else disjoined_commute_pequal(proof)
        f = equation(right(fact.formula), left(fact.formula))
        return self.turns.setdefault(f, Fact(f, fact.level, make))

    def transitive(self, first: Fact, second: Fact) -> Fact:
        """a = c from a = b and b = c."""
        a, b, c = left(first.formula), right(first.formula), right(second.formula)
        level = max(first.level, second.level)

        def make():
            if level == -1:
                return transitivity_of_pequal(first.proof(self.contexts, -1), second.proof(self.contexts, -1))
            if first.level == second.level or "DISJOINED-TRANSITIVITY-OF-PEQUAL" in self.theory.methods:
                return disjoined_transitivity_of_pequal(first.proof(self.contexts, level),
                                                        second.proof(self.contexts, level))
            lemma = plain(instance(transitivity_lemma(self.theory), {"X": a, "Y": b, "Z": c}))
            facts = {negation(first.formula): first, negation(second.formula): second}
            members = [negation(first.formula), negation(second.formula), equation(a, c)]
            return Eliminate(self, level).run(lemma, members, equation(a, c), facts)
        return Fact(equation(a, c), level, make)

    def congruent(self, t: Pair, u: Pair, level: int) -> Fact:
        """t = u for two calls of one function with equal actuals."""
        pairs = list(zip(items(t)[1:], items(u)[1:]))
        facts = [plain(reflexivity(self.theory, a)) if a is b else self.equal(a, b) for a, b in pairs]

        def make():
            if level == -1:
                return replace(self.theory, t.first, [f.proof(self.contexts, -1) for f in facts])
            if "DISJOINED-CONGRUENCE" in self.theory.methods:
                proofs = [f.proof(self.contexts, level if f.level >= 0 else -1)
                          for f, (a, b) in zip(facts, pairs) if a is not b]
                return further(self.theory, "DISJOINED-CONGRUENCE", disjunction(self.contexts[level], equation(t, u)),
                               proofs)
            clause = plain(functional_equality(self.theory, t.first, [a for a, _ in pairs], [b for _, b in pairs]))
            members = [negation(f.formula) for f in facts] + [equation(t, u)]
            return Eliminate(self, level).run(clause, members, equation(t, u),
                                              {negation(f.formula): f for f in facts})
        return Fact(equation(t, u), level, make)

    def clash(self, c: Pair, d: Pair) -> None:
        """Two constants have come into one class; the branch says what then."""
        raise NotImplementedError
