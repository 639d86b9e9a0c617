"""Inequations of a case: which classes are told apart, and what contradicts what."""
from ..logic.kernel import Proof, contraction, cut, further
from ..logic.objects import Object, Pair, make_list
from ..logic.terms import equation, is_negation, left, negation, right
from ..rules.equality import symmetry_lemma, transitivity_lemma, unequal_constants
from ..rules.instances import instance
from ..rules.propositional import commute_or, modus_ponens, modus_ponens_2
from .classes import Classes
from .elimination import Eliminate
from .facts import Fact, plain


class Differences(Classes):
    """Classes, with the facts `a != b` in `unequal`.  `conflict` is None until the case is contradictory: then it
    is a level, and what makes a proof of the context of that level."""

    def __init__(self, theory, contexts: list[Pair]):
        super().__init__(theory, contexts)
        self.unequal: list[Fact] = []

    def separated(self, a: Object, b: Object) -> Fact | None:
        """A known inequation between the classes of two roots."""
        for fact in self.unequal:
            e = left(fact.formula)
            x, y = self.find(left(e)), self.find(right(e))
            if (x is a and y is b) or (x is b and y is a):
                return fact
        return None

    def refute(self, literal: Pair) -> Fact:
        """A fact that says the opposite of a false literal: `not L`, or F where L is `not F`."""
        if is_negation(literal):
            return self.establish(left(literal))
        opposite = negation(literal)
        if opposite in self.known:
            return self.known[opposite]
        a, b = left(literal), right(literal)
        ra, rb = self.find(a), self.find(b)
        if ra in self.constant and rb in self.constant:
            c, d = self.constant[ra], self.constant[rb]
            base = plain(unequal_constants(self.theory, c, d))
        else:
            base = self.separated(ra, rb)
            e = left(base.formula)
            c, d = left(e), right(e)
            if self.find(c) is not ra:
                base = self.unequal_turned(base)
                c, d = d, c
        fact = self.unequal_moved(base, a, c, d, b)
        self.known[opposite] = fact
        return fact

    def establish(self, literal: Pair) -> Fact:
        """A fact for a true literal."""
        if literal in self.known:
            return self.known[literal]
        if is_negation(literal):
            return self.refute(left(literal))
        return self.equal(left(literal), right(literal))

    def unequal_turned(self, fact: Fact) -> Fact:
        """d != c from c != d."""
        e = left(fact.formula)
        c, d = left(e), right(e)

        def make() -> Proof:
            lemma = plain(instance(symmetry_lemma(self.theory), {"X": d, "Y": c}))     # d != c or c = d
            return Eliminate(self, fact.level).run(lemma, [negation(equation(d, c)), e], negation(equation(d, c)),
                                                   {e: fact})
        return Fact(negation(equation(d, c)), fact.level, make)

    def unequal_moved(self, fact: Fact, a: Object, c: Object, d: Object, b: Object) -> Fact:
        """a != b from c != d, a = c and d = b."""
        if a is not c:
            fact = self.unequal_left(fact, a, c, d)
        if b is not d:
            fact = self.unequal_turned(fact)
            fact = self.unequal_left(fact, b, d, a)
            fact = self.unequal_turned(fact)
        return fact

    def unequal_left(self, fact: Fact, a: Object, c: Object, d: Object) -> Fact:
        """a != d from c != d and a = c."""
        same = self.equal(c, a)
        level = max(fact.level, same.level)

        def make() -> Proof:
            lemma = plain(instance(transitivity_lemma(self.theory), {"X": c, "Y": a, "Z": d}))
            members = [negation(equation(c, a)), negation(equation(a, d)), equation(c, d)]
            facts = {members[0]: same, members[2]: fact}
            return Eliminate(self, level).run(lemma, members, members[1], facts)
        return Fact(negation(equation(a, d)), level, make)

    def clash(self, c: Pair, d: Pair) -> None:
        """Two constants have come into one class."""
        self.contradiction(self.equal(c, d), plain(unequal_constants(self.theory, c, d)))

    def contradiction(self, fact: Fact, opposite: Fact) -> None:
        """Both F and `not F` are known."""
        level = max(fact.level, opposite.level)

        def make() -> Proof:
            if fact.level == -1:
                return modus_ponens(fact.proof(self.contexts, -1),
                                    commute_or(opposite.proof(self.contexts, level)))
            if opposite.level == -1:
                return modus_ponens_2(opposite.proof(self.contexts, -1),
                                      commute_or(fact.proof(self.contexts, level)))
            if "RESOLVE" in self.theory.methods:
                both = [fact.proof(self.contexts, fact.level), opposite.proof(self.contexts, opposite.level)]
                return further(self.theory, "RESOLVE", self.contexts[level], both, make_list(fact.formula))
            return contraction(cut(commute_or(fact.proof(self.contexts, level)),
                                   commute_or(opposite.proof(self.contexts, level))))
        self.conflict = (level, make)

    def check_unequal(self) -> None:
        """Looks for an inequation of two terms of one class."""
        for fact in self.unequal:
            e = left(fact.formula)
            if self.find(left(e)) is self.find(right(e)):
                self.contradiction(self.equal(left(e), right(e)), fact)
                return
