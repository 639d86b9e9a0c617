"""Proofs of disjunctions by cases, equality and unfolding.

`prove(theory, goal, use=.., unfold=..)` assumes that no literal of the goal holds and looks for a contradiction:
equalities are closed under congruence, clauses (lemmas given by `use`, and the axioms of IF, EQUAL, CONS and the
tests) give what follows when all but one of their literals are false, and where nothing follows the prover splits
into two cases.  What was found is then turned into a proof; nothing is built that the contradiction does not need.
"""
from collections.abc import Callable, Iterable

from ..errors import RuleError, Unproved
from ..limits import within_depth
from ..logic.kernel import Proof
from ..logic.notation import as_formula
from ..logic.objects import Pair
from ..logic.terms import complement, disjunction, literals, negation
from ..logic.theory import Theory
from .branch import Branch, Options, Rules, Unfold
from .facts import Fact, hypothesis, join_cases, plain

Found = tuple[int, Callable[[], Proof]]         # a level, and what makes a proof of the context of that level


class _Search:
    """A search for a proof of a goal, with the splits that are left to it."""

    def __init__(self, theory: Theory, goal: Pair, use: Iterable[Proof], options: Options, splits: int):
        if isinstance(use, (str, Proof)):
            raise RuleError("PROVER", "`use` is a list of proofs, not one alone")
        self.theory, self.goal, self.use, self.options, self.splits = theory, goal, list(use), options, splits
        for proof in self.use:
            if not isinstance(proof, Proof):
                raise RuleError("PROVER", f"`use` takes proofs, as `book.at` and `book.axiom_at` make them, not {proof!r}")

    def start(self, contexts: list[Pair], assumptions: list[Fact]) -> Branch:
        """A case: the goal's literals are false, and the assumptions hold."""
        branch = Branch(self.theory, contexts, self.options)
        for leaf in literals(self.goal):
            def make(leaf=leaf) -> Proof:
                return hypothesis(self.theory, self.goal, leaf)
            branch.register(leaf, 0)
            branch.add_any(Fact(complement(leaf), 0, make), 0)
        for proof in self.use:
            branch.add_any(plain(proof), 0)
        for fact in assumptions:
            branch.add_fact(fact, 0)
        return branch

    def run(self, contexts: list[Pair], assumptions: list[Fact]) -> Found:
        """What contradicts a case, by splitting it where need be.  Raises Unproved."""
        branch = self.start(contexts, assumptions)
        branch.propagate()
        if branch.conflict:
            return branch.conflict
        e = branch.choose()
        if e is None:
            raise Unproved("PROVER", "no contradiction; known is\n" + branch.describe() + "\nand the goal", self.goal)
        self.splits -= 1
        if self.splits < 0:
            raise Unproved("PROVER", "too many cases; known is\n" + branch.describe() + "\nand the goal", self.goal)
        level, sides = len(contexts), []
        for literal in (e, negation(e)):
            context = disjunction(literal, contexts[-1])

            def make(context=context, literal=literal) -> Proof:
                return hypothesis(self.theory, context, literal)
            found = self.run(contexts + [context], assumptions + [Fact(complement(literal), level, make)])
            if found[0] < level:
                return found                    # the contradiction does not rest on this split
            sides.append(found)
        return level - 1, lambda: join_cases(sides[0][1](), sides[1][1]())


@within_depth
def prove(theory: Theory, goal: str | Pair, use: Iterable[Proof] = (), unfold: Unfold = (), rules: Rules = (),
          splits: int = 60, depth: int = 3) -> Proof:
    """A proof of a disjunction, given as an object or as its text.

    `use` has lemmas that are taken as they stand; `rules` pairs of a pattern, which is a call, and a lemma, which
    is instantiated for each known term that matches the pattern up to known equalities; `unfold` the names of
    definitions that are opened, or a dict from names to a policy: "always", "decided" (where it is known
    whether the first test of the body is nil) or "once" (calls in the goal and the lemmas alone).  Where no policy
    is given it is "always" for a definition that does not call itself, and else "decided".  Terms that come in
    by more than `depth` unfoldings are not matched; at most `splits` splits into cases are made.

    Raises Unproved where no proof is found, and RuleError where an argument is not of its form.
    """
    goal = as_formula(goal)
    theory.check_formula(goal, "PROVE")
    _, make = _Search(theory, goal, use, Options(theory, unfold, rules, depth), splits).run([goal], [])
    proof = make()
    if proof.conclusion is not goal:
        raise RuleError("PROVER", "a fault of the package: the proof has another conclusion", proof.conclusion)
    return proof
