"""Derived rules given by patterns.

    @rule("(por* a b)", gives="(por* b a)")
    def commute_or(proof, a):
        return cut(proof, propositional_schema(proof.theory, a))

The patterns say what the premises must look like and what comes out; the function derives it.  Where the
running checker has a method of the rule's name (COMMUTE-OR), one step is taken instead.  The same
patterns make the ladder's checkers and the proofs that they are sound.

Letters in a formula's place stand for formulas, in a term's place for terms.  Letters that no premise
determines are arguments, named by `given`, after the proofs.  A rule without premises takes the theory first.
The derivation is handed the proofs and, of the letters, those that its parameters name.
"""
import functools
import inspect
from collections.abc import Callable
from typing import Optional

from ..errors import RuleError, quotation
from ..logic.kernel import Proof, further
from ..logic.objects import Object, Pair, items, make_list
from ..logic.text import read

Letters = dict[str, Object]


class Scheme:
    """A derived rule: its name, its patterns and its derivation.  `lower` is the name that the command
    `lower` has for it, or None."""

    def __init__(self, name: str, premises: tuple[str, ...], conclusion: str, given: str = "",
                 derive: Optional[Callable] = None, lower: Optional[str] = None):
        self.name, self.lower = name, lower
        self.premises = [read(p) for p in premises]
        self.conclusion = read(conclusion)
        self.given = given.upper().split()
        self.derive = derive
        parameters = [] if derive is None else list(inspect.signature(derive).parameters)
        self.wanted = [p.upper() for p in parameters[max(len(premises), 1):]]

    def __str__(self):
        premises = " and ".join(f"`{p}`" for p in self.premises)
        given = f", for {', '.join(self.given).lower()} as given" if self.given else ""
        return (f"From {premises}, `{self.conclusion}`" if premises else f"`{self.conclusion}`") + given + "."

    def match(self, pattern: Object, x: Object, found: Letters) -> bool:
        """Binds the letters of a pattern in `found`; False where x is not of that form."""
        if isinstance(pattern, str):
            return found.setdefault(pattern, x) == x
        if pattern.first == "QUOTE":
            return pattern is x
        ps, xs = items(pattern), items(x) if isinstance(x, Pair) else None
        if xs is None or len(ps) != len(xs) or ps[0] != xs[0]:
            return False
        return all(self.match(p, y, found) for p, y in zip(ps[1:], xs[1:]))

    def fill(self, pattern: Object, found: Letters) -> Object:
        """What becomes of a pattern with its letters bound."""
        if isinstance(pattern, str):
            return found[pattern]
        if pattern.first == "QUOTE":
            return pattern
        word, *parts = items(pattern)
        return make_list(word, *[self.fill(p, found) for p in parts])

    def apply(self, *arguments) -> Proof:
        """The conclusion's proof from proofs of the premises (or the theory) and what is given.
        Raises RuleError where a premise is not of its form, or arguments are missing."""
        count = max(len(self.premises), 1)
        if len(arguments) != count + len(self.given):
            raise RuleError(self.name, f"takes {len(self.premises) or 'the theory and no'} proofs and then"
                                       f" {len(self.given)} formulas or terms, not {len(arguments)} arguments")
        proofs, found = arguments[:len(self.premises)], {}
        theory = proofs[0].theory if proofs else arguments[0]
        for pattern, proof in zip(self.premises, proofs):
            if not self.match(pattern, proof.conclusion, found):
                raise RuleError(self.name, f"a premise is not of the form {pattern}", proof.conclusion)
        found.update(zip(self.given, arguments[count:]))
        conclusion = self.fill(self.conclusion, found)
        for name in (self.name, self.lower):
            if name in theory.methods:
                return further(theory, name, conclusion, proofs)
        letters = {w.lower(): found[w] for w in self.wanted}
        proof = self.derive(*(proofs or (theory,)), **letters)
        if proof.conclusion is not conclusion:
            raise RuleError(self.name, f"its derivation does not give {quotation(conclusion)}", proof.conclusion)
        return proof

    def test(self, conclusion: Pair, premises: list[Pair], extras: Object) -> Optional[str]:
        """The test of the method of this name: None, or why it does not hold."""
        if extras != "NIL":
            return "takes no extras"
        if len(premises) != len(self.premises):
            return f"takes {len(self.premises)} premises"
        found: Letters = {}
        for pattern, premise in zip(self.premises, premises):
            if not self.match(pattern, premise, found):
                return f"a premise is not of the form {pattern}"
        if not self.match(self.conclusion, conclusion, found):
            return f"the conclusion is not of the form {self.conclusion}"
        return None


SCHEMES: dict[str, Scheme] = {}


def rule(*premises: str, gives: str, given: str = "", lower: Optional[str] = None) -> Callable:
    """Makes a derivation into a derived rule, and notes it in SCHEMES under its name in upper case."""
    def decorate(derive: Callable) -> Callable:
        name = derive.__name__.upper().replace("_", "-")
        scheme = SCHEMES[name] = Scheme(name, premises, gives, given, derive, lower)

        @functools.wraps(derive)
        def apply(*arguments) -> Proof:
            return scheme.apply(*arguments)

        apply.scheme = scheme
        apply.__doc__ = f"{scheme}" + (f"\n\n{derive.__doc__}" if derive.__doc__ else "")
        return apply
    return decorate
