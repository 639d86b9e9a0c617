"""Checkers made of derived rules, with the theorems that they are sound.

A `Checker` grows by one rule at a time.  For a rule given by patterns, two theorems and one function are made:
 - PROVABLE-rule: where the premises' patterns are provable, so is the conclusion's.  The rule's own derivation is run
   on letters, and each of its steps becomes one theorem of the rules below.
 - the next step function: for this method it tests whether conclusion and premises have the patterns, for others it
   does what the step function before did.
 - SOUND-step: what the step function passes, over provable premises, is provable.
A rule with a test of its own comes in by `add_step`.  At the end `finish` defines the function that walks a proof by
the last step function, proves its claim by induction on proofs, and switches to it.
"""
from typing import Optional

from ..admission import claim
from ..book import Book
from ..errors import RuleError
from ..logic.kernel import Proof, theorem
from ..logic.measures import distinct_steps
from ..logic.notation import NTH
from ..logic.terms import equation
from ..logic.theory import Test, Theory
from ..rules import disjunctions, equality  # noqa: F401  (what is in SCHEMES)
from ..rules.schemes import SCHEMES, Scheme
from .arities import NAMES, names_constant
from .patterns import all_letters, dotted_letters, encode, letters, places
from .texts import (ENV, all_provable, core, formula_rules, is_formula, is_term, list_of, list_rules,
                    provable, prove_along)

BASE = {name: Scheme(name, premises, conclusion, given) for name, premises, conclusion, given in (
    ("EXPANSION", ("a",), "(por* b a)", "b"),
    ("CONTRACTION", ("(por* a a)",), "a", ""),
    ("ASSOCIATIVITY", ("(por* a (por* b c))",), "(por* (por* a b) c)", ""),
    ("CUT", ("(por* a b)", "(por* (pnot* a) c)"), "(por* b c)", ""),
    ("PROPOSITIONAL-SCHEMA", (), "(por* (pnot* a) a)", "a"))}


class Checker:
    """A checker in the making, over the program's own judge or over an earlier one, `below`.

    `step` is the name of its step function so far, `methods` are those that it takes, each with its test on formulas,
    and `proved` the rules that have a theorem PROVABLE-rule.  `assumption` is a test on the axioms that the rules added
    from then on presuppose, as text, `rules` are further rules for the prover, and `names` those of the functions
    that its arity table has in front."""

    def __init__(self, book: Book, name: str, below: Optional["Checker"] = None, names: tuple[str, ...] = NAMES):
        self.book, self.name, self.names = book, name, names_constant(names)
        self.assumption: Optional[str] = None
        self.rules: list = []
        self.proved: dict[str, Scheme] = dict(below.proved if below else BASE)
        self.methods: dict[str, Test] = dict(below.methods) if below else {}
        self.step = below.step if below else self.first_step()

    def first_step(self) -> str:
        """The step function of the twelve methods, which is sound."""
        book, step = self.book, "ladder.step"
        book.define(f"({step} (m c as e {ENV}) (if {is_formula('c')} {core('m', 'c', 'as', 'e')} nil))")
        book.prove(f"sound-{step}", self.sound_step(step), unfold=[step], use=[book.at("PROVABLE-BY-CORE")])
        return step

    @staticmethod
    def sound_step(step: str) -> str:
        """What it says that a step function is sound."""
        return f"(implies ({step} m c as e {ENV}) {all_provable('as')} {provable('c')})"

    # -- rules by pattern -----------------------------------------------------------------------------------------

    def add_rule(self, name: str) -> None:
        """Adds a rule by pattern, by its name in SCHEMES, or one of the propositional methods.  Raises RuleError where
        there is no such rule."""
        scheme = SCHEMES.get(name.upper()) or BASE.get(name.upper())
        if scheme is None:
            raise RuleError("ADD-RULE", f"no rule by pattern is called {name}; `schemes.rule` makes one")
        if scheme.name not in self.proved:
            self.prove_rule(scheme)
        paths = {}
        places(scheme.conclusion, "c", paths)
        for k, p in enumerate(scheme.premises):
            places(p, f"({NTH[k].lower()} as)", paths)
        # the letters are told from the step function's arguments by a dot
        bindings = " ".join(f"({l.lower()}. {path})" for l, path in paths.items())
        conclusion = dotted_letters(encode(scheme.conclusion), paths)
        premises = list_of([dotted_letters(encode(p), paths) for p in scheme.premises])
        new_parts = " ".join(dotted_letters(self.is_good(scheme, g), paths) for g in scheme.given)
        test = f"(let ({bindings}) (and (equal e nil) (equal c {conclusion}) (equal as {premises}) {new_parts}))"
        use = self.book.at("PROVABLE-" + scheme.name, **{l.lower(): path for l, path in paths.items()})
        self.add_step(scheme.name, test, scheme.test, use, rules=list_rules(self.book), depth=9)

    @staticmethod
    def is_good(scheme: Scheme, letter: str) -> str:
        """The test that says that what the letter stands for is a formula, or a term."""
        formulas = {l for p in scheme.premises + [scheme.conclusion] for l in letters(p)}
        return (is_formula if letter in formulas else is_term)(letter.lower())

    def given(self, scheme: Scheme) -> list[str]:
        """What a rule's theorem presupposes: new parts are formulas or terms, the premises are provable."""
        return ([self.assumption] * (self.assumption is not None) + [self.is_good(scheme, g) for g in scheme.given]
                + [provable(encode(p)) for p in scheme.premises])

    def prove_rule(self, scheme: Scheme) -> None:
        """PROVABLE-rule, from the rule's own derivation."""
        formulas = [l for p in scheme.premises + [scheme.conclusion] for l in letters(p)]
        use = []
        for step in distinct_steps([self.on_letters(scheme, formulas)]):
            if step.method == "THEOREM":
                continue
            below, env = self.proved.get(step.method), {}
            if below is None:
                raise RuleError(scheme.name, f"its derivation uses {step.method}; add that to the checker first")
            for pattern, p in zip(below.premises, step.subproofs):
                below.match(pattern, p.conclusion, env)
            below.match(below.conclusion, step.conclusion, env)
            terms = {l.lower(): encode(f, formulas) for l, f in env.items()}
            use.append(self.book.at("PROVABLE-" + step.method, **terms))
        self.book.prove("provable-" + scheme.name,
                        f"(implies {' '.join(self.given(scheme))} {provable(encode(scheme.conclusion))})",
                        use=use, rules=formula_rules(self.book) + self.rules, depth=9)
        self.proved[scheme.name] = scheme

    def on_letters(self, scheme: Scheme, formulas: list[str]) -> Proof:
        """The rule's derivation, over a theory of its own in which the proved rules are methods, with the premises
        assumed; a letter A for formulas stands as `A = A`."""
        scratch = Theory()
        scratch.set_methods({name: s.test for name, s in self.proved.items() if name not in BASE})
        found = {l: equation(l, l) for l in formulas}
        for p in scheme.premises + [scheme.conclusion]:
            for l in all_letters(p):
                found.setdefault(l, l)
        premises = []
        for p in scheme.premises:
            f = scheme.fill(p, found)
            scratch.assume(f)
            premises.append(theorem(scratch, f))
        return scheme.apply(*(premises or [scratch]), *[found[g] for g in scheme.given])

    # -- steps ------------------------------------------------------------------------------------------------------

    def add_step(self, method: str, test: str, python_test: Test, sound: Proof, **options) -> None:
        """Adds a method by a test of its own: the next step function asks it for this method, and does for all others
        what the one before did.

        `test` is a term over M, C, AS, E (method, conclusion, premises, extras), AXIOMS, THMS and ATBL, as text;
        `python_test` says the same of formulas; `sound` is the theorem from which the prover, with the options, finds
        that what passes the test is provable.  Raises Unproved where it does not find that."""
        book, before = self.book, self.step
        self.step = f"{self.name}.step-{method.lower()}"
        guarded = f"(if {self.assumption} {test} nil)" if self.assumption else test
        book.define(f"({self.step} (m c as e {ENV}) (if (equal m '{method.lower()}) {guarded}"
                    f" ({before} m c as e {ENV})))")
        book.prove(f"sound-{self.step}", self.sound_step(self.step), unfold=[self.step],
                   use=[sound, book.at("SOUND-" + before.upper())], **options)
        self.methods[method] = python_test

    # -- the checker -----------------------------------------------------------------------------------------------

    def finish(self, is_switched: bool = True) -> None:
        """Defines the walk over proofs and the checker, proves its claim, and switches to it."""
        book, name = self.book, self.name
        walk, goal = f"{name}.flag-proofp", f"{name}.goal"
        book.define(f"({walk} (flag x {ENV})"
                    f" (if (consp x)"
                    f"  (if (equal flag 'proof)"
                    f"   (if ({walk} 'list (third x) {ENV})"
                    f"    ({self.step} (first x) (second x) (logic.conclusions (third x)) (fourth x) {ENV}) nil)"
                    f"   (if ({walk} 'proof (car x) {ENV}) ({walk} 'list (cdr x) {ENV}) nil))"
                    f"  (if (equal flag 'proof) nil (equal x nil))))", "(rank x)")
        book.define(f"({goal} (flag x {ENV}) (if (equal flag 'proof) {provable('(second x)')}"
                    f" {all_provable('(logic.conclusions x)')}))")
        self.prove_walk(walk, goal)
        checker, table = f"{name}.proofp", f"(ladder.cached {self.names} atbl)"
        book.define(f"({checker} (x {ENV}) ({walk} 'proof x axioms thms {table}))")
        book.prove(f"claim-of-{name}", claim(checker.upper()), unfold=[checker, goal, "logic.conclusion"],
                   use=[book.at(f"SOUND-{walk}", flag="'proof", atbl=table),
                        book.at("PROVABLE-OF-CACHED", names=self.names, x="(second x)")])
        if is_switched:
            book.switch(checker, self.methods)

    def prove_walk(self, walk: str, goal: str) -> None:
        """By induction on proofs and lists of proofs: what the walk passes has a provable conclusion, or provable
        conclusions."""
        book = self.book
        sound = book.at(f"SOUND-{self.step}", m="(first x)", c="(second x)", e="(fourth x)",
                   as_="(logic.conclusions (third x))")
        prove_along(book, f"sound-{walk}", f"(implies ({walk} flag x {ENV}) ({goal} flag x {ENV}))", "x",
                    [{"flag": "'list", "x": "(third x)"}, {"flag": "'proof", "x": "(car x)"},
                     {"flag": "'list", "x": "(cdr x)"}],
                    unfold={goal: "always", "logic.conclusions": "decided", "logic.conclusion": "always"},
                    use=[book.definition_at(walk, "flag", "x", "axioms", "thms", "atbl"), sound,
                         book.at("ALL-PROVABLE-OF-NIL"),
                         book.at("ALL-PROVABLE-OF-CONS", x="(second (car x))", xs="(logic.conclusions (cdr x))")])
