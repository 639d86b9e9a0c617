"""Books: events in order, the theory that they make, their text, and what the program says of them.

    book = Book()
    book.equality_lemmas()
    book.define("(app (x y) (if (consp x) (cons (car x) (app (cdr x) y)) y))", "(rank x)")
    book.prove_by_list("app-associative", "(= (app (app x y) z) (app x (app y z)))", "x", unfold=["app"])
    print(book.text())
"""
from collections.abc import Iterable, Mapping, Sequence
from typing import Optional

from . import limits
from .admission import Function, admit_block, admit_checker, admit_witness
from .errors import EventError, FormError, Refused, RuleError
from .events import Event, Sizes, calling_line, largest_natural
from .logic import kernel
from .logic.kernel import Proof
from .logic.measures import distinct_steps, tree_steps
from .logic.notation import as_formula, expand, term
from .logic.objects import Object, Pair, items, make_list
from .logic.terms import is_equation, left, literals, quote, variables
from .logic.text import read
from .logic.theory import Definition, Test, Theory
from .program import Report, explain_refusals, run_program
from .prover.evaluation import evaluate
from .prover.induction import induct_on_call, induct_on_list, induct_on_natural
from .prover.linear import linear
from .prover.decreases import solve_obligation
from .prover.rewriting import prove_by_rewriting
from .prover.search import prove
from .rules.equality import LEMMAS
from .rules.instances import definition_instance, instance, primitive_axiom
from .rules.lowering import lower_methods
from .rules.tautology import tautology
from .sharing import pack, share

CHANGING = ("VERIFY", "DEFINE", "DEFINE-ALL", "SKOLEM", "SWITCH")       # the events that change a theory


class Book:
    """A book in the making.  Each call that adds an event checks first what the program would check: it raises
    EventError with the reason that the program's report would show, and RuleError where no proof is found.

    `theory` is what the book has so far, `events` are its events, and `lemmas` has a proof of each theorem that was
    verified, by its name in upper case, for use in later proofs.  With `for_lower` the book is one for the command
    `lower`, which writes one for `check`.
    """

    def __init__(self, for_lower: bool = False):
        self.theory, self.lemmas = Theory(), {}
        self.events: list[Event] = []
        if for_lower:
            self.theory.set_methods(lower_methods())

    # ---- theorems ----------------------------------------------------------------------------------------

    def verify(self, name: str, proof: Proof) -> Proof:
        """VERIFY; the answer is the theorem, for use in later proofs.

        Under a checker of the book the parts that a proof has several times are verified first, as theorems NAME.1,
        NAME.2 .., where that costs less."""
        if self.theory.level > 1:
            proof = share(self, name.upper(), proof)
        return self.verify_as_it_stands(name, proof)

    def verify_as_it_stands(self, name: str, proof: Proof) -> Proof:
        """VERIFY of the proof as it stands."""
        name = name.upper()
        if not isinstance(proof, Proof):
            raise TypeError(f"verify takes a Proof, not {proof!r}; `prove` takes a formula and finds the proof")
        if self.theory.is_hypothetical:
            raise EventError("PROOF", "formulas were assumed in this theory without proof")
        unknown = proof.methods - set(self.theory.methods)
        if unknown:
            raise EventError("PROOF", f"the running checker lacks {', '.join(sorted(unknown))}")
        self._check_range(proof.object)
        self.theory.add_theorem(name, proof)
        self._add(make_list("VERIFY", name, proof.conclusion, proof.object), [proof])
        self.lemmas[name] = kernel.theorem(self.theory, proof.conclusion)
        return self.lemmas[name]

    def prove(self, name: str, goal: str | Pair, **options) -> Proof:
        """VERIFY of a formula that `prover.search.prove` proves, with its options."""
        return self.verify(name, prove(self.theory, goal, **options))

    def prove_by_list(self, name: str, goal: str | Pair, variable: str, **options) -> Proof:
        """VERIFY of a formula by induction along the CDR of a variable, with the options of `prove`."""
        return self.verify(name, induct_on_list(self, goal, variable, **options))

    def prove_by_natural(self, name: str, goal: str | Pair, variable: str, **options) -> Proof:
        """VERIFY of a formula by induction on a natural number, a variable, with the options of `prove`."""
        return self.verify(name, induct_on_natural(self, goal, variable, **options))

    def prove_by_call(self, name: str, goal: str | Pair, call: str, **options) -> Proof:
        """VERIFY of a formula by induction as a function of the book recurs: `call` is a call of it on variables."""
        return self.verify(name, induct_on_call(self, goal, term(call), **options))

    def prove_linear(self, name: str, goal: str | Pair, use: Iterable[Proof] = ()) -> Proof:
        """VERIFY of a formula that follows by adding up inequalities (`prover.linear`)."""
        return self.verify(name, linear(self, goal, use))

    def prove_by_rewriting(self, name: str, goal: str | Pair, rules: Iterable[str], **options) -> Proof:
        """VERIFY of a formula whose terms are rewritten by named theorems of the book (`prover.rewriting`)."""
        return self.verify(name, prove_by_rewriting(self.theory, goal, map(self._lemma, rules), **options))

    def evaluate(self, name: str, text: str) -> Proof:
        """VERIFY of `t = 'v` for a ground term t and its value v."""
        return self.verify(name, evaluate(self.theory, term(text)))

    def prove_tautology(self, name: str, goal: str | Pair) -> Proof:
        """VERIFY of a formula that holds by NOT and OR alone."""
        return self.verify(name, tautology(self.theory, as_formula(goal)))

    def equality_lemmas(self, is_again: bool = False) -> None:
        """Verifies the four theorems on equality that shorten all later proofs, those that are not there yet; or all of
        them again, so that a checker that looks theorems up from the newest one finds them soon."""
        for name, (formula, lemma) in LEMMAS.items():
            if is_again or formula not in self.theory.theorems:
                self.verify(name, lemma(self.theory))

    # ---- instances, for `use` and `rules` ------------------------------------------------------------------

    def at(self, name: str, /, **terms: str) -> Proof:
        """An instance of a theorem of the book: `x="(cdr y)"` puts that term for X, and `as_=..` one for AS, which is
        no name in Python.  Raises RuleError where the book has no theorem of that name, or that no such variable."""
        return self._instance(self._lemma(name), terms)

    def axiom_at(self, number: int, /, **terms: str) -> Proof:
        """An instance of an axiom of the primitives, by its number in docs/AXIOMS.md; terms as for `at`."""
        return self._instance(primitive_axiom(self.theory, number), terms)

    def definition_at(self, name: str, *actuals: str) -> Proof:
        """`(f actuals) = body` with the actuals put for the formals.  Raises RuleError where there is no such function,
        or it takes another number of actuals."""
        return definition_instance(self.theory, name, [term(t) for t in actuals])

    def rule(self, name: str, pattern: Optional[str] = None) -> tuple[Pair, Proof]:
        """A theorem of the book as a rule for the prover, which instantiates it for each term of the form of the
        pattern; without one, of the left side of the equation in which the theorem ends."""
        lemma = self._lemma(name)
        if pattern is not None:
            return term(pattern), lemma
        last = literals(lemma.conclusion)[-1]
        if not is_equation(last):
            raise RuleError("RULE", "the theorem does not end in an equation; give a pattern", lemma.conclusion)
        return left(last), lemma

    def _lemma(self, name: str) -> Proof:
        lemma = self.lemmas.get(name.upper())
        if lemma is None:
            raise RuleError("AT", f"the book has no theorem {name.upper()}")
        return lemma

    @staticmethod
    def _instance(lemma: Proof, terms: Mapping[str, str]) -> Proof:
        substitution = {name.removesuffix("_").upper(): term(text) for name, text in terms.items()}
        for variable in substitution:
            if variable not in variables(lemma.conclusion):
                raise RuleError("AT", f"there is no variable {variable}", lemma.conclusion)
        return instance(lemma, substitution)

    # ---- definitions -------------------------------------------------------------------------------------

    def define(self, text: str, measure: str = "nil", proofs: Optional[Iterable[Proof]] = None) -> Definition:
        """DEFINE from the text `(name (formals) body)`.  Without `proofs` the obligations of a simple recursion are
        proved (`prover.ranks`); where RuleError says that it is not simple, give a proof of each of `obligations`."""
        return self.define_all([(text, measure)], proofs)[0]

    def define_all(self, functions: Iterable[tuple[str, str]],
                   proofs: Optional[Iterable[Proof]] = None) -> list[Definition]:
        """DEFINE-ALL from texts `(name (formals) body)`, each with its measure; DEFINE where there is one."""
        return self.define_block([self._function(text, measure) for text, measure in functions], proofs)

    def define_block(self, block: Sequence[Function], proofs: Optional[Iterable[Proof]] = None) -> list[Definition]:
        """The same from terms."""
        obligations = admit_block(self.theory, block)
        if obligations and proofs is None and any(f.measure is quote("NIL") for f in block):
            raise RuleError("DEFINE", "the function calls itself: give its measure, as `(rank x)`, which has to fall")
        for function in block:
            self._check_range(make_list(function.body, function.measure))
        proofs = [solve_obligation(self, o) for o in obligations] if proofs is None else list(proofs)
        if len(proofs) != len(obligations):
            raise EventError("COUNT", f"{len(obligations)} obligations, {len(proofs)} proofs; the obligations are",
                             make_list(*obligations))
        for proof, o in zip(proofs, obligations):
            if proof.conclusion is not o or proof.theory is not self.theory:
                raise EventError("CONCLUSION", "a proof shows something else than its obligation", o)
        proofs = [pack(p) for p in proofs]
        members = [[f.name, make_list(*f.formals), f.body, f.measure] for f in block]
        given = make_list(*[p.object for p in proofs])
        if len(block) == 1:
            self._add(make_list("DEFINE", *members[0], given), proofs)
        else:
            self._add(make_list("DEFINE-ALL", make_list(*[make_list(*m) for m in members]), given), proofs)
        definitions = [Definition(f.name, f.formals, f.body, measure=f.measure) for f in block]
        for definition in definitions:
            self.theory.add_definition(definition)
        return definitions

    def obligations(self, text: str, measure: str) -> list[Pair]:
        """The obligations of a DEFINE, in order."""
        return admit_block(self.theory, [self._function(text, measure)])

    @staticmethod
    def _function(text: str, measure: str) -> Function:
        members = items(read(text))
        if members is None or len(members) != 3 or items(members[1]) is None:
            raise FormError(f"`(name (formals) body)` is wanted, not {text[:80]}")
        return Function(members[0], items(members[1]), expand(members[2]), term(measure))

    def skolem(self, name: str, bound: str, free: Sequence[str], body: str) -> None:
        """SKOLEM: name(free) is a value of the bound variable that makes the body other than nil, if one does."""
        name, bound, free, t = name.upper(), bound.upper(), tuple(v.upper() for v in free), term(body)
        admit_witness(self.theory, name, bound, free, t)
        self._check_range(t)
        self._add(make_list("SKOLEM", name, bound, make_list(*free), t))
        self.theory.add_definition(Definition(name, free, t, bound=bound))

    def profile(self, number: int) -> None:
        """PROFILE: in profile 2 multiplication is a primitive, `*`.  Raises EventError, PROFILE, where it is neither 1
        nor 2, or the theory is no longer the one at the start of the first profile."""
        if number not in (1, 2) or self.theory.profile != 1 or any(e.form.first in CHANGING for e in self.events):
            raise EventError("PROFILE", "a book may choose profile 1 or 2 at its beginning")
        self._add(make_list("PROFILE", number))
        if number == 2:
            methods, self.theory = self.theory.methods, Theory(2)
            self.theory.set_methods(methods)

    # ---- other events ------------------------------------------------------------------------------------

    def switch(self, name: str, methods: Mapping[str, Test]) -> None:
        """SWITCH to a checker whose claim is a theorem.  `methods` are those that it takes, each with its test: that
        the tests say what the checker does is for the caller to see to; `check` shows where they do not."""
        name = name.upper()
        admit_checker(self.theory, name)
        self._add(make_list("SWITCH", name))
        self.theory.set_methods(methods, self.theory.level + 1)

    def eval(self, text: str) -> None:
        """EVAL of a term, which the program runs and shows."""
        t = term(text)
        try:
            self.theory.check_term(t, "EVAL")
        except RuleError as why:
            raise EventError("TERM", why.reason, why.formula) from None
        if variables(t):
            raise EventError("VARIABLES", "EVAL takes a term without variables", t)
        self._check_range(t)
        self._add(make_list("EVAL", t))

    def print(self, text: str) -> None:
        """PRINT of an object, which the program shows."""
        x = read(text)
        self._check_range(x)
        self._add(make_list("PRINT", x))

    @staticmethod
    def _check_range(x: Object) -> None:
        if largest_natural(x) >= limits.NATURALS:
            raise EventError("RANGE", "an event holds a natural of 2^128 or more")

    def _add(self, form: Pair, proofs: Sequence[Proof] = ()) -> None:
        self.events.append(Event(form, proofs, calling_line()))

    # ---- text, sizes, checking ---------------------------------------------------------------------------

    def text(self, start: int = 0) -> str:
        """The events from a place on, counted from 0, one a line."""
        return "".join(event.text + "\n" for event in self.events[start:])

    def sizes(self, start: int = 0) -> Sizes:
        """The sizes of the events from a place on, counted from 0."""
        events = self.events[start:]
        return Sizes(len(events), sum(len(e.text) + 1 for e in events),
                     sum(len(distinct_steps(e.proofs)) for e in events), sum(tree_steps(e.proofs) for e in events))

    def check(self, path: Optional[str] = None, steps: Optional[int] = None) -> Report:
        """What `milawa check` says of the book.  Raises Refused, with the Python line of each refused event and what
        `milawa explain` says of it (where the program has that command), if it does not accept them all, and
        ProgramMissing where there is no program."""
        text, options = self.text(), ["--steps", str(steps)] if steps else []
        report = run_program("check", *options, text=text, path=path)
        if report.status != 0:
            why = explain_refusals(*options, text=text, path=path)
            places = []
            for line in report.refused:
                number = int(line.split()[0])
                places += [line, f"    {self.events[number - 1]}", *([f"    {why[number]}"] if number in why else [])]
            raise Refused("\n".join([*places, report.summary, f"status {report.status}"]))
        return report
