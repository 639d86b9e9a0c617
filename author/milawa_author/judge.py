"""A judge of books in Python: the report that `milawa check` writes, by the kernel of this package and, after a SWITCH,
by running the book's checker.

It serves tests of the package, and authors without the program; what counts is what the program says.
"""
from collections.abc import Iterator, Sequence
from typing import Optional

from . import limits
from .admission import Function, admit_block, admit_checker, admit_witness
from .errors import EventError, FormError, RuleError
from .logic.machine import Machine
from .logic.notation import expand
from .logic.objects import Object, Pair, cons, items, member
from .logic.replay import replay
from .logic.terms import variables
from .logic.text import printed, read_all
from .logic.theory import Definition, Theory

LONGEST_SHOWN = 65_536
MEMBERS = {"VERIFY": 4, "DEFINE": 6, "DEFINE-ALL": 3, "SKOLEM": 5, "SWITCH": 2, "EVAL": 2, "PRINT": 2, "PROFILE": 2}
NAMED = ("VERIFY", "DEFINE", "SKOLEM", "SWITCH")


class Judge:
    """A theory with its checker.  `units` are those that the checker of the book took for the last proof, and
    `total_units` those for all proofs that it was run on."""

    def __init__(self, steps: int = limits.STEPS):
        self.steps, self.checker = steps, None
        self.units, self.total_units, self._is_skipping = 0, 0, False
        self._start(1)

    def _start(self, profile: int) -> None:
        self.theory = Theory(profile)
        self.machine = Machine(self.theory)
        self.axioms, self.theorems, self.arities = "NIL", "NIL", "NIL"      # as a checker is handed them, newest first
        for formula in self.theory.axioms:
            self.axioms = cons(formula, self.axioms)
        for name, arity in self.theory.arities.items():
            self.arities = cons(cons(name, arity), self.arities)
        self._first_arities = self.arities

    def event(self, form: Object) -> str:
        """The fate of an event, as its line ends: "accepted", with what is shown, or "refused" and the reason."""
        try:
            shown = self._event(form)
        except EventError as why:
            return f"refused {why.word}"
        return "accepted" + ("" if shown is None else f" {shown}")

    def skip(self, form: Pair) -> None:
        """Takes an event whose proofs were judged before, without judging them.  Raises EventError where it is refused
        for another reason."""
        self._is_skipping = True
        try:
            self._event(form)
        finally:
            self._is_skipping = False

    def report(self, text: str) -> Iterator[str]:
        """The lines of the report on a book.  Raises TextError where the text has a fault."""
        accepted, data = 0, read_all(text)
        for number, form in enumerate(data, 1):
            fate = self.event(form)
            accepted += fate.startswith("accepted")
            yield f"{number} {_word(form)} {_label(form)} {fate}"
        yield (f"events {len(data)} accepted {accepted} refused {len(data) - accepted} level {self.theory.level}")

    # ---- events ------------------------------------------------------------------------------------------

    def _event(self, form: Object) -> Optional[str]:
        _check_range(form)
        members = items(form)
        if not members or MEMBERS.get(members[0]) != len(members):
            raise EventError("EVENT", "not an event", form)
        word, *parts = members
        return getattr(self, "_" + word.lower().replace("-", "_"))(*parts)

    def _verify(self, name: Object, formula: Object, proof: Object) -> None:
        if not isinstance(name, str):
            raise EventError("NAME", "the name of a theorem is a symbol", name)
        try:
            self.theory.check_formula(formula)
        except RuleError as why:
            raise EventError("FORMULA", why.reason, why.formula) from None
        self._judge(formula, proof)
        self.theory.theorems.setdefault(formula, name)
        self.theorems = cons(formula, self.theorems)

    def _judge(self, formula: Pair, proof: Object) -> None:
        """Raises EventError unless the proof is one of the formula by the running checker."""
        if member(proof, 1) is not formula:
            raise EventError("CONCLUSION", "the proof shows something else", formula)
        if self._is_skipping:
            return
        if self.checker is None:
            try:
                replay(self.theory, proof)
            except RuleError as why:
                raise EventError("PROOF", str(why)) from None
            return
        values = (proof, self.axioms, self.theorems, self.arities)
        value, self.units = self.machine.run(self.checker, values, self.steps)
        self.total_units += self.units
        if value == "NIL":
            raise EventError("NIL", "the checker says no")

    def _define(self, name: Object, formals: Object, body: Object, measure: Object, proofs: Object) -> None:
        self._admit([(name, formals, body, measure)], proofs)

    def _define_all(self, definitions: Object, proofs: Object) -> None:
        block = [items(d) for d in items(definitions) or ()]
        if not block or any(d is None or len(d) != 4 for d in block):
            raise EventError("EVENT", "not a list of definitions", definitions)
        self._admit(block, proofs)

    def _admit(self, block: Sequence[tuple], proofs: Object) -> None:
        functions = [Function(name, _variables_of(formals), _expanded(body), _expanded(measure))
                     for name, formals, body, measure in block]
        obligations = admit_block(self.theory, functions)
        given = items(proofs)
        if given is None or len(given) != len(obligations):
            raise EventError("COUNT", f"{len(obligations)} obligations", proofs)
        for formula, proof in zip(obligations, given):
            self._judge(formula, proof)
        for f in functions:
            self._add(Definition(f.name, f.formals, f.body))

    def _skolem(self, name: Object, bound: Object, free: Object, body: Object) -> None:
        t = _expanded(body)
        admit_witness(self.theory, name, bound, _variables_of(free), t)
        self._add(Definition(name, _variables_of(free), t, bound=bound))

    def _add(self, definition: Definition) -> None:
        self.theory.add_definition(definition)
        self.axioms = cons(definition.axiom(), self.axioms)
        self.arities = cons(cons(definition.name, len(definition.formals)), self.arities)

    def _switch(self, name: Object) -> None:
        admit_checker(self.theory, name)
        self.checker = name
        self.theory.level += 1

    def _eval(self, raw: Object) -> str:
        t = _expanded(raw)
        try:
            self.theory.check_term(t)
        except RuleError as why:
            raise EventError("TERM", why.reason, why.formula) from None
        if variables(t):
            raise EventError("VARIABLES", "the term has variables", t)
        return _shown(self.machine.value(t, self.steps)[0])

    def _print(self, x: Object) -> str:
        return _shown(x)

    def _profile(self, number: Object) -> None:
        if number not in (1, 2) or self.theory.profile != 1 or self.theory.theorems or self.theory.level > 1 \
                or self.arities is not self._first_arities:
            raise EventError("PROFILE", "the profile is neither 1 nor 2, or the theory has changed since the start")
        if number == 2:
            self._start(2)


def _expanded(raw: Object) -> Object:
    """The term of a raw term; where it expands to none, 0, which is not a term, since other checks come first."""
    try:
        return expand(raw)
    except FormError:
        return 0


def _variables_of(formals: Object) -> tuple:
    """The members of a list of formals; of anything else (0), which is not a list of variables."""
    members = items(formals)
    return (0,) if members is None else members


def _check_range(form: Object) -> None:
    seen, work = set(), [form]
    while work:
        x = work.pop()
        if isinstance(x, int) and x >= limits.NATURALS:
            raise EventError("RANGE", "a natural of 2^128 or more")
        if isinstance(x, Pair) and x not in seen:
            seen.add(x)
            work += [x.first, x.rest]


def _shown(x: Object) -> str:
    text = printed(x)
    if len(text) > LONGEST_SHOWN:
        raise EventError("LONG", f"the text has {len(text)} bytes")
    return text


def _word(form: Object) -> str:
    return printed(form.first) if isinstance(form, Pair) and isinstance(form.first, str) else "-"


def _label(form: Object) -> str:
    is_named = isinstance(form, Pair) and form.first in NAMED and isinstance(member(form, 1), str) \
        and isinstance(form.rest, Pair)
    return printed(form.rest.first) if is_named else "-"
