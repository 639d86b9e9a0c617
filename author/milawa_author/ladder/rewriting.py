"""Level 9: a clause by a trace, in which terms are rewritten by proved conditional equations; proved sound.

 - REWRITE: conclude C.  Extras are a trace that says T under C.

A trace is `(kind data traces)`.  Its kinds, and what they say under a clause C, where the traces say F1, F2 ..:

 - `(deny L)`, `(grant L)`: `not L`, where L is a part of C; L, where `not L` is.
 - `(axiom (F . s))`, `(theorem (F . s))`: F/s.
 - `(unit nil (t1 t2 ..))`: F1, without those literals that F2, .. refute, one for each; NIL keeps a literal.  T where
   nothing is left.  So a conditional equation is used: its conditions go out, and the equation is left.
 - `(chain x (t1 ..))`: x = y, where the equations lead from x to y, each read in either direction.
 - `(congruence t (t1 ..))`: the call t equals the one with other actuals; an equation or NIL for each.
 - `(same t)`: t = t.  `(apply t)`, `(beta t)`: what a primitive on constants, or a lambda call, is equal to.
 - `(compute (t n f ..))`: the value of a ground term, as in COMPUTE.
 - `(assume F t1)`: F, where t1 says T under `F or C`.

No formula is written that the trace makes, and none is asked whether it is one.
"""
from ..book import Book
from ..logic.kernel import Proof
from ..prover.traces import rewrite_test
from .branches import BRANCHES
from .checkers import Checker
from .equations import ASSUMPTION
from .holding import all_hold, holds, opened_all, opened_holds, verify_holding, verify_strike, verify_truth
from .positions import verify_chains, verify_congruence, verify_replaced
from .terms import fast_formula, fast_sigma, fast_term, verify_fast
from .texts import ENV, equation_rules, formula_rules, is_formula, provable, prove_along

GIVEN = f"{ASSUMPTION} {BRANCHES} {is_formula('c')}"


class Kinds:
    """The function that says what a trace says, by its kind, its data and what its traces say; one kind after another
    is added, each proved sound."""

    def __init__(self, book: Book):
        self.book, self.step = book, "ladder.conclude"
        book.define(f"({self.step} (k d rs c {ENV}) nil)")
        book.prove(f"sound-{self.step}", self.sound(self.step), unfold=[self.step], use=opened_holds(book, "'nil"))

    @staticmethod
    def sound(step: str) -> str:
        """What it says that such a function is sound."""
        return f"(implies {GIVEN} {all_hold('rs')} {holds(f'({step} k d rs c {ENV})')})"

    def add(self, kind: str, says: str, *use: Proof) -> None:
        """Adds a kind; `says` is a term over D, RS, C and the three lists, and `use` are lemmas."""
        book, before = self.book, self.step
        self.step = f"ladder.conclude-{kind}"
        book.define(f"({self.step} (k d rs c {ENV}) (if (equal k '{kind}) {says} ({before} k d rs c {ENV})))")
        book.prove(f"sound-{self.step}", self.sound(self.step), unfold=[self.step], depth=9,
                   rules=formula_rules(book) + equation_rules(book),
                   use=[*use, *opened_holds(book, "'nil", says), book.at(f"SOUND-{before}")])


def verify_hypotheses(book: Book) -> None:
    """What the kinds DENY and GRANT, AXIOM and THEOREM rest on."""
    book.define(f"(ladder.image (f s atbl) (if {fast_sigma('s')} (logic.formula-substitute f s) nil))")
    image = "(ladder.image f s atbl)"
    book.prove("image-is-provable", f"(implies {provable('f')} {image} {provable(image)})", unfold=["ladder.image"],
               rules=formula_rules(book),
               use=[book.at("PROVABLE-INSTANTIATION", a="f", c="(logic.formula-substitute f s)"),
                    book.at("FORMULA-OF-INSTANCE", a="f"), book.at("FAST-SIGMAS"),
                    book.definition_at("logic.instantiation-okp", "(logic.formula-substitute f s)", "f", "s", "atbl")])
    book.prove("provable-holds", f"(implies {is_formula('c')} {provable('f')} {holds('f')})",
               rules=formula_rules(book),
               use=[*opened_holds(book, "f"), book.at("TRUTH-IS-NO-FORMULA"),
                    book.at("PROVABLE-EXPANSION", a="f", b="c")])
    no = "(logic.pnot d)"
    book.prove("deny-holds", f"(implies {is_formula('c')} (ladder.insidep d c) {holds(no)})",
               rules=formula_rules(book), depth=9,
               use=[*opened_holds(book, no), book.at("INSIDE-IMPLIES", a="d"), book.at("FORMULA-INSIDE", a="d"),
                    book.at("PROVABLE-COMMUTE-OR", a=no, b="c"), book.at("TRUTH-IS-NO-FORMULA")])
    book.prove("grant-holds", f"(implies {is_formula('c')} (ladder.insidep {no} c) {holds('d')})",
               rules=formula_rules(book), depth=9,
               use=[*opened_holds(book, "d"), book.at("INSIDE-IMPLIES", a=no), book.at("FORMULA-INSIDE", a=no),
                    book.at("TRUTH-IS-NO-FORMULA"), book.at("FORMULA-PNOT-A", a="d"),
                    book.at("PROVABLE-PROPOSITIONAL-SCHEMA", a="d"), book.at("PROVABLE-CUT", a=no, b="d", c="c"),
                    book.at("PROVABLE-COMMUTE-OR", a="d", b="c")])


def add_kinds(book: Book) -> Kinds:
    """All kinds but ASSUME."""
    kinds, term = Kinds(book), book.at("FAST-TERM", x="d")
    same, beta = "(logic.pequal d d)", "(logic.pequal d (ladder.beta d atbl))"
    applied = "(logic.pequal d (ladder.apply d))"
    defs, state = "(ladder.collect (cdr (cdr d)) axioms)", "(cons nil (car d))"
    value = f"(ladder.compute (second d) {state} {defs} atbl)"
    computed = f"(logic.pequal (car d) {value})"
    kinds.add("same", f"(if {fast_term('d')} {same} nil)", term, book.at("PROVABLE-REFLEXIVITY", a="d"),
              book.at("PROVABLE-HOLDS", f=same))
    kinds.add("compute", f"(if (ladder.all-axiomsp {defs} axioms atbl) (if {fast_term('(car d)')} (if {value}"
              f" {computed} nil) nil) nil)", book.at("FAST-TERM", x="(car d)"),
              book.at("COMPUTE-IS-SOUND", n="(second d)", s=state, defs=defs), book.at("PROVABLE-HOLDS", f=computed),
              book.definition_at("ladder.plug", "'nil", "(car d)"), book.at("ALL-AXIOMS-ARE-PROVABLE", xs=defs))
    kinds.add("beta", f"(if {fast_term('d')} (if (consp (car d)) (if (ladder.beta d atbl) {beta} nil) nil) nil)",
              term, book.at("BETA-IS-SOUND", x="d"), book.at("PROVABLE-HOLDS", f=beta))
    kinds.add("apply", f"(if {fast_term('d')} (if (consp d) (if (logic.primitivep (car d)) (if (ladder.apply d)"
              f" {applied} nil) nil) nil) nil)", term, book.at("APPLY-IS-SOUND", x="d"),
              book.at("PROVABLE-HOLDS", f=applied))
    kinds.add("deny", "(if (ladder.insidep d c) (logic.pnot d) nil)", book.at("DENY-HOLDS"))
    kinds.add("grant", "(if (ladder.insidep (logic.pnot d) c) d nil)", book.at("GRANT-HOLDS"))
    f, s = "(car d)", "(cdr d)"
    image = f"(if {s} (ladder.image {f} {s} atbl) {f})"
    for kind, pool, lemma in (("axiom", "axioms", "PROVABLE-AXIOM"), ("theorem", "thms", "PROVABLE-THEOREM")):
        kinds.add(kind, f"(if (logic.memberp {f} {pool}) (if {fast_formula(f)} {image} nil) nil)",
                  book.at("FAST-FORMULAS", x=f), book.at(lemma, c=f), book.at("IMAGE-IS-PROVABLE", f=f, s=s),
                  book.at("PROVABLE-HOLDS", f=f),
                  book.at("PROVABLE-HOLDS", f=f"(ladder.image {f} {s} atbl)"))
    kinds.add("chain", "(ladder.chain d rs)", book.at("CHAIN-HOLDS", x="d", es="rs"))
    kinds.add("congruence", f"(if {fast_term('d')} (ladder.congrue d rs) nil)", term,
              book.at("CONGRUE-HOLDS", l="d", es="rs"))
    kinds.add("unit", "(if (consp (car rs)) (ladder.strike (car rs) (cdr rs)) nil)", *opened_all(book, "rs"),
              book.at("STRIKE-HOLDS", k="(car rs)", rs="(cdr rs)"), book.axiom_at(12, x="rs"))
    return kinds


def add_says(book: Book, conclude: str) -> None:
    """SAYS, what a trace says, and SAYS-HOLDS."""
    says = f"(ladder.says {{}} {{}} {{}} {ENV})"
    one, more = says.format("'one", "(third x)", "(logic.por (second x) c)"), says.format("'list", "(third x)", "c")
    pair = "(cons {} {})".format(says.format("'one", "(car x)", "c"), says.format("'list", "(cdr x)", "c"))
    book.define("(ladder.assumed (f r) (if (equal r 't) f nil))")
    book.define(f"(ladder.says (flag x c {ENV}) (if (consp x) (if (equal flag 'list)"
                f" {pair}"
                f" (if (equal (first x) 'assume) (if {fast_formula('(second x)')}"
                f" (ladder.assumed (second x) {one}) nil)"
                f" ({conclude} (first x) (second x) {more} c {ENV}))) nil))", "(rank x)")
    whole = says.format("flag", "x", "c")
    goal = f"(ladder.says-goal flag x c {ENV})"
    book.define(f"(ladder.says-goal (flag x c {ENV}) (if (equal flag 'list) {all_hold(whole)} {holds(whole)}))")
    book.prove("assumed-holds", f"(implies {is_formula('f')} {is_formula('c')} {holds('r', '(logic.por f c)')}"
               f" {holds('(ladder.assumed f r)')})", unfold=["ladder.assumed"], rules=formula_rules(book),
               use=[*opened_holds(book, "r", c="(logic.por f c)"), *opened_holds(book, "f", "'nil"),
                    book.at("TRUTH-IS-NO-FORMULA"), book.at("PROVABLE-COMMUTE-OR", a="f", b="c")])
    prove_along(book, "says-holds", f"(implies {GIVEN} {goal})", "x",
                [{"flag": "'one", "x": "(car x)"}, {"flag": "'list", "x": "(cdr x)"},
                 {"flag": "'list", "x": "(third x)"},
                 {"flag": "'one", "x": "(third x)", "c": "(logic.por (second x) c)"}],
                unfold=["ladder.says-goal"], rules=formula_rules(book), depth=9,
                use=[book.definition_at("ladder.says", "flag", "x", "c", "axioms", "thms", "atbl"),
                     book.definition_at("ladder.all-hold", pair, "c", "axioms", "thms", "atbl"),
                     book.definition_at("ladder.all-hold", "'nil", "c", "axioms", "thms", "atbl"),
                     *opened_holds(book, "'nil"), book.at("FAST-FORMULAS", x="(second x)"),
                     book.at("ASSUMED-HOLDS", f="(second x)", r=one),
                     book.at(f"SOUND-{conclude}", k="(first x)", d="(second x)", rs=more)])


def add_rewrite(checker: Checker) -> None:
    """Adds REWRITE to a checker that has COMPUTE."""
    book = checker.book
    verify_fast(book)
    verify_holding(book)
    verify_truth(book)
    verify_strike(book)
    verify_chains(book)
    verify_replaced(book)
    verify_congruence(book)
    verify_hypotheses(book)
    kinds = add_kinds(book)
    add_says(book, kinds.step)
    said = f"(ladder.says 'one e c {ENV})"
    book.define(f"(ladder.rewrite-okp (c as e {ENV}) (and (equal as nil) {BRANCHES} {fast_formula('c')}"
                f" (equal {said} 't)))")
    sound = book.prove("rewrite-okp-is-sound",
                       f"(implies {ASSUMPTION} (ladder.rewrite-okp c as e {ENV}) {provable('c')})",
                       unfold=["ladder.rewrite-okp", "ladder.says-goal"],
                       use=[book.at("SAYS-HOLDS", flag="'one", x="e"), book.at("FAST-FORMULAS", x="c"),
                            *opened_holds(book, "'t")])
    checker.assumption = ASSUMPTION
    checker.add_step("REWRITE", f"(ladder.rewrite-okp c as e {ENV})", rewrite_test(book.theory), sound)
