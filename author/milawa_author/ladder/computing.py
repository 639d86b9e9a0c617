"""Level 8: the value of a ground term in one step, by a machine in the book, proved sound.

 - COMPUTE: conclude `t = 'v` for a ground term t.  Extras are `(n f ..)`: moves that the machine may make, and the
   names of the functions whose definitions it looks up.

`machine` has the machine; here it is proved that each move keeps what a state stands for, provably.
"""
from ..book import Book
from ..logic.moves import compute_test
from ..logic.notation import term
from .branches import BRANCHES, verify_branches
from .checkers import Checker
from .equations import ASSUMPTION
from .machine import TERM, define_machine
from .plugging import verify_plugging
from .texts import (all_provable, core, equation_rules, formula_rules, is_formula, is_term, list_of, provable,
                    prove_along)


def given(*more: str) -> str:
    """What the theorems on the machine presuppose, before further hypotheses."""
    return " ".join([ASSUMPTION, BRANCHES, all_provable("defs"), *more])


def equal(a: str, b: str) -> str:
    """That a = b is provable."""
    return provable(f"(logic.pequal {a} {b})")


def verify_definitions(book: Book) -> None:
    """What DEFINITION finds is provable, and so is what OPEN makes of it."""
    found = "(ladder.definition f defs)"
    prove_along(book, "definition-is-provable", f"(implies {all_provable('defs')} {found} {provable(found)})", "defs",
                [{"defs": "(cdr defs)"}],
                use=[book.definition_at("ladder.definition", "f", "defs"), book.at("FIRST-OF-PROVABLES", as_="defs"),
                     book.at("REST-OF-PROVABLES", as_="defs")])
    s, opened = "(logic.pair (cdr (second f)) (cdr x))", "(ladder.open x f atbl)"
    made = f"(logic.formula-substitute f {s})"
    book.prove("open-is-sound", f"(implies {provable('f')} {opened} {equal('x', opened)})", unfold=["ladder.open"],
               rules=formula_rules(book), depth=9,
               use=[book.definition_at("logic.formula-substitute", "f", s),
                    book.definition_at("logic.instantiation-okp", made, "f", s, "atbl"), book.axiom_at(12, x="f"),
                    book.at("PROVABLE-INSTANTIATION", a="f", s=s, c=made), book.at("FORMULA-OF-INSTANCE", a="f", s=s)])


def verify_reducts(book: Book) -> None:
    """REDUCT of a term is provably equal to it."""
    s, beta = "(logic.pair (second (car x)) (cdr x))", "(ladder.beta x atbl)"
    c = f"(logic.pequal x {beta})"
    rules = formula_rules(book) + equation_rules(book)
    opened = [book.definition_at("logic.flag-termp", "'term", "x", "atbl"),
              book.definition_at("logic.termp", "x", "atbl")]
    book.prove("beta-is-sound", f"(implies {is_term('x')} (consp (car x)) {beta} {provable(c)})",
               unfold=["ladder.beta", "ladder.core", "logic.len", "logic.beta-reduction-okp", "logic.pequal"],
               use=[*opened, book.at("PROVABLE-BY-CORE", m="'beta-reduction", c=c, as_="'nil", e="'nil"),
                    book.at("ALL-PROVABLE-OF-NIL"), book.at("FORMULA-PEQUAL", a="x", b=beta),
                    book.at("TERM-OF-SUBSTITUTE", flag="'term", x="(third (car x))", s=s),
                    book.definition_at("logic.substitute", "(third (car x))", s), book.axiom_at(12, x="x"),
                    book.axiom_at(24, x="'quote"),
                    book.definition_at("logic.termp", "(third (car x))", "atbl"),
                    book.definition_at("logic.termp", f"(logic.substitute (third (car x)) {s})", "atbl")], splits=200)
    applied = "(ladder.apply x)"
    c = f"(logic.pequal x {applied})"
    value, judged = "(logic.apply (car x) (logic.unquote-list (cdr x)))", core("'base-eval", c, "'nil")
    book.prove("constant-of-value", f"(implies (logic.const-listp (cdr x)) (= {applied} (cons 'quote (cons {value}"
               " 'nil))))", unfold=["ladder.apply"])
    book.prove("core-apply", f"(implies (consp x) (logic.primitivep (car x)) (logic.const-listp (cdr x))"
               f" {judged})",
               unfold=["ladder.core", "logic.len", "logic.base-eval-okp", "logic.pequal", "logic.constantp",
                       "logic.lenp", "logic.listp"],
               use=[book.at("CONSTANT-OF-VALUE")], splits=200)
    book.prove("apply-is-sound", f"(implies {is_term('x')} (consp x) (logic.primitivep (car x)) {applied}"
               f" {provable(c)})", rules=rules, depth=9,
               use=[book.at("CORE-APPLY"), book.at("PROVABLE-BY-CORE", m="'base-eval", c=c, as_="'nil", e="'nil"),
                    book.at("ALL-PROVABLE-OF-NIL"), book.at("FORMULA-PEQUAL", a="x", b=applied),
                    book.at("TERM-OF-CONSTANT", u=value), book.at("CONSTANT-OF-VALUE"),
                    book.definition_at("ladder.apply", "x")])
    reduct = "(ladder.reduct x defs atbl)"
    book.prove("reduct-is-sound", f"(implies {all_provable('defs')} {is_term('x')} (consp x) {reduct}"
               f" {equal('x', reduct)})", unfold=["ladder.reduct"],
               use=[book.at("BETA-IS-SOUND"), book.at("APPLY-IS-SOUND"),
                    book.at("OPEN-IS-SOUND", f="(ladder.definition (car x) defs)"),
                    book.at("DEFINITION-IS-PROVABLE", f="(car x)")])


NEXT = "(ladder.advance s defs atbl)"


def verify_return(book: Book) -> None:
    """The moves of a constant."""
    frame, after = "(ladder.fill frame x)", "(third frame)"
    made = "(ladder.return frame stack x defs atbl)"
    whole, new = f"(ladder.plug stack {frame})", f"(ladder.plug (car {made}) (cdr {made}))"
    book.prove("constant-is-made", f"(implies {is_term('x')} (equal (car x) 'quote)"
               " (= x (cons 'quote (cons (second x) 'nil))))",
               unfold=["logic.termp", "logic.constantp", "logic.lenp", "logic.listp"],
               use=[book.definition_at("logic.flag-termp", "'term", "x", "atbl"), book.axiom_at(14, x="x"),
                    book.axiom_at(14, x="(cdr x)"), book.axiom_at(12, x="x"), book.at("LEN-OF-CDR", x="x"),
                    book.at("LEN-OF-CDR", x="(cdr x)"), book.at("LEN-OF-CONSP", x="(cdr (cdr x))"),
                    book.definition_at("logic.listp", "x"), book.definition_at("logic.listp", "(cdr x)"),
                    book.definition_at("logic.listp", "(cdr (cdr x))"), book.definition_at("logic.len", "(cdr x)"),
                    book.definition_at("logic.len", "x"), book.definition_at("logic.len", "'nil")], splits=200)
    y, z = f"(first {after})", f"(second {after})"
    call = list_of(["'if", "x", y, z])
    chosen = f"(if (equal x ''nil) {z} {y})"
    unit = [book.at(f"PROVABLE-IF-{name}", u="(second x)", y=y, z=z) for name in ("TRUE", "FALSE")]
    book.prove("if-in-frame", f"(implies {ASSUMPTION} {BRANCHES} {is_term('x')} (equal (car x) 'quote)"
               f" {is_term(call)} {equal(call, chosen)})",
               use=[*unit, book.at("CONSTANT-IS-MADE"), book.at("CALL-PARTS", l=call),
                    *[book.definition_at("logic.flag-termp", "'list", list_of(["x", y, z][k:]), "atbl")
                      for k in range(3)],
                    *[book.definition_at("logic.termp", t, "atbl") for t in (y, z)]])


def verify_frames(book: Book) -> None:
    """RETURN-IS-SOUND, for a constant in a frame."""
    frame, after = "(ladder.fill frame x)", "(third frame)"
    made = "(ladder.return frame stack x defs atbl)"
    whole, new = f"(ladder.plug stack {frame})", f"(ladder.plug (car {made}) (cdr {made}))"
    y, z = f"(first {after})", f"(second {after})"
    call, chosen = list_of(["'if", "x", y, z]), f"(if (equal x ''nil) {z} {y})"
    following = f"(list (first frame) (cons x (second frame)) (cdr {after}))"
    reduct = f"(ladder.reduct {frame} defs atbl)"
    known = [book.definition_at("ladder.fill", "frame", "x"), book.at("TERM-IN-PLUG", x=frame),
             book.at("TERM-IN-FRAME"), book.at("NIL-IS-NO-TERM")]
    hypotheses = given(is_term(whole), "(equal (car x) 'quote)")
    book.prove("return-if", f"(implies {hypotheses} (= (first frame) 'if) (= (second frame) 'nil)"
               f" (= {after} (cons {y} (cons {z} 'nil))) {equal(whole, f'(ladder.plug stack {chosen})')})",
               use=[*known, book.at("IF-IN-FRAME"), book.at("PLUG-CONGRUENCE", x=call, y=chosen),
                    book.definition_at("ladder.onto", "'nil", f"(cons x {after})")])
    book.prove("return-next", f"(implies {hypotheses} (consp {after})"
               f" {equal(whole, f'(ladder.plug (cons {following} stack) (car {after}))')})",
               use=[*known, book.definition_at("ladder.fill", following, f"(car {after})"),
                    book.definition_at("ladder.plug", f"(cons {following} stack)", f"(car {after})"),
                    book.definition_at("ladder.onto", "(cons x (second frame))", f"(cons (car {after}) (cdr {after}))"),
                    book.axiom_at(14, x=after), book.at("PROVABLE-REFLEXIVITY", a=whole)])
    book.prove("return-reduct", f"(implies {hypotheses} {reduct} {equal(whole, f'(ladder.plug stack {reduct})')})",
               use=[*known, book.at("REDUCT-IS-SOUND", x=frame), book.at("PLUG-CONGRUENCE", x=frame, y=reduct)])
    book.prove("return-is-sound", f"(implies {hypotheses} {made} {equal(whole, new)})", unfold=["ladder.return"],
               use=[book.at("RETURN-IF"), book.at("RETURN-NEXT"), book.at("RETURN-REDUCT")])


def verify_entries(book: Book) -> None:
    """ENTER-IS-SOUND, for a call."""
    made, whole, frame = "(ladder.enter stack x defs atbl)", "(ladder.plug stack x)", "(list (car x) nil (cdr (cdr x)))"
    new, reduct = f"(ladder.plug (car {made}) (cdr {made}))", "(ladder.reduct x defs atbl)"
    hypotheses = given(is_term(whole), "(consp x)", "(= (equal (car x) 'quote) 'nil)")
    book.prove("enter-call", f"(implies {hypotheses} (symbolp (car x)) (consp (cdr x))"
               f" {equal(whole, f'(ladder.plug (cons {frame} stack) (car (cdr x)))')})",
               use=[book.definition_at("ladder.fill", frame, "(car (cdr x))"), book.axiom_at(14, x="x"),
                    book.definition_at("ladder.plug", f"(cons {frame} stack)", "(car (cdr x))"),
                    book.definition_at("ladder.onto", "'nil", "(cons (car (cdr x)) (cdr (cdr x)))"),
                    book.axiom_at(14, x="(cdr x)"), book.at("PROVABLE-REFLEXIVITY", a=whole)])
    book.prove("enter-reduct", f"(implies {hypotheses} {reduct} {equal(whole, f'(ladder.plug stack {reduct})')})",
               use=[book.at("TERM-IN-PLUG"), book.at("REDUCT-IS-SOUND"), book.at("PLUG-CONGRUENCE", y=reduct)])
    book.prove("enter-is-sound", f"(implies {hypotheses} {made} {equal(whole, new)})", unfold=["ladder.enter"],
               use=[book.at("ENTER-CALL"), book.at("ENTER-REDUCT")])


def verify_moves(book: Book) -> None:
    """ADVANCE-IS-SOUND and COMPUTE-IS-SOUND: what a state stands for is provably equal to what the next one does, and
    so to the value."""
    verify_return(book)
    verify_frames(book)
    verify_entries(book)
    new, value = f"(ladder.plug (car {NEXT}) (cdr {NEXT}))", "(ladder.compute n s defs atbl)"
    book.prove("advance-is-sound", f"(implies {given(is_term(TERM))} {NEXT} {equal(TERM, new)})",
               unfold=["ladder.advance"],
               use=[book.definition_at("ladder.plug", "(car s)", "(cdr s)"),
                    book.at("RETURN-IS-SOUND", frame="(car (car s))", stack="(cdr (car s))", x="(cdr s)"),
                    book.at("ENTER-IS-SOUND", stack="(car s)", x="(cdr s)")])
    book.prove_by_natural("compute-is-sound", f"(implies {given(is_term(TERM))} {value} {equal(TERM, value)})", "n",
                          hypotheses=[{"S": term(NEXT)}], rules=equation_rules(book), depth=9, splits=200,
                          use=[book.definition_at("ladder.compute", "n", "s", "defs", "atbl"),
                               book.definition_at("ladder.plug", "(car s)", "(cdr s)"), book.at("ADVANCE-IS-SOUND"),
                               book.at("PROVABLE-REFLEXIVITY", a="(cdr s)"),
                               book.at("FORMULA-OF-PROVABLE", x=f"(logic.pequal {TERM} {new})"),
                               book.at("PROVABLE-TRANSITIVITY-OF-PEQUAL", a=TERM, b=new,
                                       c=f"(ladder.compute (- n '1) {NEXT} defs atbl)")])


def verify_axiom_lists(book: Book) -> None:
    """ALL-AXIOMSP of a list of formulas, which are then provable; COLLECT finds definitions by name."""
    book.define("(ladder.collect (names axioms) (if (consp names) (cons (ladder.definition (car names) axioms)"
                " (ladder.collect (cdr names) axioms)) nil))", "(rank names)")
    book.define("(ladder.all-axiomsp (xs axioms atbl) (if (consp xs) (if (logic.memberp (car xs) axioms)"
                f" (if {is_formula('(car xs)')} (ladder.all-axiomsp (cdr xs) axioms atbl) nil) nil) (equal xs nil)))",
                "(rank xs)")
    prove_along(book, "all-axioms-are-provable",
                f"(implies (ladder.all-axiomsp xs axioms atbl) {all_provable('xs')})", "xs", [{"xs": "(cdr xs)"}],
                use=[book.definition_at("ladder.all-axiomsp", "xs", "axioms", "atbl"),
                     book.at("PROVABLE-AXIOM", c="(car xs)"), book.at("ALL-PROVABLE-OF-NIL"), book.axiom_at(14, x="xs"),
                     book.at("ALL-PROVABLE-OF-CONS", x="(car xs)", xs="(cdr xs)")])


def add_compute(checker: Checker) -> None:
    """Adds COMPUTE."""
    book = checker.book
    define_machine(book)
    verify_plugging(book)
    verify_branches(book)
    verify_definitions(book)
    verify_reducts(book)
    verify_moves(book)
    verify_axiom_lists(book)
    defs, state = "(ladder.collect (cdr e) axioms)", "(cons nil (second c))"
    value = f"(ladder.compute (car e) {state} {defs} atbl)"
    book.define("(ladder.compute-okp (c as e axioms atbl) (and (equal as nil) (third c)"
                " (equal c (logic.pequal (second c) (third c)))"
                f" {BRANCHES} (ladder.all-axiomsp {defs} axioms atbl) {is_term('(second c)')}"
                f" (equal {value} (third c))))")
    sound = book.prove("compute-okp-is-sound",
                       f"(implies {ASSUMPTION} (ladder.compute-okp c as e axioms atbl) {provable('c')})",
                       unfold=["ladder.compute-okp"],
                       use=[book.at("COMPUTE-IS-SOUND", n="(car e)", s=state, defs=defs),
                            book.definition_at("ladder.plug", "'nil", "(second c)"),
                            book.at("ALL-AXIOMS-ARE-PROVABLE", xs=defs)])
    checker.assumption = ASSUMPTION
    checker.add_step("COMPUTE", "(ladder.compute-okp c as e axioms atbl)", compute_test(book.theory), sound)
