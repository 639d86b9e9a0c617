"""What a book must know of the program's own judge before it can prove another checker sound.

The theorems speak of LOGIC.PROVABLEP ("there is a proof of this formula").  The main one is PROVABLE-BY-CORE: a step
of one of the twelve methods over provable premises has a provable conclusion.  From it comes one theorem for each
propositional method, such as PROVABLE-CUT, in which A and B are variables for formulas.
"""
from ..book import Book
from ..rules.instances import definition_axiom, instance
from ..logic.notation import term
from .arities import verify_cached
from .texts import ENV, all_provable, core, formula_rules, is_formula, list_of, provable, witness, witnesses


def verify_provability(book: Book) -> None:
    """Provable formulas and their witnesses."""
    names = {"unfold": ["logic.provablep", "logic.proofp", "logic.conclusion"]}
    made = instance(definition_axiom(book.theory, "logic.provable-witness"), {"X": term("(car (cdr p))"), "PROOF": "P"})
    book.prove("provable-by-proof",
               f"(implies (logic.flag-proofp 'proof p {ENV}) {provable('(car (cdr p))')})", use=[made], **names)
    book.prove("witness-is-proof",
               f"(implies {provable('x')} (logic.flag-proofp 'proof {witness('x')} {ENV}))", **names)
    book.prove("witness-concludes", f"(implies {provable('x')} (= (car (cdr {witness('x')})) x))", **names)
    book.prove("formula-of-provable", f"(implies {provable('x')} {is_formula('x')})",
               use=[book.at("WITNESS-IS-PROOF"), book.at("WITNESS-CONCLUDES"),
                    book.definition_at("logic.flag-proofp", "'proof", witness("x"), "axioms", "thms", "atbl")])


def verify_lists(book: Book) -> None:
    """ALL-PROVABLEP of a list of formulas: there is a list of their proofs."""
    book.define(f"(ladder.witnesses (xs {ENV}) (if (consp xs) (cons {witness('(car xs)')}"
                f" {witnesses('(cdr xs)')}) nil))", "(rank xs)")
    book.define(f"(ladder.all-provablep (xs {ENV}) (and (logic.flag-proofp 'list {witnesses('xs')} {ENV})"
                f" (equal (logic.conclusions {witnesses('xs')}) xs)))")
    once = ["ladder.all-provablep", "logic.conclusion"]
    book.prove("witnesses-are-proofs",
               f"(implies {all_provable('xs')} (logic.flag-proofp 'list {witnesses('xs')} {ENV}))", unfold=once)
    book.prove("witnesses-conclude",
               f"(implies {all_provable('xs')} (= (logic.conclusions {witnesses('xs')}) xs))", unfold=once)
    book.prove("all-provable-of-nil", all_provable("'nil"),
               unfold=once + ["ladder.witnesses", "logic.conclusions"],
               use=[book.definition_at("logic.flag-proofp", "'list", "'nil", "axioms", "thms", "atbl")])
    both = {"unfold": {"ladder.all-provablep": "always", "ladder.witnesses": "decided", "logic.conclusions": "decided",
                       "logic.conclusion": "always"},
            "use": [book.definition_at("logic.flag-proofp", "'list",
                               f"(cons {witness('x')} {witnesses('xs')})", "axioms", "thms", "atbl")]}
    pair = all_provable("(cons x xs)")
    book.prove("all-provable-of-cons", f"(implies {provable('x')} {all_provable('xs')} {pair})", unfold=both["unfold"],
               use=both["use"] + [book.at("WITNESS-IS-PROOF"), book.at("WITNESS-CONCLUDES")])
    book.prove("first-of-all-provable", f"(implies {pair} {provable('x')})", unfold=both["unfold"],
               use=both["use"] + [book.at("PROVABLE-BY-PROOF", p=witness("x"))])
    book.prove("rest-of-all-provable", f"(implies {pair} {all_provable('xs')})", **both)


def verify_formulas(book: Book) -> None:
    """FORMULAP of negations and disjunctions, and of their parts."""
    shape = ["logic.por", "logic.pnot", "logic.lenp", "logic.listp", "logic.len"]
    for name, whole, parts in (("por", "(logic.por a b)", "ab"), ("pnot", "(logic.pnot a)", "a")):
        use = [book.definition_at("logic.formulap", whole, "atbl")]
        given = " ".join(is_formula(p) for p in parts)
        book.prove(f"formula-{name}", f"(implies {given} {is_formula(whole)})", unfold=shape, use=use)
        for p in parts:
            book.prove(f"formula-{name}-{p}", f"(implies {is_formula(whole)} {is_formula(p)})", unfold=shape, use=use)


CORE = """
(ladder.core (m c as e axioms thms atbl)
 (let* ((n (logic.len as)) (a (first as)))
  (cond ((equal m 'instantiation)
    (and (equal n 1) (logic.instantiation-okp c a e atbl)))
   ((equal m 'induction) (logic.induction-okp c as e atbl))
   (e nil)
   ((equal n 0)
    (cond ((equal m 'axiom) (logic.memberp c axioms))
     ((equal m 'theorem) (logic.memberp c thms))
     ((equal m 'propositional-schema) (logic.schema-okp c))
     ((equal m 'functional-equality) (logic.functional-equality-okp c))
     ((equal m 'beta-reduction) (logic.beta-reduction-okp c))
     ((equal m 'base-eval) (logic.base-eval-okp c))))
   ((equal n 1)
    (cond ((equal m 'expansion) (logic.expansion-okp c a))
     ((equal m 'contraction) (logic.contraction-okp c a))
     ((equal m 'associativity) (logic.associativity-okp c a))))
   ((equal n 2) (and (equal m 'cut) (logic.cut-okp c a (second as)))))))
"""


def verify_core(book: Book) -> None:
    """LOGIC.STEP-OKP as a function of method, conclusion, premises and extras; PROVABLE-BY-CORE."""
    book.define(CORE)
    parts = ("(car x)", "(car (cdr x))", "(logic.conclusions (car (cdr (cdr x))))", "(car (cdr (cdr (cdr x))))")
    book.prove("step-is-core", f"(= (logic.step-okp x {ENV}) {core(*parts)})",
               unfold=["logic.step-okp", "ladder.core"])
    made = f"(cons m (cons c (cons {witnesses('as')} (cons e 'nil))))"
    book.prove("provable-by-core",
               f"(implies {core('m', 'c', 'as', 'e')} {is_formula('c')} {all_provable('as')} {provable('c')})",
               unfold=["logic.listp", "logic.len", "logic.memberp"],
               use=[book.at("PROVABLE-BY-PROOF", p=made), book.at("STEP-IS-CORE", x=made),
                    book.at("WITNESSES-ARE-PROOFS", xs="as"), book.at("WITNESSES-CONCLUDE", xs="as"),
                    book.definition_at("logic.flag-proofp", "'proof", made, "axioms", "thms", "atbl")])


METHODS = {     # method: premises, conclusion, formulas that the conclusion brings in, functions to unfold
    "expansion": (["a"], "(logic.por b a)", ["b"], ["logic.expansion-okp"]),
    "contraction": (["(logic.por a a)"], "a", [], ["logic.contraction-okp"]),
    "associativity": (["(logic.por a (logic.por b c))"], "(logic.por (logic.por a b) c)", [],
                      ["logic.associativity-okp"]),
    "cut": (["(logic.por a b)", "(logic.por (logic.pnot a) c)"], "(logic.por b c)", [], ["logic.cut-okp"]),
    "propositional-schema": ([], "(logic.por (logic.pnot a) a)", ["a"], ["logic.schema-okp"]),
}


def verify_methods(book: Book) -> None:
    """One theorem for each propositional method: PROVABLE-EXPANSION and so on."""
    for method, (premises, conclusion, given, unfold) in METHODS.items():
        xs = list_of(premises)
        test = core(f"'{method}", conclusion, xs)
        book.prove(f"core-{method}", test, unfold=unfold + ["ladder.core", "logic.por", "logic.pnot", "logic.len"])
        book.prove(f"provable-{method}",
                   "(implies {} {})".format(" ".join([is_formula(g) for g in given] + [provable(p) for p in premises]),
                                            provable(conclusion)),
                   rules=formula_rules(book) + [book.rule("ALL-PROVABLE-OF-CONS", all_provable("(cons x xs)"))],
                   use=[book.at("PROVABLE-BY-CORE", m=f"'{method}", c=conclusion, as_=xs, e="'nil"),
                        book.at(f"CORE-{method.upper()}"), book.at("ALL-PROVABLE-OF-NIL")], depth=6)


def verify_reflection(book: Book) -> None:
    """All of the above, and that a faster arity table changes nothing."""
    book.equality_lemmas()
    verify_provability(book)
    verify_lists(book)
    verify_formulas(book)
    verify_core(book)
    verify_methods(book)
    verify_cached(book)
