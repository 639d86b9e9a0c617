"""The prover, values of ground terms, obligations and induction; what they say where they find nothing."""
import unittest
from unittest import mock

import support  # noqa: F401
from milawa_author import (Book, EventError, FormError, RuleError, TextError, Theory, TooDeep, Unproved, formula,
                           limits, prove, term)
from milawa_author.judge import Judge
from milawa_author.logic.machine import Machine
from milawa_author.logic.objects import make_list
from milawa_author.logic.terms import equation, quote
from milawa_author.logic.text import write
from milawa_author.prover.decreases import lexicographic
from milawa_author.prover.evaluation import evaluate
from milawa_author.prover.induction import induct_on_list
from milawa_author.prover.linear import AtMost, certificate, linear
from milawa_author.rules.equality import commute_pequal
from milawa_author.prover.rewriting import Rewriter, as_rule
from milawa_author.prover.obligations import block_obligations, obligations


class Prover(unittest.TestCase):
    def test_cases_equality_and_axioms(self):
        book = Book()
        for text in ("(implies (= a b) (= b c) (= (car a) (car c)))", "(= (if x y y) y)",
                     "(implies (consp x) (= (cons (car x) (cdr x)) x))", "(implies (< a b) (!= (< a b) 'nil))"):
            self.assertIs(prove(book.theory, text, use=[book.axiom_at(14)]).conclusion, formula(text))

    def test_nested_cases(self):
        book = Book()
        book.equality_lemmas()
        book.define("(iff (x y) (if x (if y t nil) (if y nil t)))")
        for k, text in enumerate(("(= (iff x y) (iff y x))", "(implies (iff x y) (iff y z) (iff x z))",
                                  "(= (iff (if a b c) d) (if a (iff b d) (iff c d)))")):
            book.prove(f"nested-{k}", text, unfold=["iff"])

    def test_what_is_known_is_told(self):
        with self.assertRaises(Unproved) as caught:
            prove(Theory(), "(implies (= a b) (= (car a) c))")
        self.assertIn("(pequal* a b)", str(caught.exception))

    def test_too_many_cases(self):
        tests = " ".join(f"(= (if a{k} b{k} c{k}) d{k})" for k in range(8))
        with self.assertRaises(Unproved) as caught:
            prove(Theory(), f"(or {tests})", splits=5)
        self.assertIn("too many cases", str(caught.exception))

    def test_misuse_is_told(self):
        book = Book()
        book.define("(twice (x) (cons x x))")
        goal = "(= (twice x) (cons x x))"
        for options in ({"unfold": "twice"}, {"unfold": ["thrice"]}, {"unfold": {"twice": "often"}},
                        {"unfold": {"twice": "decided"}}, {"unfold": ["logic.provable-witness"]},
                        {"rules": [("X", book.axiom_at(1))]}, {"rules": ["symmetry"]}, {"use": ["symmetry"]},
                        {"use": book.axiom_at(1)}):
            with self.assertRaises(RuleError, msg=options):
                prove(book.theory, goal, **options)
        with self.assertRaises(RuleError) as caught:
            prove(book.theory, "(and (= x x) (= y y))")
        self.assertIn("makes a formula", str(caught.exception))
        for wrong in (lambda: book.prove_by_list("t", goal, "y"), lambda: book.prove_by_list("t", goal, "(cdr x)"),
                      lambda: book.define("(grow (x) (grow (cons x x)))")):
            with self.assertRaises(RuleError):
                wrong()
        for wrong in (lambda: book.at("twice", x=5), lambda: book.prove("t", None)):
            with self.assertRaises((RuleError, TypeError)):
                wrong()
        self.assertIs(prove(book.theory, goal, unfold=["twice"]).conclusion, formula(goal))
        for text in ("(= (nothing x) x)", "(= (twice x y) x)"):
            with self.assertRaises(RuleError, msg=text):
                prove(book.theory, text)
        for text in ("(=)", "(= x)", "(not)", "(= (quote) x)", "(let (x) x)", "(let ((x)) x)", "((lambda x) y)",
                     "(first)", "(cond (x))", "(a . b)"):
            with self.assertRaises(FormError, msg=text):
                prove(book.theory, text)
        with self.assertRaises(TextError):
            prove(book.theory, "(= x x")


class Values(unittest.TestCase):
    def test_ground_terms(self):
        theory = Theory()
        for text, value in (("(logic.len '(1 2 3))", "3"), ("(if nil 1 (let ((x 2)) (+ x x)))", "4"),
                            ("(logic.memberp 'b '(a b))", "t")):
            self.assertIs(evaluate(theory, term(text)).conclusion, equation(term(text), term(value)))
            self.assertEqual(quote(Machine(theory).value(term(text))[0]), term(value))

    def test_what_has_no_value(self):
        theory = Theory()
        for text in ("(car x)", "(logic.provablep 1 2 3 4)", "(car 1 2)", "(nothing)"):
            with self.assertRaises(RuleError, msg=text):
                evaluate(theory, term(text))
        machine = Machine(theory)
        for text, steps, word in ((f"(+ {2 ** 128 - 1} 1)", 10, "OVERFLOW"), ("(logic.len '(1 2))", 9, "STEPS"),
                                  ("(logic.provablep 1 2 3 4)", 1000, "WITNESS")):
            with self.assertRaises(EventError) as caught:
                machine.value(term(text), steps)
            self.assertEqual(caught.exception.word, word)
        self.assertEqual(machine.value(term("(logic.len '(1 2))"), 10), (2, 10))

    def test_an_evaluation_that_is_too_deep(self):
        theory = Theory()
        with mock.patch.object(limits, "DEPTH", 2000), self.assertRaises(TooDeep):
            evaluate(theory, make_list("LOGIC.LEN", quote(make_list(*range(2000)))))


class Definitions(unittest.TestCase):
    def test_obligations(self):
        body = term("(if (h (cdr x)) (h (car x)) x)")
        made = obligations("H", ("X",), body, term("(rank x)"))
        self.assertEqual([write(o) for o in made],
                         [write(formula(t)) for t in ("(= (ordp (rank x)) 't)",
                                                      "(= (ord< (rank (cdr x)) (rank x)) 't)",
                                                      "(= (ord< (rank (car x)) (rank x)) 't)")])
        with self.assertRaises(RuleError):
            obligations("G", ("X",), term("(let ((y (g x))) (g y))"), "X")

    def test_obligations_of_a_block(self):
        measure = term("(rank x)")
        made = block_obligations([("EV", ("X",), term("(if (consp x) (od (cdr x)) t)"), measure),
                                  ("OD", ("X",), term("(if (consp x) (ev (cdr x)) nil)"), measure)])
        self.assertEqual(made, [formula("(= (ordp (rank x)) 't)"),
                                formula("(implies (consp x) (= (ord< (rank (cdr x)) (rank x)) 't))")])

    def test_definitions_are_checked(self):
        book = Book()
        for word, text in (("NAME", "(if (x) x)"), ("NAME", "(7 (x) x)"), ("FORMALS", "(k (x x) x)"),
                           ("FORMALS", "(k (t) 1)"), ("TERM", "(k (x) (car x x))"), ("VARIABLES", "(k (x) y)"),
                           ("NESTED", "(k (x) (k (k x)))")):
            with self.assertRaises(EventError, msg=text) as caught:
                book.define(text, "(rank x)")
            self.assertEqual(caught.exception.word, word, text)
        with self.assertRaises(RuleError):
            book.define("(k (x) (k x))", "(rank x)")                # no simple recursion
        with self.assertRaises(EventError) as caught:
            book.define("(k (x) (k x))", "(rank x)", [])
        self.assertEqual(caught.exception.word, "COUNT")
        with self.assertRaises(EventError) as caught:
            book.define("(k (x) (k x))", "(rank x)", [book.axiom_at(1), book.axiom_at(1)])
        self.assertEqual(caught.exception.word, "CONCLUSION")
        for text in ("k", "(k x)", "(k x x)", "(k (x))"):
            with self.assertRaises(FormError, msg=text):
                book.define(text)
        self.assertNotIn("K", book.theory.arities)
        with self.assertRaises(RuleError):
            book.theory.check_term(term("(k x)"))                   # nothing of a refused definition stays

    def test_witnesses_and_switches_are_checked(self):
        book = Book()
        for word, arguments in (("NAME", ("car", "y", ["x"], "x")), ("FORMALS", ("w", "y", ["y"], "y")),
                                ("TERM", ("w", "y", ["x"], "(car x y)")), ("VARIABLES", ("w", "y", ["x"], "z"))):
            with self.assertRaises(EventError) as caught:
                book.skolem(*arguments)
            self.assertEqual(caught.exception.word, word)
        for word, name in (("CHECKER", "car"), ("CHECKER", "rank"), ("CLAIM", "logic.proofp")):
            with self.assertRaises(EventError) as caught:
                book.switch(name, {})
            self.assertEqual(caught.exception.word, word)

    def test_other_events_are_checked(self):
        book = Book()
        for word, add, text in (("VARIABLES", book.eval, "(car x)"), ("TERM", book.eval, "(nothing)"),
                                ("RANGE", book.eval, str(2 ** 128)), ("RANGE", book.print, str(2 ** 128))):
            with self.assertRaises(EventError) as caught:
                add(text)
            self.assertEqual(caught.exception.word, word)
        self.assertEqual(book.events, [])


class Induction(unittest.TestCase):
    def test_by_list(self):
        book = Book()
        book.equality_lemmas()
        book.define("(app (x y) (if (consp x) (cons (car x) (app (cdr x) y)) y))", "(rank x)")
        book.define_all([("(ev (x) (if (consp x) (od (cdr x)) t))", "(rank x)"),
                         ("(od (x) (if (consp x) (ev (cdr x)) nil))", "(rank x)")])
        goal = formula("(= (app (app x y) z) (app x (app y z)))")
        self.assertIs(induct_on_list(book, goal, "x", unfold=["app"]).conclusion, goal)
        with self.assertRaises(Unproved):
            induct_on_list(book, "(= (app x y) (app y x))", "x", unfold=["app"])

    def test_misuse_of_theorems_is_told(self):
        book = Book()
        book.equality_lemmas()
        for call in (lambda: book.at("nothing"), lambda: book.at("symmetry", z="x"), lambda: book.rule("cons-not-nil"),
                     lambda: book.definition_at("nothing", "x"), lambda: book.definition_at("rank", "x", "y")):
            with self.assertRaises(RuleError):
                call()


class Linear(unittest.TestCase):
    @classmethod
    def setUpClass(cls):
        cls.book = Book()
        cls.book.equality_lemmas()

    def test_what_follows_by_adding_up(self):
        for text in ("(implies (< a b) (= (< c b) 'nil) (< (+ a '1) (+ '1 c)))", "(= (< (+ a b) a) 'nil)",
                     "(implies (< (+ a a) (+ b b)) (< a b))", "(< a (+ b (+ a '3)))",
                     "(implies (= (+ a b) (+ a c)) (natp b) (natp c) (= b c))",
                     "(implies (natp a) (= (< a b) 'nil) (= (+ b (- a b)) a))"):
            self.assertIs(linear(self.book, text).conclusion, formula(text))

    def test_lemmas_are_among_the_inequalities(self):
        self.book.prove_linear("one-more", "(implies (< a b) (< a (+ b '1)))")
        wanted = "(implies (< (car x) y) (< (car x) (+ y '2)))"
        fact = self.book.at("one-more", a="(car x)", b="(+ y '1)")
        self.assertIs(linear(self.book, wanted, [fact]).conclusion, formula(wanted))

    def test_what_does_not_follow(self):
        for text in ("(< a b)", "(implies (< a b) (< b a))", "(implies (natp a) (= a b))", "(consp x)",
                     "(implies (< a '50) (< a '49))"):
            with self.assertRaises(RuleError, msg=text):
                linear(self.book, text)

    def test_certificates(self):
        rows = [AtMost(term("(+ a '1)"), term("b")), AtMost(term("b"), term("a"))]
        self.assertEqual(certificate(rows), {0: 1, 1: 1})
        self.assertIsNone(certificate(rows[:1]))


class Rewriting(unittest.TestCase):
    @classmethod
    def setUpClass(cls):
        cls.book = Book()
        cls.book.equality_lemmas()
        cls.book.define("(app (x y) (if (consp x) (cons (car x) (app (cdr x) y)) y))", "(rank x)")
        cls.book.prove_by_list("app-associative", "(= (app (app x y) z) (app x (app y z)))", "x", unfold=["app"])
        cls.book.prove_by_list("app-of-nil", "(implies (logic.listp x) (= (app x 'nil) x))", "x",
                               unfold=["app", "logic.listp"], use=[cls.book.axiom_at(14)])
        cls.book.prove_by_list("listp-of-app", "(= (logic.listp (app x y)) (logic.listp y))", "x",
                               unfold=["app", "logic.listp"])
        cls.book.verify("sum-commutes", cls.book.axiom_at(28))
        cls.names = ["app-associative", "app-of-nil", "listp-of-app", "sum-commutes"]

    def test_conditions_are_rewritten(self):
        rules = [self.book.lemmas[name.upper()] for name in self.names]
        rewriter = Rewriter(self.book.theory, rules, [formula("(= (logic.listp y) 'nil)")])
        self.assertEqual(rewriter.term(term("(app (app x y) 'nil)")), term("(app x y)"))
        self.assertEqual([use.after for use in rewriter.trace][-1], term("y"))
        self.assertEqual(Rewriter(self.book.theory, rules).term(term("(app x 'nil)")), term("(app x 'nil)"))
        self.assertEqual(Rewriter(self.book.theory, rules).term(term("(+ b a)")), term("(+ a b)"))
        whole = term("(if (consp (cons a b)) (car (cons a b)) c)")
        self.assertEqual(Rewriter(self.book.theory, rules).term(whole), "A")

    def test_goals(self):
        for k, text in enumerate(("(implies (logic.listp y) (= (app (app x y) 'nil) (app x y)))",
                                  "(= (app (app (app a b) c) d) (app a (app b (app c d))))",
                                  "(implies (= a (app x y)) (= (app (app (app x y) z) w) (app a (app z w))))",
                                  "(= (cons (+ b a) (logic.listp (app x (app y z)))) (cons (+ a b) (logic.listp z)))")):
            self.book.prove_by_rewriting(f"rewritten-{k}", text, self.names)
        self.assertIn(" refused 0 ", list(Judge().report(self.book.text()))[-1])
        with self.assertRaises(Unproved):
            self.book.prove_by_rewriting("no", "(= (app x 'nil) x)", self.names)

    def test_what_is_no_rule(self):
        theory = self.book.theory
        for proof in (self.book.axiom_at(3), self.book.axiom_at(1), self.book.axiom_at(2)):
            with self.assertRaises(RuleError):
                as_rule(proof)
        back = commute_pequal(self.book.axiom_at(29))
        with self.assertRaises(RuleError):
            Rewriter(theory, [self.book.axiom_at(29), back]).term(term("(+ (+ a b) c)"))


class Measures(unittest.TestCase):
    def test_sums_and_lexicographic_pairs(self):
        book = Book()
        book.equality_lemmas()
        book.define("(merge (x y) (if (consp x) (if (consp y) (if (< (car y) (car x)) (cons (car y) (merge x (cdr y)))"
                    " (cons (car x) (merge (cdr x) y))) x) y))", "(+ (rank x) (rank y))")
        book.define("(gcd (a b) (if (< 0 a) (if (< 0 b) (if (< a b) (gcd a (- b a)) (gcd (- a b) b)) a) b))", "(+ a b)")
        book.define("(down (n m) (if (< 0 n) (if (< 0 m) (down n (- m 1)) (down (- n 1) n)) 0))",
                    lexicographic("n", "m"))
        book.define("(walk (x y) (if (consp x) (if (consp y) (walk x (cdr y)) (walk (car x) x)) y))",
                    lexicographic("(rank x)", "(rank y)"))
        self.assertIn(" refused 0 ", list(Judge().report(book.text()))[-1])
        with self.assertRaises(RuleError):
            book.define("(up (a b) (if (< a b) (up (+ a 1) b) a))", "(+ a b)")
        with self.assertRaises(RuleError):
            book.define("(round (x y) (if (consp x) (round y x) y))", lexicographic("(rank x)", "(rank y)"))

    def test_induction_as_a_function_recurs(self):
        book = Book()
        book.equality_lemmas()
        book.define("(shuffle (x y) (if (consp x) (cons (car x) (shuffle y (cdr x))) y))", "(+ (rank x) (rank y))")
        goal = "(= (rank (shuffle x 'nil)) (rank (shuffle x 'nil)))"
        book.prove_by_call("shuffled", "(implies (= (consp y) 'nil) (consp x) (consp (shuffle x y)))", "(shuffle x y)")
        for call in ("(shuffle x x)", "(shuffle x (cdr y))", "(cons x y)", "x", "(logic.len x)"):
            with self.assertRaises(RuleError, msg=call):
                book.prove_by_call("none", goal, call)
        self.assertIn(" refused 0 ", list(Judge().report(book.text()))[-1])


if __name__ == "__main__":
    unittest.main()
