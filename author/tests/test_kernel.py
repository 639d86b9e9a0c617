"""The twelve methods: what they prove, what they refuse, and that nothing else makes a proof."""
import unittest

import support
from milawa_author import Book, Proof, RuleError, Theory, formula, term
from milawa_author.errors import EventError
from milawa_author.logic import kernel
from milawa_author.logic.kernel import (associativity, axiom, base_eval, beta_reduction, contraction, cut, expansion,
                                        functional_equality, induction, instantiation, propositional_schema, theorem)
from milawa_author.logic.measures import distinct_steps, tree_steps
from milawa_author.logic.objects import make_list
from milawa_author.logic.replay import replay
from milawa_author.logic.terms import equation, quote
from milawa_author.logic.text import read


def one_of_each(book):
    """A proof by each of the methods but INDUCTION, by name."""
    t, xx = book.theory, axiom(book.theory, formula("(= x x)"))
    ab = formula("(= a b)")
    book.verify("axiom", xx)
    return {
        "theorem": theorem(t, formula("(= x x)")), "schema": propositional_schema(t, ab),
        "expansion": expansion(ab, xx),
        "cut": cut(expansion(ab, xx), propositional_schema(t, ab)),
        "contraction": contraction(expansion(formula("(= x x)"), xx)),
        "associativity": associativity(expansion(ab, expansion(ab, xx))),
        "functional": functional_equality(t, "CONS", ["A", "B"], ["C", "D"]),
        "functional-of-same": functional_equality(t, "IF", ["A", "B", "C"], ["A", "B", "C"]),
        "beta": beta_reduction(t, term("(let ((x (car y)) (y x)) (cons x y))")),
        "base": base_eval(t, term("(- '2 '5)")),
        "swap": instantiation(axiom(t, formula("(= (+ a b) (+ b a))")), {"A": "B", "B": "A"}),
    }


class Methods(unittest.TestCase):
    def setUp(self):
        self.theory = Theory()
        self.xx = axiom(self.theory, formula("(= x x)"))

    def refused(self, rule, call, *arguments):
        with self.assertRaises(RuleError) as caught:
            call(*arguments)
        self.assertEqual(caught.exception.rule, rule)
        self.assertTrue(str(caught.exception).startswith(rule + ": "))

    def test_proofs_cannot_be_forged(self):
        f = formula("(= x y)")
        with self.assertRaises(TypeError):
            Proof(None, self.theory, "AXIOM", f, (), "NIL", make_list("AXIOM", f))
        with self.assertRaises(TypeError):
            self.xx.conclusion = f
        with self.assertRaises(TypeError):
            del self.xx.conclusion
        with self.assertRaises(TypeError):
            Book().verify("forged", f)

    def test_theories_do_not_mix(self):
        other = axiom(Theory(), formula("(= x x)"))
        self.refused("CUT", cut, expansion(formula("(= a b)"), self.xx),
                     propositional_schema(other.theory, formula("(= a b)")))
        self.refused("VERIFY", Book().verify, "other", other)

    def test_what_is_assumed_enters_no_book(self):
        book = Book()
        book.theory.assume(formula("(= x y)"))
        with self.assertRaises(EventError):
            book.verify("false", theorem(book.theory, formula("(= x y)")))

    def test_refusals(self):
        t = self.theory
        self.refused("AXIOM", axiom, t, formula("(= x y)"))
        self.refused("THEOREM", theorem, t, formula("(= x x)"))
        self.refused("CONTRACTION", contraction, self.xx)
        self.refused("ASSOCIATIVITY", associativity, self.xx)
        self.refused("CUT", cut, self.xx, self.xx)
        self.refused("CUT", cut, expansion(formula("(= a b)"), self.xx), self.xx)
        self.refused("BASE-EVAL", base_eval, t, term("(car x)"))
        self.refused("BASE-EVAL", base_eval, t, term("(rank '1)"))
        self.refused("BASE-EVAL", base_eval, t, "X")
        self.refused("BASE-EVAL", base_eval, t, term("(car '1 '2)"))
        self.refused("BETA-REDUCTION", beta_reduction, t, term("(car x)"))
        self.refused("INSTANTIATION", instantiation, self.xx, {"T": quote(1)})
        self.refused("INSTANTIATION", instantiation, self.xx, {"X": make_list("CAR", "X", "Y")})
        self.refused("FUNCTIONAL-EQUALITY", functional_equality, t, "CAR", ["X", "Y"], ["X", "Y"])
        self.refused("FUNCTIONAL-EQUALITY", functional_equality, t, "CAR", ["X"], ["X", "Y"])
        self.refused("FUNCTIONAL-EQUALITY", functional_equality, t, "car", ["X"], ["X"])
        self.refused("FUNCTIONAL-EQUALITY", functional_equality, t, "QUOTE", ["X"], ["Y"])
        self.refused("FUNCTIONAL-EQUALITY", functional_equality, t, read("(lambda (x) x)"), ["X"], ["Y"])
        self.refused("PROPOSITIONAL-SCHEMA", propositional_schema, t, make_list("POR*", "X", "Y"))
        self.refused("EXPANSION", expansion, equation("X", term("(nothing x)")), self.xx)
        self.refused("INDUCTION", induction, formula("(= x x)"), quote(0), [], [self.xx])

    def test_malformed_terms(self):
        for text in ("(car)", "(quote)", "(quote 1 2)", "((lambda (x) y) 1)", "((lambda (x x) x) 1 2)",
                     "((lambda (t) 1) 2)", "((lambda (x) x))", "((lambda x x) 1)", "(car . x)", "t", "nil", "7",
                     "(nothing x)", "((car) x)",
                     "((lambda (x) (car x x)) y)"):
            with self.assertRaises(RuleError, msg=text):
                self.theory.check_term(read(text))
        for text in ("x", "(por* x y)", "(pequal* x)", "(pnot* (pequal* x y) (pequal* x y))", "(pequal* x (por* y z))",
                     "7", "(pnot* . x)", "(pnot* x)"):
            with self.assertRaises(RuleError, msg=text):
                self.theory.check_formula(read(text))

    def test_a_formula_is_not_a_term(self):
        e = "(pequal* a b)"
        self.theory.check_formula(read(e))
        for text in (f"(pequal* x {e})", f"(por* {e} (pequal* x {e}))", f"(por* (pequal* {e} x) {e})"):
            with self.assertRaises(RuleError, msg=text):
                self.theory.check_formula(read(text))
        with self.assertRaises(RuleError):
            self.theory.check_term(read(e))
        self.theory.check_term(read("(car a)"))
        with self.assertRaises(RuleError):
            self.theory.check_formula(read("(por* (pequal* x (car a)) (car a))"))

    def test_deep_terms_and_formulas(self):
        t, f = "X", self.xx.conclusion
        for _ in range(20000):
            t, f = make_list("CAR", t), make_list("PNOT*", f)
        self.theory.check_formula(equation(t, t))
        self.assertIs(propositional_schema(self.theory, f).conclusion.rest.rest.first, f)
        deep = instantiation(self.xx, {"X": t})
        self.assertIs(deep.conclusion, equation(t, t))

    def test_each_method_is_replayed(self):
        book = Book()
        for name, proof in one_of_each(book).items():
            self.assertIs(replay(book.theory, proof.object), proof, name)

    @support.needs_program
    def test_each_method_is_accepted(self):
        book = Book()
        for name, proof in one_of_each(book).items():
            book.verify(name, proof)
        report = book.check()
        self.assertEqual(report.summary, f"events {len(book.events)} accepted {len(book.events)} refused 0 level 1")

    @support.needs_program
    def test_tables_are_those_of_the_program(self):
        book = Book()
        for k, f in enumerate(book.theory.primitive_axioms, 1):
            book.verify(f"axiom-{k}", axiom(book.theory, f))
        for name, entry in list(book.theory.definitions.items()):
            book.verify(name, axiom(book.theory, entry.axiom()))
        self.assertEqual(len(book.events), 107)
        book.check()


class Measures(unittest.TestCase):
    def test_steps_as_trees_and_distinct_ones(self):
        theory = Theory()
        start = expansion(formula("(= x x)"), axiom(theory, formula("(= x x)")))
        proof = cut(start, propositional_schema(theory, formula("(= x x)")))        # x = x or x = x
        proof = contraction(proof)
        both = kernel.cut(expansion(formula("(= a b)"), proof),
                          expansion(formula("(not (= a b))"), proof))
        self.assertEqual(len(distinct_steps([both])), 8)
        self.assertEqual(tree_steps([both]), 13)


if __name__ == "__main__":
    unittest.main()
