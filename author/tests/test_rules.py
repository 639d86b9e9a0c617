"""Derived rules, by pattern and over whole disjunctions; tautologies; the tests of the ladder's methods."""
import unittest

import support  # noqa: F401
from milawa_author import RuleError, Theory, formula, term
from milawa_author.ladder.chains import chain_test
from milawa_author.ladder.congruence import congruence_test
from milawa_author.ladder.disjunctions import subset_test
from milawa_author.ladder.refutation import unit_test
from milawa_author.logic.kernel import axiom, further, theorem
from milawa_author.logic.objects import items, make_list
from milawa_author.logic.terms import equation, literals
from milawa_author.logic.text import write
from milawa_author.rules import propositional
from milawa_author.rules.arithmetic import equal_sums
from milawa_author.rules.disjunctions import resolve, subset
from milawa_author.rules.instances import primitive_axiom
from milawa_author.rules.lowering import lower_methods
from milawa_author.rules.schemes import SCHEMES, rule
from milawa_author.rules.tautology import tautology


def on_letters(scheme, theory):
    """The rule applied to its own patterns, each letter for formulas an equation of its own."""
    found = {}

    def bind(pattern, of_terms):
        if isinstance(pattern, str):
            found.setdefault(pattern, pattern if of_terms else equation(pattern, pattern + "1"))
        else:
            for part in items(pattern)[1:]:
                bind(part, pattern.first == "PEQUAL*")

    for pattern in scheme.premises + [scheme.conclusion]:
        bind(pattern, False)
    premises = []
    for pattern in scheme.premises:
        theory.assume(scheme.fill(pattern, found))
        premises.append(theorem(theory, scheme.fill(pattern, found)))
    proof = scheme.apply(*(premises or [theory]), *[found[g] for g in scheme.given])
    return proof, scheme.fill(scheme.conclusion, found)


def assumed(theory, *texts):
    proofs = []
    for text in texts:
        theory.assume(formula(text))
        proofs.append(theorem(theory, formula(text)))
    return proofs


class Rules(unittest.TestCase):
    def test_each_rule_derives_its_conclusion(self):
        for name, scheme in SCHEMES.items():
            with self.subTest(name):
                proof, conclusion = on_letters(scheme, Theory())
                self.assertIs(proof.conclusion, conclusion)

    def test_each_rule_is_one_step_where_the_checker_has_it(self):
        for name, scheme in SCHEMES.items():
            with self.subTest(name):
                theory = Theory()
                theory.set_methods({name: scheme.test}, 2)
                proof, conclusion = on_letters(scheme, theory)
                self.assertIs(proof.conclusion, conclusion)
                self.assertEqual(proof.method, name)

    def test_a_wrong_premise_is_named(self):
        theory = Theory()
        with self.assertRaises(RuleError) as caught:
            propositional.commute_or(axiom(theory, formula("(= x x)")))
        self.assertEqual(caught.exception.rule, "COMMUTE-OR")
        self.assertIn("(por* a b)", str(caught.exception))

    def test_missing_arguments_are_told(self):
        theory = Theory()
        with self.assertRaises(RuleError) as caught:
            propositional.right_expansion(axiom(theory, formula("(= x x)")))
        self.assertIn("takes 1 proofs and then 1", str(caught.exception))

    def test_a_wrong_derivation_is_told(self):
        @rule("(por* a b)", gives="(por* b b)")
        def wrong(proof):
            return proof
        self.addCleanup(SCHEMES.pop, "WRONG")
        [premise] = assumed(Theory(), "(or (= a b) (= c d))")
        with self.assertRaises(RuleError):
            wrong(premise)

    def test_subset_and_resolve(self):
        theory = Theory()
        f, g = assumed(theory, "(or (= a b) (= c d))", "(or (not (= c d)) (= e f))")
        proof = resolve(f, g, formula("(= c d)"))
        self.assertEqual(set(literals(proof.conclusion)), {formula("(= a b)"), formula("(= e f)")})
        with self.assertRaises(RuleError) as caught:
            subset(f, formula("(= a b)"))
        self.assertIs(caught.exception.formula, formula("(= c d)"))
        with self.assertRaises(RuleError):
            resolve(g, f, formula("(= c d)"))

    def test_subset_of_a_long_disjunction(self):
        theory = Theory()
        parts = [f"(= x{k} y)" for k in range(60)]
        [proof] = assumed(theory, f"(or {' '.join(parts)})")
        wanted = formula(f"(or {' '.join(reversed(parts))} (= a b))")
        self.assertIs(subset(proof, wanted).conclusion, wanted)

    def test_tautologies(self):
        theory = Theory()
        for text, is_true in (("(or (= a b) (not (= a b)))", True), ("(or (= a b) (= b a))", False),
                              ("(or (not (or (= a b) (= c d))) (= c d) (= a b))", True),
                              ("(not (= a b))", False), ("(or (not (not (not (= a b)))) (= a b))", True)):
            if is_true:
                self.assertIs(tautology(theory, formula(text)).conclusion, formula(text))
            else:
                with self.assertRaises(RuleError, msg=text):
                    tautology(theory, formula(text))

    def test_sums(self):
        theory = Theory()
        t, u = term("(+ (+ a b) (+ c d))"), term("(+ d (+ a (+ c b)))")
        self.assertIs(equal_sums(theory, t, u).conclusion, equation(t, u))
        with self.assertRaises(RuleError):
            equal_sums(theory, t, term("(+ a b)"))

    def test_axioms_by_number(self):
        for number in (0, 54):
            with self.assertRaises(RuleError):
                primitive_axiom(Theory(), number)


class Methods(unittest.TestCase):
    def test_further_methods_check_their_steps(self):
        theory = Theory()
        theory.set_methods({"UNIT": unit_test, "CHAIN": chain_test, "CONGRUENCE": congruence_test,
                            "SUBSET": subset_test}, 2)
        ab, cb, clause = assumed(theory, "(= a b)", "(= c b)", "(or (!= a b) (= x y))")
        self.assertEqual(write(further(theory, "CHAIN", formula("(= a c)"), [ab, cb]).conclusion), "(pequal* a c)")
        unit = further(theory, "UNIT", formula("(= x y)"), [clause, ab], make_list(formula("(!= a b)")))
        self.assertEqual(unit.methods, {"UNIT"})
        further(theory, "CONGRUENCE", formula("(= (cons a x) (cons b x))"), [ab])
        for method, text, premises, extras in (
                ("CHAIN", "(= a d)", [ab, cb], "NIL"), ("CHAIN", "(= a a)", [], "NIL"),
                ("UNIT", "(= x y)", [clause], make_list(formula("(!= a b)"))),
                ("UNIT", "(= x y)", [clause, cb], make_list(formula("(!= a b)"))),
                ("CONGRUENCE", "(= (cons a x) (cons b y))", [ab], "NIL"),
                ("CONGRUENCE", "(= (car a) (cdr b))", [ab], "NIL"),
                ("SUBSET", "(= x y)", [clause], "NIL"), ("RESOLVE", "(= x y)", [clause], "NIL")):
            with self.assertRaises(RuleError, msg=(method, text)):
                further(theory, method, formula(text), premises, extras)

    def test_rules_of_the_command_lower(self):
        theory = Theory()
        theory.set_methods(lower_methods())
        ab, bc = assumed(theory, "(= a b)", "(= b c)")
        further(theory, "SYMMETRY", formula("(= b a)"), [ab])
        further(theory, "TRANSITIVITY", formula("(= a c)"), [ab, bc])
        further(theory, "REPLACE", formula("(= (cons a b) (cons b c))"), [ab, bc])
        for method, text, premises in (("SYMMETRY", "(= a b)", [ab]), ("TRANSITIVITY", "(= a c)", [bc, ab]),
                                       ("REPLACE", "(= (cons a b) (cons b c))", [ab]),
                                       ("REPLACE", "(= (car a) (cdr b))", [ab])):
            with self.assertRaises(RuleError, msg=(method, text)):
                further(theory, method, formula(text), premises)


if __name__ == "__main__":
    unittest.main()
