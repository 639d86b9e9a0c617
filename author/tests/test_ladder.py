"""The last three levels of the ladder: lists of steps, values by the machine, traces; what they refuse."""
import unittest

import support
from milawa_author import Book, RuleError, Theory, formula, prove, term
from milawa_author.logic.kernel import axiom, expansion, further, packed, propositional_schema
from milawa_author.logic.measures import distinct_steps, tree_steps
from milawa_author.logic.moves import extras_of, run
from milawa_author.logic.objects import cons, items, make_list
from milawa_author.logic.terms import quote
from milawa_author.logic.text import read, write
from milawa_author.prover.traces import rewrite_test, rewritten, says
from milawa_author.rules.disjunctions import resolve, subset

XX = formula("(= x x)")


class Lists(unittest.TestCase):
    def shared(self, theory):
        proof, ab = axiom(theory, XX), formula("(= a b)")
        for _ in range(3):
            proof = resolve(expansion(ab, proof), expansion(formula("(!= a b)"), proof), ab)
        return proof

    def test_each_step_stands_once(self):
        theory = Theory()
        with self.assertRaises(RuleError):
            packed(axiom(theory, XX))
        theory.set_methods({"SHARED": lambda *_: None}, 2)
        proof = self.shared(theory)
        one = packed(proof)
        self.assertEqual(one.conclusion, XX)
        self.assertEqual(len(items(one.extras)), len(distinct_steps([proof])))
        self.assertEqual(tree_steps([one]), len(distinct_steps([proof])) + 1)
        self.assertLess(tree_steps([one]), tree_steps([proof]))

    def test_wrong_numbers_are_refused(self):
        judge = support.judge_above()
        step = "(verify s (pequal* x x) (shared (pequal* x x) nil {}))"
        for steps, fate in (("((axiom (pequal* x x)))", "accepted"),
                            ("((axiom (pequal* x x)) (expansion #1=(por* (pequal* a b) (pequal* x x)) (0))"
                             " (axiom (pequal* x x)))", "accepted"),
                            ("((axiom (pequal* x x)) (expansion (por* (pequal* a b) (pequal* x x)) (1))"
                             " (axiom (pequal* x x)))", "refused NIL"),
                            ("nil", "refused NIL"), ("((axiom (pequal* x y)))", "refused NIL"),
                            ("((axiom (pequal* x x)) (expansion (por* (pequal* a b) (pequal* x x)) (0)))",
                             "refused NIL")):
            self.assertEqual(judge.event(read(step.format(steps))), fate, steps)


class Computing(unittest.TestCase):
    def test_the_machine_computes_what_runs_do(self):
        from milawa_author.logic.machine import Machine
        theory = Theory()
        for text in ("(logic.len '(1 2 3))", "(if nil 1 (let ((x 2)) (+ x x)))", "(logic.memberp 'b '(a b))",
                     "(rank '((1 . 2) 3))", "'5", "(ordp '((1 . 1) . 0))", "(logic.lookup 'b '((a . 1) (b . 2)))"):
            value, moves, names = run(theory, term(text))
            self.assertEqual(value, quote(Machine(theory).value(term(text))[0]), text)
            self.assertIsNone(run(theory, term(text), moves - 1))
            self.assertLessEqual(set(names), set(theory.definitions))
        self.assertIsNone(run(theory, term("(logic.provablep 1 2 3 4)")))

    def test_wrong_values_are_refused(self):
        judge = support.judge_above()
        t, value = term("(logic.len '(1 2 3))"), term("3")
        _, extras = extras_of(judge.theory, t)
        moves, *names = items(extras)
        event = "(verify v (pequal* {0} {1}) (compute (pequal* {0} {1}) nil {2}))"
        for left, right, given, fate in (
                (t, value, extras, "accepted"), (t, term("4"), extras, "refused NIL"),
                (t, value, make_list(moves + 9, *names), "accepted"),
                (t, value, make_list(moves - 1, *names), "refused NIL"),
                (t, value, make_list(moves), "refused NIL"), (term("(logic.len x)"), value, extras, "refused NIL"),
                (t, value, make_list(moves, "CONS", *names), "refused NIL"), ("X", "X", extras, "refused NIL")):
            text = event.format(write(left), write(right), write(given))
            self.assertEqual(judge.event(read(text)), fate, text)


class Traces(unittest.TestCase):
    goal = formula("(or (!= a b) (= (car b) (car a)))")

    def traces(self):
        """Traces, with what they say under the goal: T, a formula, or None."""
        ab = formula("(= a b)")
        grant, deny = make_list("GRANT", ab), make_list("DENY", formula("(= (car b) (car a))"))
        same = make_list("CONGRUENCE", term("(car a)"), make_list(grant))
        turned = make_list("CHAIN", term("(car b)"), make_list(same))
        fact = make_list("AXIOM", cons(formula("(!= 't 'nil)"), "NIL"))
        return [(grant, ab), (deny, formula("(!= (car b) (car a))")), (same, formula("(= (car a) (car b))")),
                (turned, formula("(= (car b) (car a))")), (make_list("UNIT", "NIL", make_list(deny, turned)), "T"),
                (make_list("UNIT", "NIL", make_list(deny, same)), None), (make_list("GRANT", formula("(= b a)")), None),
                (make_list("DENY", ab), None), (make_list("CHAIN", term("(car b)"), "NIL"), None),
                (fact, fact.rest.first.first),
                (make_list("AXIOM", cons(ab, "NIL")), None), (make_list("APPLY", term("(car a)")), None),
                (make_list("APPLY", term("(car 'nil)")), formula("(= (car 'nil) 'nil)")), (make_list("NONE"), None),
                (make_list("ASSUME", ab, make_list("UNIT", "NIL", make_list(make_list("DENY", ab), grant))), ab),
                (make_list("ASSUME", ab, grant), None), ("DENY", None), (make_list("AXIOM", "X"), None),
                (make_list("SAME", term("(car a)")), formula("(= (car a) (car a))")), (make_list("SAME", 7), None),
                (make_list("SAME", read("(nothing a)")), None), (make_list("BETA", "X"), None),
                (make_list("APPLY", "X"), None), (make_list("COMPUTE", "X"), None),
                (make_list("COMPUTE", make_list(term("(cons 1 2)"), 9)), formula("(= (cons '1 '2) '(1 . 2))")),
                (make_list("COMPUTE", make_list("A", 9)), None), (make_list("CONGRUENCE", "X", "NIL"), None),
                (make_list("ASSUME", read("(nothing a)"), "NIL"), None),
                (make_list("AXIOM", cons(formula("(= x x)"), read("((x . (nothing a)))"))), None),
                (make_list("AXIOM", cons(formula("(= x x)"), read("((x . a))"))), formula("(= a a)"))]

    def test_what_traces_say(self):
        theory = Theory()
        for trace, said in self.traces():
            self.assertEqual(says(theory, trace, self.goal), said, trace)

    def test_the_checker_says_the_same(self):
        judge = support.judge_above()
        for trace, said in self.traces():
            event = make_list("VERIFY", "V", self.goal, make_list("REWRITE", self.goal, "NIL", trace))
            self.assertEqual(judge.event(event), "accepted" if said == "T" else "refused NIL", trace)

    def give_methods(self, theory):
        """Gives a theory the methods of the last level; the test of REWRITE alone is asked."""
        methods = dict.fromkeys(support.ladder().theory.methods, lambda *_: None)
        theory.set_methods({**methods, "REWRITE": rewrite_test(theory)}, 2)

    def test_proofs_become_one_step(self):
        book = Book()
        book.equality_lemmas()
        self.give_methods(book.theory)
        proof = book.prove("p", "(implies (consp x) (= y (cdr x)) (= (cons (car x) y) x))", use=[book.axiom_at(14)])
        self.assertEqual(proof.method, "THEOREM")
        self.assertEqual(book.events[-1].proofs[0].method, "REWRITE")
        self.assertEqual(book.sizes(len(book.events) - 1).steps, 1)

    def test_proofs_by_the_twelve_methods_have_traces(self):
        for goal in ("(implies (consp x) (= y (cdr x)) (= (cons (car x) y) x))", "(= (if x (car (cons x y)) nil) x)",
                     "(implies (= a b) (= b c) (= (cons c a) (cons a b)))", "(= (car (if (consp '(1)) '(2) x)) '2)",
                     "(or (not (or (= a b) (= c d) (!= a e))) (= c d) (= a b) (!= e a))"):
            book = Book()
            book.equality_lemmas()
            proof = prove(book.theory, goal, use=[book.axiom_at(14)])
            book.theory.set_methods({"REWRITE": rewrite_test(book.theory)}, 2)
            self.assertEqual(rewritten(proof).method, "REWRITE", goal)

    def test_what_has_no_trace_stays(self):
        theory = Theory()
        self.give_methods(theory)
        schema = propositional_schema(theory, formula("(= a b)"))
        self.assertIs(rewritten(schema), schema)
        one = rewritten(subset(schema, formula("(or (= c d) (= a b) (!= a b))")))
        self.assertEqual(one.method, "REWRITE")
        with self.assertRaises(RuleError):
            further(Theory(), "REWRITE", XX, [], "NIL")


if __name__ == "__main__":
    unittest.main()
