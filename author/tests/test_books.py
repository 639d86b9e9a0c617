"""The library and the ladder: accepted by the program and by the judge in Python, with the same number of units."""
import tempfile
import unittest
from pathlib import Path

import support
from milawa_author import Book, EventError, ProgramMissing, Refused
from milawa_author.judge import Judge
from milawa_author.ladder.levels import make_ladder
from milawa_author.logic.kernel import axiom
from milawa_author.logic.text import write
from milawa_author.program import find_program, run_program


# A program that refuses the first event of every book, and says why.
STAND_IN = """#!/bin/sh
case "$1" in
--help) echo "milawa explain [--steps N]";;
check) echo "1 EVAL - refused STEPS"; echo "events 1 accepted 0 refused 1 level 1"; exit 1;;
explain) echo "; 1 EVAL - refused STEPS"; echo "(WHY 1 STEPS)"; exit 1;;
esac
"""


def text_of(forms):
    return "".join(write(form) + "\n" for form in forms)


class Books(unittest.TestCase):
    @support.needs_program
    def test_library_is_accepted(self):
        self.assertIn("refused 0", support.library().check().summary)

    @support.needs_program
    def test_library_is_flat_and_rechecked(self):
        book = support.library()
        flat = run_program("flat", text=book.text())
        judged = run_program("recheck", text="\n".join(flat.lines) + "\n")
        count = len(book.events)
        self.assertEqual(judged.summary, f"events {count} yes {count} no 0 left 0")

    def test_library_has_150_theorems(self):
        names = {e.form.rest.first for e in support.library().events if e.form.first == "VERIFY"}
        self.assertGreaterEqual(len(names), 150)

    def test_library_under_the_last_level_takes_a_twentieth_of_the_steps(self):
        book, start = support.library_above()
        self.assertLess(20 * book.sizes(start).steps, support.library().sizes().steps)
        if support.PROGRAM:
            self.assertIn(" refused 0 ", book.check().summary)

    @support.needs_program
    def test_library_by_way_of_lower(self):
        import library
        lowered = run_program("lower", text=library.make(for_lower=True, last="lists").text())
        self.assertIn(" refused 0 ", lowered.summary)
        checked = run_program("check", text="\n".join(lowered.lines))
        self.assertIn(" refused 0 ", checked.summary)

    @support.needs_program
    def test_ladder_is_accepted_at_the_default_limit(self):
        self.assertTrue(support.ladder().check().summary.endswith("refused 0 level 9"))

    @support.needs_program
    def test_what_a_level_takes_the_level_before_refuses(self):
        forms, events = [], support.ladder_events()
        for k, event in enumerate(events):
            if event.form.first == "SWITCH":
                forms.append(events[k + 1].form)        # what the level is used for, before the switch to it
            forms.append(event.form)
        report = run_program("check", text=text_of(forms))
        ends = support.ends_of_levels()
        self.assertEqual([line.split()[-1] for line in report.refused], ["PROOF"] + ["NIL"] * (len(ends) - 1))
        names = [events[end - 1].form.rest.first for end in ends.values()]
        self.assertEqual([line.split()[2] for line in report.refused], names)
        self.assertTrue(report.summary.endswith(f"refused {len(ends)} level {max(ends)}"))

    def test_each_level_takes_what_the_one_before_refuses(self):
        judge, events, done = Judge(), support.ladder_events(), 0
        for level, end in support.ends_of_levels().items():
            for event in events[done:end - 2]:
                judge.skip(event.form)
            used, done = events[end - 1].form, end
            self.assertEqual(judge.event(used), "refused PROOF" if level == 2 else "refused NIL")
            self.assertEqual(judge.event(events[end - 2].form), "accepted")
            self.assertEqual(judge.event(used), "accepted")
            self.assertEqual(judge.theory.level, level)

    def test_other_levels_are_told(self):
        for level in (1, 10):
            with self.assertRaises(EventError):
                make_ladder(level)


class Units(unittest.TestCase):
    @support.needs_program
    def test_units_are_those_of_the_program(self):
        forms = [e.form for e in support.ladder_events()[:support.ends_of_levels()[2] + 30]]
        judge, most, place = Judge(), 0, 0
        for k, form in enumerate(forms):
            judge.units = 0
            self.assertEqual(judge.event(form), "accepted")
            if judge.units > most:
                most, place = judge.units, k
        report = run_program("check", "--steps", str(most), text=text_of(forms[:place + 1]))
        self.assertEqual(report.refused, [])
        report = run_program("check", "--steps", str(most - 1), text=text_of(forms[:place + 1]))
        self.assertEqual([line.split()[-1] for line in report.refused], ["STEPS"])
        self.assertTrue(report.refused[0].startswith(f"{place + 1} "))


class Programs(unittest.TestCase):
    def test_a_missing_program_is_told(self):
        with self.assertRaises(ProgramMissing) as caught:
            find_program("/nowhere/milawa")
        self.assertIn("MILAWA", str(caught.exception))

    @support.needs_program
    def test_a_refusal_names_the_line(self):
        book = Book()
        book.eval("(logic.provable-witness '1 '2 '3 '4)")
        with self.assertRaises(Refused) as caught:
            book.check()
        self.assertIn("1 EVAL - refused WITNESS", str(caught.exception))
        self.assertIn("test_books.py:", str(caught.exception))

    def test_a_refusal_says_why_where_the_program_does(self):
        book = Book()
        book.eval("(+ '1 '1)")
        with tempfile.TemporaryDirectory() as folder:
            stand_in = Path(folder, "milawa")
            stand_in.write_text(STAND_IN)
            stand_in.chmod(0o755)
            with self.assertRaises(Refused) as caught:
                book.check(path=str(stand_in))
        self.assertIn("1 EVAL - refused STEPS\n", str(caught.exception))
        self.assertIn("(WHY 1 STEPS)", str(caught.exception))

    @support.needs_program
    def test_events_of_each_kind(self):
        book = Book()
        book.equality_lemmas()
        book.define_all([("(ev (x) (if (consp x) (od (cdr x)) t))", "(rank x)"),
                         ("(od (x) (if (consp x) (ev (cdr x)) nil))", "(rank x)")])
        book.skolem("pick", "y", ["x"], "(equal (car y) x)")
        book.eval("(list (ev '(1 2)) (od '(1 2)) '|a b| ''c)")
        book.print("(1 . (2 . 3))")
        book.prove_tautology("either", "(or (= a b) (!= a b))")
        self.assertEqual(list(Judge().report(book.text())), book.check().lines)

    def test_the_second_profile(self):
        book = Book()
        book.print("x")
        book.profile(1)
        book.profile(2)
        book.equality_lemmas()
        for number in range(1, 61):
            book.verify(f"axiom-{number}", book.axiom_at(number))
        for definition in list(book.theory.definitions.values()):
            book.verify(definition.name, axiom(book.theory, definition.axiom()))
        for k, text in enumerate(("(* 6 7)", "(logic.apply '* '(6 7))", "(logic.primitivep '*)")):
            book.evaluate(f"value-{k}", text)
        book.define("(square (n) (* n n))")
        book.prove("natp-of-square", "(= (natp (square n)) 't)", unfold=["square"],
                   use=[book.axiom_at(54, a="n", b="n")])
        book.eval("(* 6 (* 7 'a))")
        for refused in (book, Book()):
            with self.assertRaises(EventError) as caught:
                refused.profile(2 if refused is book else 3)
            self.assertEqual(caught.exception.word, "PROFILE")
        texts = [book.text(), "(profile 2) (profile 1) (profile 2) (eval (* 3 4))"
                 f"(eval (* {2 ** 128 - 1} 2)) (define * (a) a nil nil)",
                 "(define * (a) (cons a a) nil nil) (eval (* 3))"]
        for text in texts:
            lines = list(Judge().report(text))
            if support.PROGRAM:
                self.assertEqual(run_program("check", text=text).lines, lines)
        self.assertIn(" refused 0 ", list(Judge().report(texts[0]))[-1])


if __name__ == "__main__":
    unittest.main()
