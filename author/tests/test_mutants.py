"""A hundred mutants of each book: the program and the judge in Python say the same of each, and of what it brings."""
import random
import unittest

import support
from milawa_author.errors import EventError
from milawa_author.judge import Judge
from milawa_author.logic.objects import Pair, cons, items, make_list, member
from milawa_author.logic.text import read_all, write
from milawa_author.program import run_program

MUTANTS = 100


def parts_of(form):
    """All distinct parts of an object."""
    seen, work = {}, [form]
    while work:
        x = work.pop()
        if x not in seen:
            seen[x] = None
            if isinstance(x, Pair):
                work += [x.rest, x.first]
    return list(seen)


def replaced(rng, x, parts):
    """The object with one place, chosen by going down at random, changed."""
    path = []
    while isinstance(x, Pair) and rng.random() < 0.93:
        goes_first = rng.random() < 0.5
        path.append((x, goes_first))
        x = x.first if goes_first else x.rest
    kind = rng.randrange(4)
    if kind == 0 and isinstance(x, Pair) and isinstance(x.rest, Pair):
        x = cons(x.rest.first, cons(x.first, x.rest.rest))          # two members change places
    elif kind == 1 and isinstance(x, Pair):
        x = x.rest                                                  # a member is left out
    elif kind == 2 and isinstance(x, int):
        x += 1
    else:
        x = rng.choice(parts)                                       # another part of the event stands there
    for pair, goes_first in reversed(path):
        x = cons(x, pair.rest) if goes_first else cons(pair.first, x)
    return x


def mutant(rng, form, number):
    """An event with one place changed.  A definition gets a name of its own, so that the book can go on."""
    changed = replaced(rng, form, parts_of(form))
    members = items(changed)
    if form.first in ("DEFINE", "SKOLEM") and members and len(members) > 2:
        changed = make_list(members[0], f"MUTANT-{number}", *members[2:])
    return changed


class Course:
    """A book with mutants, as the judge in Python sees it: the events so far, and the fate of each."""

    def __init__(self):
        self.judge, self.forms, self.fates = Judge(), [], []

    def add(self, form, is_judged=True):
        """Adds an event; one that is not judged is right, and only changes the theory."""
        self.forms.append(form)
        if is_judged or form.first in ("SWITCH", "EVAL", "PRINT"):
            self.fates.append(self.judge.event(form))
            return
        try:
            self.judge.skip(form)
            self.fates.append("accepted")
        except EventError as why:
            self.fates.append(f"refused {why.word}")

    def add_mutant(self, form):
        """Adds a mutant, and after it an event that cites what it would bring: that is there only if it was accepted."""
        known = len(self.judge.theory.definitions)
        self.add(form)
        if isinstance(form, Pair) and form.first == "VERIFY":
            brought = member(form, 2)
            self.add(make_list("VERIFY", "BROUGHT", brought, make_list("THEOREM", brought)))
        for definition in list(self.judge.theory.definitions.values())[known:]:
            self.add(make_list("VERIFY", "BROUGHT", definition.axiom(), make_list("AXIOM", definition.axiom())))


def course_with_mutants(forms, seed, are_right):
    """The course of a book, with a mutant before some of its events; and how many mutants were refused.  Events that are
    right are not judged again in Python, for time."""
    rng, chosen, course, refused = random.Random(seed), {}, Course(), 0
    for number in range(MUTANTS):
        at = rng.randrange(len(forms))
        chosen.setdefault(at, []).append(mutant(rng, forms[at], number))
    for at, form in enumerate(forms):
        for changed in chosen.get(at, []):
            place = len(course.fates)
            course.add_mutant(changed)
            refused += course.fates[place].startswith("refused")
        course.add(form, is_judged=not are_right)
    return course, refused


@support.needs_program
class Mutants(unittest.TestCase):
    def judged_alike(self, forms, seed, are_right):
        course, refused = course_with_mutants(forms, seed, are_right)
        report = run_program("check", text="".join(write(form) + "\n" for form in course.forms))
        self.assertEqual(len(report.lines), len(course.fates) + 1)
        for form, fate, line in zip(course.forms, course.fates, report.lines):
            self.assertTrue(line.endswith(f" {fate}"), f"{line}, and not {fate}: {str(form)[:2000]}")
        self.assertGreater(refused, MUTANTS // 2, "most mutants are wrong")

    def test_of_the_worked_books(self):
        for seed, names in enumerate([("first",), ("ranks",), ("ranks", "app"), ("wrap",), ("wrap", "shorthand")], 3):
            with self.subTest(names):
                text = "".join((support.REPOSITORY / "books" / f"{name}.book").read_text("ascii") for name in names)
                self.judged_alike(read_all(text), seed, are_right=False)

    def test_of_the_library(self):
        self.judged_alike([e.form for e in support.library().events], 1, are_right=True)

    def test_of_the_ladder(self):
        self.judged_alike([e.form for e in support.ladder_events()], 2, are_right=True)


if __name__ == "__main__":
    unittest.main()
