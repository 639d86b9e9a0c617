"""The scripts beside the books of books/: they make books with the same theorems and definitions, in the same order."""
import unittest

import support
import app
import ranks
import shorthand
import wrap
from milawa_author.judge import Judge
from milawa_author.logic.notation import expand
from milawa_author.logic.objects import items
from milawa_author.logic.text import read_all
from milawa_author.program import run_program


def contents(text):
    """What a book says, without its proofs."""
    found = []
    for form in read_all(text):
        word, *parts = items(form)
        if word == "DEFINE":
            found.append((word, parts[0], parts[1], expand(parts[2]), expand(parts[3])))
        else:
            found.append((word, *parts[:2]))
    return found


class Sources(unittest.TestCase):
    def compared(self, script, *names):
        books = "".join((support.REPOSITORY / "books" / f"{name}.book").read_text("ascii") for name in names)
        made = script.make()
        self.assertEqual(contents(made.text()), contents(books))
        lines = list(Judge().report(made.text()))
        self.assertIn(" refused 0 ", lines[-1])
        self.assertEqual(lines, list(Judge().report(books)))
        if support.PROGRAM:
            self.assertEqual(run_program("check", text=made.text()).lines, lines)

    def test_ranks(self):
        self.compared(ranks, "ranks")

    def test_app(self):
        self.compared(app, "ranks", "app")

    def test_wrap(self):
        self.compared(wrap, "wrap")

    def test_shorthand(self):
        self.compared(shorthand, "wrap", "shorthand")


if __name__ == "__main__":
    unittest.main()
