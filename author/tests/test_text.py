"""Reading and writing of data."""
import random
import unittest

import support  # noqa: F401
from milawa_author.errors import TextError
from milawa_author.logic.objects import Pair, cons, items, make_list
from milawa_author.logic.text import LONGEST_SHOWN, printed, read, read_all, write

ATOMS = [0, 7, 12345678901234567890, "A", "NIL", "T", "x y", "QUOTE", "1A", "..", "+1", "lower", "#", "(", "'"]


def random_object(rng, depth):
    if depth == 0 or rng.random() < 0.3:
        return rng.choice(ATOMS)
    return cons(random_object(rng, depth - 1), random_object(rng, depth - 1))


class Text(unittest.TestCase):
    def test_what_is_written_is_read_back(self):
        rng = random.Random(1)
        for _ in range(2000):
            x = random_object(rng, 7)
            for labels in (True, False):
                self.assertEqual(read(write(x, labels)), x)
            self.assertEqual(read(printed(x)), x)

    def test_notation(self):
        self.assertEqual(items(read("(a 'b . (007))")), ("A", read("(quote b)"), 7))
        self.assertIs(read("(#1=(a b) . #1#)"), cons(read("(a b)"), read("(a b)")))
        self.assertEqual(read("|a b|"), "a b")
        self.assertEqual([write(d) for d in read_all("a ; comment\n (b . c) 'd")], ["a", "(b . c)", "'d"])
        self.assertEqual(printed(read("('a |b| c . 007)")), "((QUOTE A) |b| C . 7)")

    def test_messages_have_no_labels_and_end(self):
        self.assertEqual(str(read("(f . #1=(y #2='(a) #2# z))")), "(f y '(a) '(a) z)")
        x = "X"
        for _ in range(100):
            x = make_list("CONS", x, x)
        self.assertTrue(str(x).endswith(" .."))
        self.assertLess(len(str(x)), LONGEST_SHOWN + 10)

    def test_faults(self):
        for text in ("(", ")", "(a . b c)", "12a", "#1#", "(a .)", "\"a\"", "(. a)", "a|b|", "a#1=b", "|a|b", "||",
                     "...", "(#1=a #1=b)", "#1=(a #1#)", "1" * 5000, "(a . . b)", "'", "a b"):
            with self.assertRaises(TextError, msg=text):
                read(text)

    def test_shared_parts_are_written_once(self):
        x = "X"
        for _ in range(60):
            x = cons(x, x)
        self.assertLess(len(write(x)), 60 * 20)
        self.assertIs(read(write(x)), x)

    def test_deep_data(self):
        x = "NIL"
        for _ in range(100000):
            x = make_list(x)
        self.assertIs(read(write(x)), x)

    def test_what_is_no_object(self):
        for x in (-1, 1.5, None, "", "a|b", "a\\b", "\n", ("A",)):
            with self.assertRaises(TypeError, msg=x):
                cons(x, "NIL")
        self.assertIsInstance(cons(1, "NIL"), Pair)


if __name__ == "__main__":
    unittest.main()
