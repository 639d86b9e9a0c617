"""The library: theorems on lists, naturals, association lists and ordinals, verified sorting and search trees.

    python3 author/books/library.py > library.book
    python3 author/books/library.py lists > lists.book
    python3 author/books/library.py --level 9 > above.book
    python3 author/books/library.py --lower | milawa lower > library.book

Where a subject is named the library goes up to that, and with a level it stands after the ladder up to that level.  The
theorems stand in `theorems/`, one module a subject, each by its statement, what is inducted upon and its lemmas.
"""
import argparse
import os
import sys
from typing import Optional

sys.path.insert(0, os.path.join(os.path.dirname(os.path.abspath(__file__)), ".."))

from milawa_author import Book  # noqa: E402
from milawa_author.ladder.levels import LEVELS, make_ladder  # noqa: E402
from theorems.associations import add_associations  # noqa: E402
from theorems.divisors import add_divisors  # noqa: E402
from theorems.lists import add_lists  # noqa: E402
from theorems.naturals import add_naturals  # noqa: E402
from theorems.ordinals import add_ordinals  # noqa: E402
from theorems.parts import add_parts  # noqa: E402
from theorems.sorting import add_sorting  # noqa: E402
from theorems.trees import add_trees  # noqa: E402

SUBJECTS = {"lists": add_lists, "parts": add_parts, "naturals": add_naturals, "divisors": add_divisors,
            "associations": add_associations, "ordinals": add_ordinals, "sorting": add_sorting, "trees": add_trees}


def add_library(book: Book, last: Optional[str] = None) -> None:
    """Adds the library to a book at any level, up to a subject."""
    book.equality_lemmas()
    for name, add_subject in SUBJECTS.items():
        add_subject(book)
        if name == last:
            break


def make(for_lower: bool = False, last: Optional[str] = None, level: int = 1) -> Book:
    """The library as a book; for the command `lower` it has derivations in place of some proofs.  Above level 1 it
    stands after the ladder."""
    book = Book(for_lower) if level == 1 else make_ladder(level)
    add_library(book, last)
    return book


if __name__ == "__main__":
    parser = argparse.ArgumentParser(description="Writes the library as a book to standard output.")
    parser.add_argument("--lower", action="store_true", help="a book for the command lower")
    parser.add_argument("--level", type=int, default=1, choices=[1, *LEVELS], help="the level of the ladder")
    parser.add_argument("last", nargs="?", choices=SUBJECTS, metavar="SUBJECT", help=f"one of {', '.join(SUBJECTS)}")
    asked = parser.parse_args()
    if asked.lower and asked.level > 1:
        parser.error("the command lower takes books of level 1")
    made = make(asked.lower, asked.last, asked.level)
    sys.stdout.write(made.text())
    print(made.sizes(), file=sys.stderr)
