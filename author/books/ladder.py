"""The ladder as a book: checkers up to a level, each proved sound under the one before.

    python3 author/books/ladder.py [LEVEL] > ladder.book
"""
import argparse
import os
import sys

sys.path.insert(0, os.path.join(os.path.dirname(os.path.abspath(__file__)), ".."))

from milawa_author.ladder.levels import LEVELS, make_ladder  # noqa: E402

if __name__ == "__main__":
    parser = argparse.ArgumentParser(description="Writes the ladder as a book to standard output.")
    parser.add_argument("level", nargs="?", type=int, choices=sorted(LEVELS), default=max(LEVELS))
    made = make_ladder(parser.parse_args().level)
    sys.stdout.write(made.text())
    print(made.sizes(), file=sys.stderr)
