"""What each level of the ladder saves: the library, proved after the switch to each, and what its checker takes for it.

    python3 author/books/measure.py [--last SUBJECT] [LEVEL ..]

Level 1 is the program's own judge, which takes no units; the row WRAP is a switch to the same judge, run in the logic,
which takes so long that it is measured only where it is asked for.  With a subject the library goes up to that.  Units
are counted by the package's own machine, which counts as the program does: a test compares them.
"""
import argparse
import os
import sys
from typing import Optional

sys.path.insert(0, os.path.join(os.path.dirname(os.path.abspath(__file__)), ".."))

from library import SUBJECTS, add_library  # noqa: E402
from milawa_author import Book  # noqa: E402
from milawa_author.judge import Judge  # noqa: E402
from milawa_author.ladder.levels import LEVELS, make_ladder, make_wrap  # noqa: E402
from milawa_author.limits import MOST_STEPS  # noqa: E402

ROW = "{:>5}  {:>6}  {:>10}  {:>7}  {:>8}  {:>13}  {:>13}  {:>6}"


def units_of(book: Book, start: int) -> tuple[int, int]:
    """The units that the book's checker takes for the proofs of the events from a place on, and for the last proof of
    one event at most."""
    judge, most = Judge(MOST_STEPS), 0
    for event in book.events[:start]:
        judge.skip(event.form)
    for event in book.events[start:]:
        fate = judge.event(event.form)
        assert fate == "accepted", f"{event}: {fate}"
        most = max(most, judge.units)
    return judge.total_units, most


def start_of(row: str) -> Book:
    """The book before the library."""
    return Book() if row == "1" else make_wrap() if row == "WRAP" else make_ladder(int(row))


def main(rows: list[str], last: Optional[str]) -> None:
    """Prints a row for each level; the factor says how many times fewer units it takes than the row above."""
    print(ROW.format("level", "events", "bytes", "steps", "as trees", "units", "most units", "factor"))
    before = 0
    for row in rows:
        book = start_of(row)
        start = len(book.events)
        add_library(book, last)
        sizes = book.sizes(start)
        units, most = (0, 0) if row == "1" else units_of(book, start)
        factor = f"{before / units:.1f}" if before and units else ""
        print(ROW.format(row, *sizes, units or "", most or "", factor), flush=True)
        before = units


if __name__ == "__main__":
    parser = argparse.ArgumentParser(description="Measures the library under each level of the ladder.")
    parser.add_argument("--last", choices=SUBJECTS, metavar="SUBJECT")
    parser.add_argument("rows", nargs="*", metavar="LEVEL", default=["1", *map(str, LEVELS)])
    asked = parser.parse_args()
    main(asked.rows, asked.last)
