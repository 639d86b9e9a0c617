"""The bounds that the package keeps: of the program, and of its own recursion."""
import functools
import sys
from collections.abc import Callable

from .errors import TooDeep

NATURALS = 2 ** 128             # an event that holds a natural of this or more is refused for RANGE
BOOK_BYTES = 2 ** 40            # a longer book is a fault of its text, LENGTH
LABELS = 10 ** 9                # the number of a label has one to nine digits
STEPS = 10 ** 7                 # the units of a run where `--steps` is not said
MOST_STEPS = 10 ** 12           # the most that `--steps` takes
DEPTH = 100_000                 # Python frames that a search, or the making of its proof, may be deep


def within_depth(function: Callable) -> Callable:
    """Gives a function that recurses the depth of `limits.DEPTH` frames while it runs.

    What the kernel, the reader and the writer do never recurses on the depth of data.  Searching does: one
    frame for each case within cases, and for each fact that rests on another.  Raises TooDeep beyond that.
    """
    @functools.wraps(function)
    def deep(*arguments, **options):
        before = sys.getrecursionlimit()
        sys.setrecursionlimit(max(before, DEPTH))
        try:
            return function(*arguments, **options)
        except RecursionError:
            name = function.__name__.strip("_").upper()
            raise TooDeep(name, f"deeper than {DEPTH} calls; prove parts first") from None
        finally:
            sys.setrecursionlimit(before)
    return deep
