"""Events of a book, and how large books are."""
import functools
import sys
from collections.abc import Sequence
from pathlib import Path
from typing import NamedTuple

from .logic.kernel import Proof
from .logic.objects import Object, Pair, items
from .logic.text import write

PACKAGE = str(Path(__file__).resolve().parent)


class Event:
    """One event: its object `form`, the proofs in it, and the line of Python that asked for it, `place`."""

    def __init__(self, form: Pair, proofs: Sequence[Proof], place: str):
        self.form, self.proofs, self.place = form, list(proofs), place

    @functools.cached_property
    def text(self) -> str:
        """The event as it stands in a book, in one line."""
        return write(self.form)

    def __str__(self):
        name = items(self.form)[1]
        return f"{self.form.first} {name if isinstance(name, str) else ''} ({self.place})"


class Sizes(NamedTuple):
    """How large a book is; steps are counted in each event by itself."""

    events: int
    bytes: int
    steps: int              # distinct ones
    steps_as_trees: int

    def __str__(self):
        return "{} events, {} bytes, {} steps, {} as trees".format(*self)


def calling_line() -> str:
    """The line of Python outside of the package that asked for an event."""
    frame = sys._getframe(1)
    while frame.f_back and frame.f_code.co_filename.startswith(PACKAGE):
        frame = frame.f_back
    return f"{frame.f_code.co_filename}:{frame.f_lineno}"


def largest_natural(x: Object) -> int:
    """The largest natural in an object, or 0."""
    largest, seen, work = 0, set(), [x]
    while work:
        y = work.pop()
        if isinstance(y, int):
            largest = max(largest, y)
        elif isinstance(y, Pair) and y not in seen:
            seen.add(y)
            work += [y.first, y.rest]
    return largest
