"""Paths and the program for the tests.  The environment variable MILAWA names the program, else it is that of the
repository; without one, tests that need it are skipped."""
import functools
import os
import sys
import unittest
from pathlib import Path

HERE = Path(__file__).resolve().parent
REPOSITORY = HERE.parents[1]
sys.path[:0] = [str(HERE.parent), str(HERE.parent / "books")]

from milawa_author.errors import ProgramMissing  # noqa: E402
from milawa_author.program import find_program  # noqa: E402

try:
    PROGRAM = find_program()
except ProgramMissing as why:
    PROGRAM, WHY = None, str(why)
else:
    WHY = ""
    os.environ["MILAWA"] = PROGRAM



@functools.cache
def ladder():
    """The whole ladder, made once; up to the use of a level it is the ladder of that level.  `library_above` adds to
    it."""
    from milawa_author.ladder.levels import make_ladder
    return make_ladder()


@functools.cache
def library():
    """The library, made once."""
    import library as script
    return script.make()


@functools.cache
def library_events():
    """The first events of the library, made once."""
    import library as script
    return script.make(last="lists").events[:60]


@functools.cache
def ladder_events():
    """The events of the ladder, before anything is added to it."""
    return list(ladder().events)


@functools.cache
def library_above():
    """The ladder with the library after its last switch, and the place where the library begins."""
    import library as script
    start = len(ladder_events())
    script.add_library(ladder())
    return ladder(), start


@functools.cache
def judge_above():
    """A judge after the whole ladder."""
    from milawa_author.judge import Judge
    judge = Judge()
    for event in ladder_events():
        judge.skip(event.form)
    return judge


def ends_of_levels():
    """For each level the number of events of the ladder up to the theorem that uses it."""
    words = [event.form.first for event in ladder_events()]
    return {level: at + 2 for level, at in enumerate((k for k, word in enumerate(words) if word == "SWITCH"), 2)}


needs_program = unittest.skipUnless(PROGRAM, WHY)
