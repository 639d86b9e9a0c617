"""The program `milawa`: where it is, and what it says of a book.

Nothing in the package needs it but `Book.check` and the tests.
"""
import os
import subprocess
import time
from pathlib import Path
from typing import Optional

from .errors import ProgramMissing

DEFAULT = Path(__file__).resolve().parents[2] / "crates" / "milawa" / "out" / "milawa"


class Report:
    """What the program wrote: `lines`, its `status`, the `seconds` that it took, and its last line, `summary`."""

    def __init__(self, output: str, status: int, seconds: float):
        self.lines, self.status, self.seconds = output.splitlines(), status, seconds
        self.summary = self.lines[-1] if self.lines else ""

    @property
    def refused(self) -> list[str]:
        """The lines of refused events."""
        return [line for line in self.lines[:-1] if " refused " in line]


def find_program(path: Optional[str] = None) -> str:
    """The path of the program: the one given, else that of the environment variable MILAWA, else that of the
    repository.  Raises ProgramMissing where no program is there."""
    found = str(path or os.environ.get("MILAWA") or DEFAULT)
    if not os.access(found, os.X_OK) or os.path.isdir(found):
        raise ProgramMissing(f"no program {found}; build it by `cd crates/milawa && rt run -- check <"
                             " ../../books/first.book`, or name one by the environment variable MILAWA")
    return found


def run_program(*words: str, text: str, path: Optional[str] = None) -> Report:
    """Runs the program on a text, with the words of its command line.  Raises ProgramMissing."""
    program, start = find_program(path), time.perf_counter()
    done = subprocess.run([program, *words], input=text.encode("ascii"), stdout=subprocess.PIPE, check=False)
    return Report(done.stdout.decode("ascii"), done.returncode, time.perf_counter() - start)


def explain_refusals(*words: str, text: str, path: Optional[str] = None) -> dict[int, str]:
    """Why `milawa explain` says that events are refused, by their numbers; empty for a program without that command.

    Takes the text of the book and the options of the command line.  Raises ProgramMissing."""
    if not any(line.startswith("milawa explain") for line in run_program("--help", text="", path=path).lines):
        return {}
    lines = run_program("explain", *words, text=text, path=path).lines
    return {int(line.split()[1]): line for line in lines if line.startswith("(WHY ")}
