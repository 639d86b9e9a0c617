"""Making proofs and books for Milawa.

Start with `Book`: it takes definitions and goals as text, finds proofs, and writes the book that `milawa check`
judges.  docs/AUTHORS.md of the repository teaches it; `logic.kernel` has the twelve methods of proof.
"""
from .book import Book
from .errors import (AuthorError, EventError, FormError, ProgramMissing, Refused, RuleError, TextError, TooDeep,
                     Unproved)
from .logic.kernel import Proof
from .logic.notation import formula, term
from .logic.theory import Theory
from .prover.search import prove

__all__ = ["AuthorError", "Book", "EventError", "FormError", "ProgramMissing", "Proof", "Refused", "RuleError",
           "TextError", "Theory", "TooDeep", "Unproved", "formula", "prove", "term"]
