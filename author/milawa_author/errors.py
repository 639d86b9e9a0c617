"""The exceptions of the package.  Each message says what is wrong, and where it can what to do."""

LONGEST_QUOTATION = 300


def quotation(x: object, limit: int = LONGEST_QUOTATION) -> str:
    """The text of an object, cut off for a message."""
    text = str(x)
    return text if len(text) <= limit else text[:limit] + " .."


class AuthorError(Exception):
    """Any misuse of the package, and any refusal that it foresees."""


class TextError(AuthorError, ValueError):
    """A text that is not a datum of a book."""


class FormError(AuthorError, ValueError):
    """An object that does not have the form of a term, or of a formula."""


class RuleError(AuthorError, ValueError):
    """A method or rule does not apply.

    `rule` names it, `reason` says why, and `formula` is the formula or term at fault, or None.
    """

    def __init__(self, rule: str, reason: str, formula: object = None):
        self.rule, self.reason, self.formula = rule, reason, formula
        super().__init__(f"{rule}: {reason}" + ("" if formula is None else f": {quotation(formula)}"))


class Unproved(RuleError):
    """The prover found no proof.  The text lists what is known in the case that stayed open: look for the
    lemma that is missing, and give it by `use` or `rules`."""


class TooDeep(RuleError):
    """A search or a proof went deeper than `limits.DEPTH`; prove parts of the goal as lemmas first."""


class EventError(AuthorError, ValueError):
    """An event that `milawa check` would refuse; `word` is the reason that its report would show."""

    def __init__(self, word: str, reason: str, form: object = None):
        self.word, self.form = word, form
        super().__init__(f"{word}: {reason}" + ("" if form is None else f": {quotation(form)}"))


class Refused(AuthorError):
    """The program refused events of a book; the text names each, with the line of Python that made it."""


class ProgramMissing(AuthorError):
    """There is no program where one was looked for."""
