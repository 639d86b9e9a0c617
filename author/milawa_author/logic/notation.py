"""Abbreviations of terms, and a notation for formulas.

Terms: AND, OR, COND, LIST, LET, LET*, FIRST to FIFTH, and T, NIL and numbers without a quote.
Formulas: `(= a b)`, `(!= a b)`, `(not F)`, `(or F G ..)`, `(implies F G .. H)`, where H is said to follow from
those before it; and a term in a formula's place says that it is not nil.
"""
from collections.abc import Callable, Generator

from ..errors import FormError, quotation
from .objects import Object, Pair, items, make_list
from .terms import NIL, T, call, complement, disjunction, equation, negation, quote, variables
from .text import read

NTH = ("FIRST", "SECOND", "THIRD", "FOURTH", "FIFTH")


Rule = Callable[[Object], Generator]


def _walk(rule: Rule, start: Object) -> Object:
    """What a recursion makes of an object, on a stack of its own: in the rule `yield part` is what it makes of a part.
    A part that stands at several places is looked at once."""
    done, stack, value = {}, [(start, rule(start))], None
    while stack:
        raw, generator = stack[-1]
        try:
            part = generator.send(value)
        except StopIteration as end:
            stack.pop()
            value = done[raw] = end.value
            continue
        value = done.get(part)
        if value is None:
            stack.append((part, rule(part)))
    return value


def expand(raw: Object) -> Object:
    """The term of a raw term, its abbreviations expanded.  Raises FormError where it has not the form of one.

    Names and numbers of actuals are not looked at: the kernel does that."""
    return _walk(_expand, raw)


def _shape(holds: bool, raw: Object, wanted: str) -> None:
    if not holds:
        raise FormError(f"{wanted} is wanted, and this is not of that form: {quotation(raw)}")


def _expand(raw: Object) -> Generator:
    if raw in ("T", "NIL") or isinstance(raw, int):
        return quote(raw)
    if isinstance(raw, str):
        return raw
    members = items(raw)
    _shape(members is not None, raw, "a term")
    head, parts = members[0], members[1:]
    if head == "QUOTE":
        _shape(len(parts) == 1, raw, "(quote x)")
        return raw
    if head in _EXPANSIONS:
        return (yield from _EXPANSIONS[head](raw, parts))
    if head in NTH:
        _shape(len(parts) == 1, raw, f"({head.lower()} x)")
        t = yield parts[0]
        for _ in range(NTH.index(head)):
            t = call("CDR", t)
        return call("CAR", t)
    if isinstance(head, Pair):
        lambda_members = items(head)
        _shape(lambda_members is not None and len(lambda_members) == 3, raw, "((lambda (x ..) body) a ..)")
        word, formals, body = lambda_members
        head = make_list(word, formals, (yield body))
    actuals = []
    for part in parts:
        actuals.append((yield part))
    return call(head, *actuals)


def _expand_and(raw: Object, parts: tuple) -> Generator:
    if not parts:
        return T
    tests = []
    for part in parts:
        tests.append((yield part))
    t = tests.pop()
    while tests:
        t = call("IF", tests.pop(), t, NIL)
    return t


def _expand_or(raw: Object, parts: tuple) -> Generator:
    if not parts:
        return NIL
    tests = []
    for part in parts:
        tests.append((yield part))
    t = tests.pop()
    while tests:
        test = tests.pop()
        t = call("IF", test, test, t)
    return t


def _expand_cond(raw: Object, parts: tuple) -> Generator:
    clauses = []
    for part in parts:
        pair = items(part)
        _shape(pair is not None and len(pair) == 2, part, "(test value)")
        clauses.append(((yield pair[0]), (yield pair[1])))
    t = NIL
    for test, value in reversed(clauses):
        t = call("IF", test, value, t)
    return t


def _expand_list(raw: Object, parts: tuple) -> Generator:
    members = []
    for part in parts:
        members.append((yield part))
    t = NIL
    for member in reversed(members):
        t = call("CONS", member, t)
    return t


def _bindings(raw: Object, parts: tuple) -> list[tuple]:
    bindings = [items(b) for b in items(parts[0]) or ()] if parts else []
    good = len(parts) == 2 and items(parts[0]) is not None and all(b is not None and len(b) == 2 for b in bindings)
    _shape(good, raw, "(let ((x a) ..) body)")
    return bindings


def _expand_let(raw: Object, parts: tuple) -> Generator:
    bindings = _bindings(raw, parts)
    body = yield parts[1]
    names = [name for name, _ in bindings]
    further = [v for v in variables(body) if v not in names]
    actuals = []
    for _, bound in bindings:
        actuals.append((yield bound))
    function = make_list("LAMBDA", make_list(*names, *further), body)
    return make_list(function, *actuals, *further)


def _expand_let_star(raw: Object, parts: tuple) -> Generator:
    bindings = _bindings(raw, parts)
    inner = parts[1]
    for name, bound in reversed(bindings):
        inner = make_list("LET", make_list(make_list(name, bound)), inner)
    return (yield inner)


_EXPANSIONS = {"AND": _expand_and, "OR": _expand_or, "COND": _expand_cond, "LIST": _expand_list, "LET": _expand_let,
               "LET*": _expand_let_star}


def expand_formula(raw: Object) -> Pair:
    """The formula of a datum in the notation of this module.  Raises FormError where it has not the form of one."""
    return _walk(_expand_formula, raw)


def _expand_formula(raw: Object) -> Generator:
    members = items(raw)
    head = members[0] if members else None
    if head in ("=", "PEQUAL*", "!="):
        _shape(len(members) == 3, raw, "(= a b) or (!= a b)")
        e = equation(expand(members[1]), expand(members[2]))
        return negation(e) if head == "!=" else e
    if head in ("NOT", "PNOT*"):
        _shape(len(members) == 2, raw, "(not F)")
        return negation((yield members[1]))
    if head in ("OR", "POR*", "IMPLIES"):
        _shape(len(members) >= 2, raw, "(or F ..) or (implies F .. G)")
        parts = []
        for m in members[1:]:
            parts.append((yield m))
        if head == "IMPLIES":
            parts[:-1] = map(complement, parts[:-1])
        return disjunction(*parts)
    return negation(equation(expand(raw), NIL))


def term(text: str) -> Object:
    """The term of a text.  Raises TextError or FormError, and TypeError unless it is given a text."""
    if not isinstance(text, str):
        raise TypeError(f"a term is given as a text, not as {text!r}")
    return expand(read(text))


def formula(text: str) -> Pair:
    """The formula of a text in the notation of this module.  Raises TextError or FormError."""
    return expand_formula(read(text))


def as_formula(goal: str | Pair) -> Pair:
    """A formula from its text, or as it is.  Raises TextError or FormError, and TypeError for anything else."""
    if not isinstance(goal, (str, Pair)):
        raise TypeError(f"a goal is a text or a formula, not {goal!r}")
    return goal if isinstance(goal, Pair) else formula(goal)
