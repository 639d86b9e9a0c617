"""The obligations of a recursive definition: its measure is an ordinal, and falls at each call, under the tests that
govern the call."""
from collections.abc import Sequence

from ..errors import RuleError
from ..logic.objects import Object, Pair, items
from ..logic.substitution import substitute
from ..logic.terms import (T, call, disjunction, equation, holds, is_call, is_constant, is_lambda_call, lambda_parts,
                           nil)

Tests = tuple[Pair, ...]


def mentions(t: Object, names: Sequence[str]) -> bool:
    """Does a term call one of the functions, in bodies of lambdas too?"""
    work, seen = [t], set()
    while work:
        u = work.pop()
        if isinstance(u, str) or is_constant(u) or u in seen:
            continue
        seen.add(u)
        if is_lambda_call(u):
            work.append(lambda_parts(u)[1])
        elif u.first in names:
            return True
        work.extend(items(u)[1:])
    return False


def recursive_calls(names: Sequence[str], body: Object) -> list[tuple[Tests, str, tuple]]:
    """The calls of a block's functions in a body, from left to right: the tests that govern each, as disjuncts of
    its obligation, the function, and the actuals.  A test that calls the block is left out.

    Raises RuleError, NESTED, where a call stands in an actual of another."""
    found, seen = [], set()
    work: list[tuple[Object, Tests]] = [(body, ())]
    while work:
        t, tests = work.pop()
        if (t, tests) in seen or not mentions(t, names):
            continue
        seen.add((t, tests))
        parts = items(t)[1:]
        if is_call(t, "IF"):
            test, then, other = parts
            is_left_out = mentions(test, names)
            then_tests = tests if is_left_out else tests + (nil(test),)
            other_tests = tests if is_left_out else tests + (holds(test),)
            work += [(other, other_tests), (then, then_tests), (test, tests)]
        elif is_lambda_call(t):
            formals, inner = lambda_parts(t)
            work += [(substitute(inner, dict(zip(formals, parts))), tests)] + [(u, tests) for u in reversed(parts)]
        elif t.first in names:
            if any(mentions(u, names) for u in parts):
                raise RuleError("DEFINE", f"NESTED: a call stands in an actual of a call of {t.first}", t)
            found.append((tests, t.first, parts))
        else:
            work += [(u, tests) for u in reversed(parts)]
    return found


def block_obligations(block: Sequence[tuple[str, Sequence[str], Object, Object]]) -> list[Pair]:
    """The obligations of a DEFINE-ALL, in order and each once; a member of the block is a name with its formals,
    body and measure.  Raises RuleError, NESTED."""
    names = [name for name, *_ in block]
    calls = [recursive_calls(names, body) for _, _, body, _ in block]
    if not any(calls):
        return []
    distinct: dict[Pair, None] = {}
    for (_, _, _, measure), found in zip(block, calls):
        distinct.setdefault(equation(call("ORDP", measure), T))
        for tests, called, actuals in found:
            _, formals, _, smaller = block[names.index(called)]
            less = call("ORD<", substitute(smaller, dict(zip(formals, actuals))), measure)
            distinct.setdefault(disjunction(*tests, equation(less, T)))
    return list(distinct)


def obligations(name: str, formals: Sequence[str], body: Object, measure: Object) -> list[Pair]:
    """The obligations of a DEFINE, in order and each once.  Raises RuleError, NESTED."""
    return block_obligations([(name, formals, body, measure)])
