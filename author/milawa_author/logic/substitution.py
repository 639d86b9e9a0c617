"""Substitution in terms and formulas, and the substitution that makes one of another."""
from typing import Optional

from .objects import Object, Pair, cons, items, make_list
from .terms import Substitution, is_constant, variables


def _is_leaf(u: Object) -> bool:
    return not isinstance(u, Pair) or u.first == "QUOTE"


def substitute(x: Object, substitution: Substitution) -> Object:
    """A term or formula with terms put for its free variables, all at once.

    A lambda's formals and body stay.  The words PEQUAL*, PNOT* and POR* do not name functions, so one walk
    does for terms and formulas."""
    done: dict[Pair, Object] = {}

    def image(u: Object) -> Object:
        return done[u] if not _is_leaf(u) else substitution.get(u, u) if isinstance(u, str) else u

    work = [x]
    while work:
        u = work[-1]
        if _is_leaf(u) or u in done:
            work.pop()
            continue
        parts = items(u)[1:]
        missing = [v for v in parts if not _is_leaf(v) and v not in done]
        if missing:
            work += missing
            continue
        done[u] = make_list(u.first, *map(image, parts))
        work.pop()
    return image(x)


def instance_of(pattern: Object, target: Object) -> Optional[Substitution]:
    """The substitution that makes the pattern into the target, or None."""
    found: Substitution = {}
    work = [(pattern, target)]
    while work:
        p, t = work.pop()
        if isinstance(p, str):
            if found.setdefault(p, t) != t:
                return None
        elif p is t and not variables(p):
            continue
        elif not isinstance(t, Pair) or is_constant(p):
            return None
        else:
            ps, ts = items(p), items(t)
            if ts is None or len(ps) != len(ts) or ps[0] != ts[0]:
                return None
            work += zip(ps[1:], ts[1:])
    return found


def substitution_object(substitution: Substitution) -> Object:
    """A substitution as the extras of INSTANTIATION have it, `((x . t) ..)`."""
    return make_list(*[cons(variable, t) for variable, t in substitution.items()])


def substitution_of(x: Object) -> Optional[Substitution]:
    """The substitution that an object stands for, or None; of several pairs for a variable the first counts."""
    pairs = items(x)
    if pairs is None or not all(isinstance(p, Pair) for p in pairs):
        return None
    found: Substitution = {}
    for p in pairs:
        found.setdefault(p.first, p.rest)
    return found
