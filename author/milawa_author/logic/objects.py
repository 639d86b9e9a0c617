"""Objects of the logic: naturals (int), symbols (str) and pairs.

Symbols are in upper case as a rule, since the reader raises letters.  Pairs are made once each, so two
pairs are equal exactly where they are the same Python object; none is ever given back.
"""
import re
from sys import intern
from typing import Optional, Union

_SYMBOL = re.compile(r"[ -\[\]-{}~]+\Z")        # bytes 32 to 126 other than \ and |


class Pair:
    """A pair of two objects, `first` and `rest`; made by `cons` alone."""

    __slots__ = ("first", "rest", "_items")

    def __repr__(self):
        from .text import write
        return write(self)

    def __str__(self):
        from .text import shown
        return shown(self)


Object = Union[int, str, Pair]

_pairs: dict[tuple, Pair] = {}
_symbols: dict[str, str] = {}                   # those that were checked; equal symbols are one object too


def _atom(x: object) -> Object:
    """A natural, or the one object of a symbol.  Raises TypeError for what is neither."""
    if isinstance(x, str):
        symbol = _symbols.get(x)
        if symbol is None and _SYMBOL.match(x):
            symbol = _symbols[x] = intern(x)
        if symbol is not None:
            return symbol
    elif isinstance(x, int) and not isinstance(x, bool) and x >= 0:
        return x
    raise TypeError(f"{x!r} is not an object: it must be a natural (int), the name of a symbol (str) or a Pair")


def cons(first: Object, rest: Object) -> Pair:
    """The pair of two objects.  Raises TypeError where one of them is not an object."""
    key = (first, rest)
    pair = _pairs.get(key)
    if pair is None:
        pair = Pair()
        pair.first = first if type(first) is Pair else _atom(first)
        pair.rest = rest if type(rest) is Pair else _atom(rest)
        pair._items = None
        _pairs[key] = pair
    return pair


def make_list(*members: Object) -> Object:
    """The proper list of the members."""
    result: Object = "NIL"
    for member in reversed(members):
        pair = _pairs.get((member, result))
        result = cons(member, result) if pair is None else pair
    return result


def items(x: Object) -> Optional[tuple]:
    """The members of a proper list, or None where x is not a proper list."""
    if x == "NIL":
        return ()
    if not isinstance(x, Pair):
        return None
    if x._items is None:
        members, rest = [], x
        while isinstance(rest, Pair):
            members.append(rest.first)
            rest = rest.rest
        x._items = tuple(members) if rest == "NIL" else False
    return x._items or None


def first(x: Object) -> Object:
    """CAR; NIL where x is not a pair."""
    return x.first if isinstance(x, Pair) else "NIL"


def rest(x: Object) -> Object:
    """CDR; NIL where x is not a pair."""
    return x.rest if isinstance(x, Pair) else "NIL"


def member(x: Object, place: int) -> Object:
    """The member of a list at a place counted from 0, by CAR and CDR."""
    for _ in range(place):
        x = rest(x)
    return first(x)
