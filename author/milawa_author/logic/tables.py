"""The tables that every theory begins with: primitives, the axioms, the 54 built-in definitions, in both profiles.

They are written down a second time here, in axioms.lisp and definitions.lisp; a test has the program accept
each as an axiom.  The second profile has multiplication as a thirteenth primitive, seven axioms more, and that
primitive in two definitions.
"""
from importlib.resources import files

from .notation import expand
from .objects import Object, Pair, cons, first, items, make_list, rest
from .terms import quote
from .text import read, read_all

PRIMITIVES = {"IF": 3, "EQUAL": 2, "CONSP": 1, "CONS": 2, "CAR": 1, "CDR": 1,
              "SYMBOLP": 1, "SYMBOL-<": 2, "NATP": 1, "<": 2, "+": 2, "-": 2}


PRIMITIVES_2 = {**PRIMITIVES, "*": 2}
AXIOMS_2 = ("(pequal* (natp (* a b)) 't)", "(pequal* (* a b) (* b a))", "(pequal* (* (* a b) c) (* a (* b c)))",
            "(pequal* (* a (+ b c)) (+ (* a b) (* a c)))", "(pequal* (* a '0) '0)",
            "(por* (pequal* (natp a) 'nil) (pequal* (* a '1) a))", "(por* (pequal* (natp a) 't) (pequal* (* a b) '0))")
PROFILES = (1, 2)


def primitives(profile: int = 1) -> dict[str, int]:
    """The primitives with their numbers of arguments."""
    return dict(PRIMITIVES if profile == 1 else PRIMITIVES_2)


def _data(name: str) -> list[Object]:
    return read_all(files(__package__).joinpath(name).read_text(encoding="ascii"))


def axioms(profile: int = 1) -> list[Pair]:
    """The axioms of the primitives, numbers 1 to 53, or to 60 in the second profile, in order."""
    return _data("axioms.lisp") + ([] if profile == 1 else [read(text) for text in AXIOMS_2])


def definitions(profile: int = 1) -> list[tuple]:
    """The built-in definitions in order: (name, formals, body) with the body expanded, and for the witness
    (name, free, body, bound)."""
    entries = []
    for datum in _data("definitions.lisp"):
        parts = items(datum)
        if parts[0] == "SKOLEM":
            entries.append((parts[1], items(parts[3]), expand(parts[4]), parts[2]))
        else:
            body = parts[2] if profile == 1 else _with_product(parts[0], parts[2])
            entries.append((parts[0], items(parts[1]), expand(body)))
    return entries


def _with_product(name: str, body: Object) -> Object:
    """The body of a definition in the second profile, before it is expanded."""
    if name == "LOGIC.PRIMITIVEP":
        function, f, names = items(body)
        return make_list(function, f, quote(make_list(*items(names.rest.first), "*")))
    if name == "LOGIC.APPLY":
        word, bindings, cond = items(body)
        return make_list(word, bindings, make_list(*items(cond), read("((equal f '*) (* x y))")))
    return body


def _truth(b: bool) -> str:
    return "T" if b else "NIL"


def _number(x: Object) -> int:
    return x if isinstance(x, int) else 0


def _name(x: Object) -> str:
    return x if isinstance(x, str) else "NIL"


VALUES = {
    "IF": lambda x, y, z: y if x != "NIL" else z,
    "EQUAL": lambda x, y: _truth(x == y),
    "CONSP": lambda x: _truth(isinstance(x, Pair)),
    "CONS": cons,
    "CAR": first,
    "CDR": rest,
    "SYMBOLP": lambda x: _truth(isinstance(x, str)),
    "SYMBOL-<": lambda x, y: _truth(_name(x) < _name(y)),
    "NATP": lambda x: _truth(isinstance(x, int)),
    "<": lambda x, y: _truth(_number(x) < _number(y)),
    "+": lambda x, y: _number(x) + _number(y),
    "-": lambda x, y: max(_number(x) - _number(y), 0),
    "*": lambda x, y: _number(x) * _number(y),
}


def apply_primitive(function: str, values: list[Object]) -> Object:
    """The value of a primitive, a total function, at its number of objects."""
    return VALUES[function](*values)
