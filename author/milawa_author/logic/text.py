"""Text of objects: reading a book's data, and writing them with labels for shared parts.

Reading takes time linear in the text.  Writing is linear in the distinct pairs: a pair that stands in
more than one place is written once, as #n=, and named again as #n#.
"""
import re

from .. import limits
from ..errors import TextError
from .objects import Object, Pair, cons, make_list

_WORD = r"A-Za-z0-9!$%&*+\-./<=>?@\[\]^_{}~"
_TOKEN = re.compile(r"[ \t\n\f\r]+|;[^\n]*|(?P<label>#[0-9]{1,9}[=#])|(?P<bars>\|[ -\[\]-{}~]+\|(?![#|" + _WORD + r"]))"
                    r"|(?P<mark>[()'])|(?P<bare>[" + _WORD + r"]++)(?![#|])")
_BARE = re.compile(r"[A-Z0-9!$%&*+\-./<=>?@\[\]^_{}~]+\Z")
LONGEST_SHOWN = 2_000           # characters of an object in a message
_NOT_A_SYMBOL = re.compile(r"[+-]?[0-9].*|\.+\Z")


class _Reader:
    """Data as they come.  `open` has what waits for a datum: ["list", members, tail], a quote or a label.

    The tail of a list is None before its dot, "dot" right after it, then the datum in a tuple."""

    def __init__(self):
        self.done, self.open, self.labels, self.begun = [], [], {}, set()

    def put(self, datum: Object) -> None:
        """A datum is complete: hands it to what is open."""
        while self.open and self.open[-1][0] != "list":
            kind, number = self.open.pop()
            if kind == "quote":
                datum = make_list("QUOTE", datum)
            else:
                self.labels[number] = datum
        if not self.open:
            self.done.append(datum)
            self.labels.clear()
            self.begun.clear()
            return
        place = self.open[-1]
        if place[2] is None:
            place[1].append(datum)
        elif place[2] == "dot":
            place[2] = (datum,)
        else:
            raise TextError("more than one datum after a dot")

    def label(self, token: str) -> None:
        number = int(token[1:-1])
        if token[-1] == "#":
            if number not in self.labels:
                raise TextError(f"label {number} is named before it is complete")
            self.put(self.labels[number])
            return
        if number in self.begun:
            raise TextError(f"label {number} is begun twice in one datum")
        self.begun.add(number)
        self.open.append(("label", number))

    def close(self, position: int) -> None:
        if not self.open or self.open[-1][0] != "list" or self.open[-1][2] == "dot":
            raise TextError(f"a closing parenthesis too many at {position}")
        _, members, tail = self.open.pop()
        result = tail[0] if tail else "NIL"
        for member in reversed(members):
            result = cons(member, result)
        self.put(result)

    def bare(self, token: str) -> None:
        place = self.open[-1] if self.open else ("none",)
        if token.isdigit():
            if len(token) > 4000:
                raise TextError("a natural of more than 4,000 digits; naturals of a book are below 2^128")
            self.put(int(token))
        elif token == "." and place[0] == "list" and place[1] and place[2] is None:
            place[2] = "dot"
        elif _NOT_A_SYMBOL.match(token):
            raise TextError(f"{token} is neither a natural nor a symbol; a name of that form stands between bars")
        else:
            self.put(token.upper())


def read_all(text: str) -> list[Object]:
    """The data of a text, in order.  Raises TextError at the first fault."""
    reader, position = _Reader(), 0
    while position < len(text):
        match = _TOKEN.match(text, position)
        if match is None:
            raise TextError(f"unexpected {text[position:position + 20]!r} at {position}")
        position = match.end()
        token = match.group()
        if match.group("label"):
            reader.label(token)
        elif match.group("bars"):
            reader.put(token[1:-1])
        elif token == "(":
            reader.open.append(["list", [], None])
        elif token == "'":
            reader.open.append(("quote", None))
        elif token == ")":
            reader.close(position - 1)
        elif match.group("bare"):
            reader.bare(token)
    if reader.open:
        lists = sum(place[0] == "list" for place in reader.open)
        raise TextError(f"the text ends inside a datum: {lists} closing parentheses are missing")
    return reader.done


def read(text: str) -> Object:
    """The one datum of a text.  Raises TextError where there is none, or more than one."""
    data = read_all(text)
    if len(data) != 1:
        raise TextError(f"{len(data)} data where one is wanted, in {text[:60]!r}")
    return data[0]


def atom_text(x: Object) -> str:
    """The text of a natural or symbol, in lower case where that is read as the same."""
    if isinstance(x, int):
        return str(x)
    if _BARE.match(x) and not _NOT_A_SYMBOL.match(x):
        return x.lower()
    return "|" + x + "|"


def _is_quote(x: Pair) -> bool:
    return x.first == "QUOTE" and isinstance(x.rest, Pair) and x.rest.rest == "NIL"


def _is_short(x: Pair) -> bool:
    """A quoted atom, which is not worth a label."""
    return _is_quote(x) and not isinstance(x.rest.first, Pair)


def _shared(x: Object) -> set[Pair]:
    """The pairs that stand in more than one place."""
    seen, shared, work = set(), set(), [x]
    while work:
        y = work.pop()
        if not isinstance(y, Pair) or _is_short(y):
            continue
        if y in seen:
            shared.add(y)
            continue
        seen.add(y)
        work.append(y.rest)
        work.append(y.first)
    return shared


def write(x: Object, labels: bool = True) -> str:
    """The text of one datum; without labels it may be much longer.

    Raises TextError where it needs more labels than a text can have, `limits.LABELS`."""
    shared = _shared(x) if labels else set()
    if len(shared) >= limits.LABELS:
        raise TextError("more shared parts than labels; verify parts of the proof as theorems of their own")
    numbers: dict[Pair, int] = {}
    out, work = [], [x]
    while work:
        y = work.pop()
        if isinstance(y, tuple):                # a piece of text
            out.append(y[0])
        elif not isinstance(y, Pair):
            out.append(atom_text(y))
        elif y in numbers:
            out.append(f"#{numbers[y]}#")
        else:
            if y in shared:
                numbers[y] = len(numbers) + 1
                out.append(f"#{numbers[y]}=")
            _write_pair(y, shared, out, work)
    return "".join(out)


def _write_pair(y: Pair, shared: set[Pair], out: list, work: list) -> None:
    """Puts the text of a pair to what is written, and its parts to what is still to do."""
    if _is_quote(y) and y.rest not in shared:
        out.append("'")
        work.append(y.rest.first)
        return
    out.append("(")
    pieces, z = [y.first], y.rest
    while isinstance(z, Pair) and z not in shared:
        pieces += [(" ",), z.first]
        z = z.rest
    if z != "NIL":
        pieces += [(" . ",), z]
    pieces.append((")",))
    work.extend(reversed(pieces))


def shown(x: Object, most: int = LONGEST_SHOWN) -> str:
    """The text of an object for a message: without labels, and cut off after `most` characters."""
    out, length, work = [], 0, [x]
    while work and length <= most:
        y = work.pop()
        if isinstance(y, Pair):
            _write_pair(y, set(), out, work)
            length += 1
        else:
            out.append(y[0] if isinstance(y, tuple) else atom_text(y))
            length += len(out[-1])
    return "".join(out) + (" .." if work else "")


def printed(x: Object) -> str:
    """The text of an object as the program's reports show it: in upper case, and without quotes and labels."""
    out, work = [], [x]
    while work:
        y = work.pop()
        if isinstance(y, tuple):
            out.append(y[0])
        elif isinstance(y, Pair):
            out.append("(")
            pieces, z = [y.first], y.rest
            while isinstance(z, Pair):
                pieces += [(" ",), z.first]
                z = z.rest
            if z != "NIL":
                pieces += [(" . ",), z]
            pieces.append((")",))
            work.extend(reversed(pieces))
        else:
            text = atom_text(y)
            out.append(text if text.startswith("|") else text.upper())
    return "".join(out)
