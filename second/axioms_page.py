"""The axioms and built-in definitions of docs/AXIOMS.md, as text that a log can cite."""

import re

PLACES = {"first": 0, "second": 1, "third": 2, "fourth": 3, "fifth": 4}


def read(text):
    """The first datum of a text, as a string or a list of data; a quote is a list of two."""
    tokens = re.findall(r"[()']|[^\s()']+", text)
    return _datum(tokens, 0)[0]


def _datum(tokens, at):
    if tokens[at] == "'":
        quoted, at = _datum(tokens, at + 1)
        return ["quote", quoted], at
    if tokens[at] != "(":
        return tokens[at], at + 1
    members, at = [], at + 1
    while tokens[at] != ")":
        member, at = _datum(tokens, at)
        members.append(member)
    return members, at + 1


def write(datum):
    """The text of a datum."""
    return datum if isinstance(datum, str) else "(" + " ".join(map(write, datum)) + ")"


def variables(term):
    """The free variables of a term, in the order in which they first occur."""
    if isinstance(term, str):
        return [term]
    found = []
    for part in [] if term[0] == "quote" else term[1:]:
        found += [name for name in variables(part) if name not in found]
    return found


def expanded(raw):
    """A term with its abbreviations written out."""
    if isinstance(raw, str):
        return ["quote", raw] if raw.isdigit() or raw in ("t", "nil") else raw
    head, rest = raw[0], raw[1:]
    if head == "quote":
        return raw
    if isinstance(head, list):
        return [["lambda", head[1], expanded(head[2])]] + [expanded(part) for part in rest]
    if head == "let":
        return _let(rest[0], expanded(rest[1]))
    if head == "let*":
        body = expanded(rest[1])
        for binding in reversed(rest[0]):
            body = _let([binding], body)
        return body
    if head == "cond":
        return _chain(rest, lambda clause, more: ["if", *map(expanded, clause), more])
    return _call(head, [expanded(part) for part in rest])


def _let(bindings, body):
    names = [name for name, _ in bindings]
    others = [name for name in variables(body) if name not in names]
    return [["lambda", names + others, body]] + [expanded(term) for _, term in bindings] + others


def _chain(parts, add, last=("quote", "nil")):
    result = list(last)
    for part in reversed(parts):
        result = add(part, result)
    return result


def _call(head, actuals):
    if head == "list":
        return _chain(actuals, lambda a, more: ["cons", a, more])
    if head == "and":
        return _chain(actuals[:-1], lambda a, more: ["if", a, more, ["quote", "nil"]],
                      actuals[-1] if actuals else ["quote", "t"])
    if head == "or":
        return _chain(actuals[:-1], lambda a, more: ["if", a, a, more],
                      actuals[-1] if actuals else ["quote", "nil"])
    if head in PLACES:
        term = actuals[0]
        for _ in range(PLACES[head]):
            term = ["cdr", term]
        return ["car", term]
    return [head, *actuals]


def formula(text):
    """The text of a formula from the page's notation: `a = b`, `not F`, `F or G`."""
    first, _, rest = " ".join(text.split()).partition(" or ")
    if rest:
        return f"(por* {formula(first)} {formula(rest)})"
    if first.startswith("not "):
        return f"(pnot* {formula(first[4:])})"
    left, right = first.split(" = ")
    return f"(pequal* {left} {right})"


def axioms(page):
    """The axioms of the primitives by number, those of `*` (from 54 on) among them."""
    return {int(number): formula(text)
            for number, text in re.findall(r"^\| (\d+) \| `([^`]*)` \|", page, re.M)}


def definitions(page):
    """The axioms of the built-in definitions: those with a number, and those of the second profile
    alone, which have none."""
    numbered, second = {}, []
    for block in re.findall(r"^```definitions\n(.*?)^```", page, re.M | re.S):
        for chunk in re.split(r"\n\s*\n", block):
            number = re.match(r"; (\d+)\.", chunk)
            text = re.sub(r"^;.*\n", "", chunk, flags=re.M)
            if number and number[1] == "53":
                axiom = formula(text)
            else:
                call, body = re.split(r"\s=\s", text, maxsplit=1)
                axiom = f"(pequal* {call} {write(expanded(read(body)))})"
            if number:
                numbered[int(number[1])] = axiom
            else:
                second.append(axiom)
    return numbered, second
