"""The patterns of rules as terms of the logic, which stand for formulas."""
import re
from collections.abc import Container

from ..logic.objects import Object, items


def letters(pattern: Object) -> list[str]:
    """The letters of a formula pattern that stand for formulas, in order."""
    if isinstance(pattern, str):
        return [pattern]
    if pattern.first == "PEQUAL*":
        return []
    return list(dict.fromkeys(l for p in items(pattern)[1:] for l in letters(p)))


def encode(f: Object, formula_letters: Container[str] = ()) -> str:
    """The term that stands for a pattern, as text; in it each of some letters for formulas may be written as the
    equation `A = A`."""
    if isinstance(f, str):
        return f.lower()
    parts = items(f)[1:]
    if f.first == "PEQUAL*":
        if parts[0] is parts[1] and parts[0] in formula_letters:
            return parts[0].lower()
        return f"(logic.pequal {parts[0].lower()} {parts[1].lower()})"
    word = {"PNOT*": "logic.pnot", "POR*": "logic.por"}[f.first]
    return "({} {})".format(word, " ".join(encode(p, formula_letters) for p in parts))


def places(pattern: Object, path: str, found: dict[str, str]) -> None:
    """Notes where each letter stands in what `path` says: the text of a term that selects it."""
    if isinstance(pattern, str):
        found.setdefault(pattern, path)
        return
    for word, part in zip(("second", "third"), items(pattern)[1:]):
        places(part, f"({word} {path})", found)


def dotted_letters(text: str, names: Container[str]) -> str:
    """The text of a term with a dot after each of the names, which tells them from other variables."""
    return re.sub(r"[^ ()]+", lambda m: m.group() + "." if m.group().upper() in names else m.group(), text)


def all_letters(pattern: Object) -> list[str]:
    """The letters of a pattern, those for formulas and those for terms."""
    if isinstance(pattern, str):
        return [pattern]
    return [l for p in items(pattern)[1:] for l in all_letters(p)]
