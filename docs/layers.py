#!/usr/bin/env python3
"""Draws docs/layers.svg: the crates in their layers, with arrows for data and for trust.

    docs/layers.py

It fails, and writes nothing, unless the boxes hold exactly the crates of crates.txt, each once, and
every text fits into its box."""

import os
import sys
from html import escape

HERE = os.path.dirname(os.path.abspath(__file__))
WIDTH, HEIGHT = 800, 800
TITLE, SMALL, LINE, BOLD = 15, 12, 17, 1.1

LEFT, MIDDLE, RIGHT = 12, 240, 590
# Left, top, width, height, title, lines. A box that lies in another one comes after it.
BOXES = [
    (MIDDLE, 40, 300, 74, "Program", ["milawa  mw_book", "mw_answers  mw_request"]),
    (MIDDLE, 154, 300, 74, "Theory and kernel",
     ["mw_kernel  mw_theory  mw_preamble", "mw_define  mw_code  mw_machine"]),
    (MIDDLE, 268, 300, 202, "Logic", []),
    (MIDDLE + 10, 298, 280, 46, "", ["Proof", "mw_proof"]),
    (MIDDLE + 10, 349, 280, 63, "",
     ["Rules", "mw_rules  mw_axioms  mw_induct", "mw_prop  mw_base  mw_equal"]),
    (MIDDLE + 10, 417, 280, 46, "", ["Terms", "mw_term  mw_subst  mw_translate"]),
    (MIDDLE, 510, 300, 56, "Objects", ["mw_heap  mw_build  mw_ordinal"]),
    (MIDDLE, 606, 300, 74, "Text", ["mw_read  mw_lex  mw_print", "mw_port"]),
    (LEFT, 154, 188, 124, "Further commands",
     ["mw_taut  mw_lower", "mw_slice  mw_flat", "mw_explain_events", "mw_explain", "mw_bad_steps"]),
    (LEFT, 412, 188, 268, "Tests",
     ["mw_forms", "mw_tests_text", "mw_tests_rules", "mw_tests_kernel", "mw_tests_commands",
      "mw_tests_functions", "", "mw_rows", "mw_rows_guide", "mw_rows_events", "mw_rows_edges",
      "mw_rows_commands"]),
    (RIGHT, 58, 194, 622, "Model and laws", []),
    (RIGHT + 12, 110, 170, 124, "Definitions",
     ["mw_model", "mw_commands", "", "what a reader", "has to believe"]),
    (RIGHT + 12, 400, 170, 158, "Laws, examples",
     ["mw_truth", "mw_descent", "mw_reflect", "mw_examples", "", "proved about",
      "the definitions"]),
]

CENTRE, EDGE = MIDDLE + 150, MIDDLE + 300
# The points of each arrow. Data flow up the middle, and trust goes to the right.
DATA = [
    [(CENTRE, 722), (CENTRE, 682)],
    [(CENTRE, 606), (CENTRE, 568)],
    [(CENTRE, 510), (CENTRE, 472)],
    [(CENTRE, 268), (CENTRE, 230)],
    [(CENTRE, 154), (CENTRE, 116)],
    [(CENTRE, 40), (CENTRE, 16)],
    [(MIDDLE + 150, 249), (LEFT + 190, 249)],
    [(LEFT + 94, 154), (LEFT + 94, 86), (MIDDLE - 2, 86)],
    [(LEFT + 188, 643), (MIDDLE - 2, 643)],
]
TRUST = [[(EDGE, y), (RIGHT - 2, y)] for y in (86, 191, 369, 538, 643)]
TRUST += [[(RIGHT + 97, 400), (RIGHT + 97, 236)]]
# Words beside the arrows: the place where they begin.
WORDS = [
    (CENTRE + 10, 26, "the report"),
    (CENTRE + 10, 139, "verdicts, the next theory"),
    (CENTRE + 10, 253, "formulas, judged proofs"),
    (CENTRE + 10, 495, "shared cells"),
    (CENTRE + 10, 591, "data, one event at a time"),
    (CENTRE + 10, 718, "the bytes of a book"),
    (LEFT, 76, "theorems, books, logs"),
]
LEGEND = [
    (752, DATA, "data"),
    (776, TRUST, "trust: the contracts here, and those of the further commands, are stated in the"
                 " definitions there"),
]


def width(text, size):
    """The width of a text in a wide sans serif font, at most."""
    wide = {"m": 0.98, "w": 0.82, " ": 0.32, "i": 0.3, "l": 0.3, "t": 0.4, "r": 0.42, "_": 0.5}
    return size * sum(wide.get(letter, 0.65) for letter in text)


def check():
    """What is wrong with the boxes."""
    with open(os.path.join(HERE, "..", "crates.txt")) as file:
        crates = sorted(line.partition(":")[0] for line in file if line.strip())
    lines = [line for *_, lines in BOXES for line in lines]
    words = (word for line in lines for word in line.split())
    drawn = sorted(word for word in words if word.startswith("mw_") or word == "milawa")
    wrong = [f"{name}: {drawn.count(name)} times in the picture, {crates.count(name)} in crates.txt"
             for name in sorted({*crates, *drawn}) if drawn.count(name) != crates.count(name)]
    for _, _, wide, high, title, lines in BOXES:
        if width(title, TITLE) * BOLD > wide - 16:
            wrong.append(f"too wide: {title}")
        wrong += [f"too wide: {line}" for line in lines if width(line, SMALL) > wide - 16]
        if TITLE + 8 + LINE * len(lines) + 6 > high and title or LINE * len(lines) > high:
            wrong.append(f"too high: {title or lines[0]}")
    return wrong


def text(x, y, words, size=SMALL, weight="normal"):
    words = escape(words).replace("  ", "&#160; ")  # two blanks would be drawn as one
    return f'<text x="{x}" y="{y}" font-size="{size}" font-weight="{weight}">{words}</text>'


def box(left, top, wide, high, title, lines):
    fill = "#f4f6f8" if title else "#ffffff"
    yield (f'<rect x="{left}" y="{top}" width="{wide}" height="{high}" rx="6" fill="{fill}"'
           ' stroke="#333333" stroke-width="1.2"/>')
    y = top + 4
    if title:
        y += TITLE + 2
        yield text(left + 10, y, title, TITLE, "bold")
        y += 4
    for line in lines:
        y += LINE
        weight = "bold" if not title and line == lines[0] else "normal"
        yield text(left + 10, y - 3, line, weight=weight)


def arrow(points, trust):
    path = " ".join(f"{x},{y}" for x, y in points)
    look = 'stroke="#8a3b00" stroke-dasharray="6 4" marker-end="url(#trust)"' if trust else \
        'stroke="#0b4f8a" marker-end="url(#data)"'
    return f'<polyline points="{path}" fill="none" stroke-width="1.8" {look}/>'


def head(name, colour):
    return (f'<marker id="{name}" viewBox="0 0 10 10" refX="8" refY="5" markerWidth="7"'
            f' markerHeight="7" orient="auto-start-reverse"><path d="M0,0 L10,5 L0,10 z" fill="{colour}"/></marker>')


def picture():
    yield (f'<svg xmlns="http://www.w3.org/2000/svg" width="{WIDTH}" height="{HEIGHT}"'
           f' viewBox="0 0 {WIDTH} {HEIGHT}" fill="#111111"'
           ' font-family="Helvetica, Arial, DejaVu Sans, sans-serif">')
    yield "<title>The layers of Milawa</title>"
    yield f'<defs>{head("data", "#0b4f8a")}{head("trust", "#8a3b00")}</defs>'
    yield f'<rect width="{WIDTH}" height="{HEIGHT}" fill="#ffffff"/>'
    for it in BOXES:
        yield from box(*it)
    for points in DATA:
        yield arrow(points, False)
    for points in TRUST:
        yield arrow(points, True)
    for x, y, words in WORDS:
        yield text(x, y, words)
    for y, arrows, words in LEGEND:
        yield arrow([(LEFT, y), (LEFT + 50, y)], arrows is TRUST)
        yield text(LEFT + 62, y + 4, words)
    yield "</svg>"


if __name__ == "__main__":
    wrong = check()
    if wrong:
        sys.exit("\n".join(wrong))
    with open(os.path.join(HERE, "layers.svg"), "w") as file:
        file.write("\n".join(picture()) + "\n")
