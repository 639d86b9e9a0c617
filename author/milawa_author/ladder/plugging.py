"""Equals in a state of the machine: a term with an equal term in its place is equal, frame by frame."""
from ..book import Book
from .equations import ASSUMPTION
from .texts import equation_rules, formula_rules, is_term, provable, prove_along


def is_list(xs: str) -> str:
    """xs is a list of terms."""
    return f"(logic.flag-termp 'list {xs} atbl)"


def _open_list(book: Book, xs: str) -> list:
    return [book.definition_at("logic.flag-termp", "'list", xs, "atbl")]


def verify_onto(book: Book) -> None:
    """ONTO: lists of terms, their lengths, and equations of their members."""
    onto = [book.definition_at("ladder.onto", "xs", ys) for ys in ("us", "vs")]
    step = {"xs": "(cdr xs)", "us": "(cons (car xs) us)", "vs": "(cons (car xs) vs)"}
    both = _open_list(book, "(cons (car xs) us)") + _open_list(book, "(cons (car xs) vs)")
    prove_along(book, "term-of-onto", f"(implies {is_list('(ladder.onto xs us)')} {is_list('us')})", "xs",
                [{k: v for k, v in step.items() if k != "vs"}], use=onto[:1] + both[:1])
    prove_along(book, "terms-onto", f"(implies {is_list('(ladder.onto xs us)')} {is_list('vs')}"
                f" {is_list('(ladder.onto xs vs)')})", "xs", [step],
                use=onto + both + [book.at("TERM-OF-ONTO", xs="(cdr xs)", us="(cons (car xs) us)")])
    prove_along(book, "len-of-onto",
                "(implies (= (logic.len us) (logic.len vs)) (= (logic.len (ladder.onto xs us)) (logic.len"
                " (ladder.onto xs vs))))", "xs", [step],
                use=onto + [book.definition_at("logic.len", f"(cons (car xs) {u})") for u in ("us", "vs")])
    arguments = "(ladder.arguments-okp p {} {} as)"
    prove_along(book, "arguments-onto", f"(implies {arguments.format('us', 'vs')}"
                f" {arguments.format('(ladder.onto xs us)', '(ladder.onto xs vs)')})", "xs", [step],
                use=onto + [book.definition_at("ladder.arguments-okp", "p", "(cons (car xs) us)", "(cons (car xs) vs)",
                                               "as")])
    prove_along(book, "arguments-of-same", "(ladder.arguments-okp p xs xs 'nil)", "xs", [{"xs": "(cdr xs)"}],
                use=[book.definition_at("ladder.arguments-okp", "p", "xs", "xs", "'nil")])


WHOLE, OTHER = "(ladder.fill frame x)", "(ladder.fill frame y)"


def verify_fill(book: Book) -> None:
    """FILL: what is in a frame is a term, and equals in a frame make equal calls."""
    inner, outer = "(cons x (third frame))", "(cons y (third frame))"
    filled = [book.definition_at("ladder.fill", "frame", x) for x in "xy"]
    onto = [f"(ladder.onto (second frame) {us})" for us in (inner, outer)]
    book.prove("nil-is-no-term", "(= (logic.termp 'nil atbl) 'nil)", unfold=["logic.termp", "logic.variablep"],
               use=[book.definition_at("logic.flag-termp", "'term", "'nil", "atbl")])
    opened = [book.definition_at("logic.termp", t, "atbl") for t in ("x", "y")]
    parts = [book.at("CALL-PARTS", l=t) for t in (WHOLE, OTHER)]
    book.prove("term-in-frame", f"(implies {is_term(WHOLE)} {is_term('x')})",
               use=[filled[0], book.at("NIL-IS-NO-TERM"), parts[0], opened[0], *_open_list(book, inner),
                    book.at("TERM-OF-ONTO", xs="(second frame)", us=inner)])
    book.prove("call-lookup", f"(implies {is_term('l')} (consp l) (symbolp (car l)) (!= (car l) 'quote)"
               " (logic.lookup (car l) atbl))", unfold=["logic.termp"],
               use=[book.definition_at("logic.flag-termp", "'term", "l", "atbl"), book.axiom_at(23, x="(car l)")])
    book.prove("term-of-other-fill", f"(implies {is_term(WHOLE)} {is_term('y')} {is_term(OTHER)})",
               use=[*filled, book.at("NIL-IS-NO-TERM"), *parts[:1], *opened, *_open_list(book, inner),
                    *_open_list(book, outer), book.at("TERM-OF-ONTO", xs="(second frame)", us=inner),
                    book.at("TERMS-ONTO", xs="(second frame)", us=inner, vs=outer),
                    book.at("LEN-OF-ONTO", xs="(second frame)", us=inner, vs=outer),
                    book.definition_at("logic.len", inner), book.definition_at("logic.len", outer),
                    book.definition_at("logic.termp", OTHER, "atbl"), book.at("CALL-ARITY", l=WHOLE),
                    book.at("CALL-LOOKUP", l=WHOLE),
                    book.definition_at("logic.flag-termp", "'term", OTHER, "atbl"),
                    book.axiom_at(23, x="(first frame)")])
    e, xy = f"(logic.pequal {WHOLE} {OTHER})", "(logic.pequal x y)"
    one = f"(cons {xy} 'nil)"
    book.prove("arguments-of-frame", f"(implies (!= x y) (ladder.arguments-okp p {onto[0]} {onto[1]} {one}))",
               use=[book.at("ARGUMENTS-ONTO", xs="(second frame)", us=inner, vs=outer, as_=one),
                    book.definition_at("ladder.arguments-okp", "p", inner, outer, one),
                    book.at("ARGUMENTS-OF-SAME", xs="(third frame)")])
    rules = formula_rules(book) + equation_rules(book)
    feq = f"(logic.feq {onto[0]} {onto[1]} {e})"
    book.prove("fill-congruence", f"(implies {ASSUMPTION} {provable(xy)} {is_term(WHOLE)} {provable(e)})",
               rules=rules, depth=9,
               use=[*filled, book.at("NIL-IS-NO-TERM"), book.at("TERM-OF-OTHER-FILL"), book.at("TERM-IN-FRAME"),
                    book.at("PROVABLE-REFLEXIVITY", a=WHOLE), book.at("FORMULA-PEQUAL", a=WHOLE, b=OTHER),
                    book.at("PROVABLE-FUNCTIONAL-EQUALITY", l=WHOLE, r=OTHER),
                    book.at("PROVABLE-EXPANSION", a=feq, b=e), book.at("ARGUMENTS-OF-FRAME", p=e),
                    book.at("PROVABLE-BY-ARGUMENTS", p=e, xs=onto[0], ys=onto[1], e=e, as_=one),
                    book.at("ALL-PROVABLE-OF-CONS", x=xy, xs="'nil"), book.at("ALL-PROVABLE-OF-NIL"),
                    book.at("PROVABLE-CONTRACTION", a=e)])


def verify_plug(book: Book) -> None:
    """PLUG: the same for all frames of a stack."""
    first = "(ladder.fill (car stack) {})"
    plug = [book.definition_at("ladder.plug", "stack", x) for x in "xy"]
    whole = is_term("(ladder.plug stack x)")
    prove_along(book, "term-in-plug", f"(implies {whole} {is_term('x')})", "stack",
                [{"stack": "(cdr stack)", "x": first.format("x")}],
                use=plug[:1] + [book.at("TERM-IN-FRAME", frame="(car stack)")])
    e = "(logic.pequal (ladder.plug stack x) (ladder.plug stack y))"
    prove_along(book, "plug-congruence",
                f"(implies {ASSUMPTION} {provable('(logic.pequal x y)')} {whole} {provable(e)})", "stack",
                [{"stack": "(cdr stack)", "x": first.format("x"), "y": first.format("y")}],
                use=plug + [book.at("FILL-CONGRUENCE", frame="(car stack)"),
                            book.at("TERM-IN-PLUG", stack="(cdr stack)", x=first.format("x"))])


def verify_plugging(book: Book) -> None:
    """All of the above."""
    verify_onto(book)
    verify_fill(book)
    verify_plug(book)
