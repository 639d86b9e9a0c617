"""The machine of level 8 that computes values of ground terms, as functions of a book.

A state is a pair of a stack and a term.  A frame of the stack, `(head before after)`, is a call of which one actual is
being computed: the values of those before it, the last one first, and those after it.  PLUG puts the term back into
its frames: that is the term that the state stands for.  ADVANCE makes one move, NIL where there is none:
 - of a call: its first actual comes next, and the rest is a frame; a lambda call becomes its body with the actuals put
   in, as they are;
 - of a constant: the next actual of its frame comes next; or where there is none, what the call reduces to; under IF
   the branch that the constant chooses.
COMPUTE makes n moves at most.  DEFS are axioms, in which definitions are looked up.
"""
from ..book import Book

TERM = "(ladder.plug (car s) (cdr s))"
VALUE = "(cons 'quote (cons u 'nil))"           # the constant of u

DEFINITIONS = (
    ("(ladder.onto (xs ys) (if (consp xs) (ladder.onto (cdr xs) (cons (car xs) ys)) ys))", "(rank xs)"),
    ("(ladder.fill (frame x) (if (symbolp (first frame)) (if (equal (first frame) 'quote) nil"
     " (cons (first frame) (ladder.onto (second frame) (cons x (third frame))))) nil))", "nil"),
    ("(ladder.plug (stack x) (if (consp stack) (ladder.plug (cdr stack) (ladder.fill (car stack) x)) x))",
     "(rank stack)"),
    ("(ladder.definition (f defs) (if (consp defs) (if (equal (car (second (car defs))) f)"
     " (if (equal (first (car defs)) 'pequal*) (car defs) (ladder.definition f (cdr defs)))"
     " (ladder.definition f (cdr defs))) nil))", "(rank defs)"),
    ("(ladder.open (x f atbl) (let ((s (logic.pair (cdr (second f)) (cdr x))))"
     " (if (logic.sigmap s atbl) (if (equal (first f) 'pequal*) (if (equal (logic.substitute (second f) s) x)"
     " (logic.substitute (third f) s) nil) nil) nil)))", "nil"),
    ("(ladder.beta (x atbl) (let ((s (logic.pair (second (car x)) (cdr x)))) (if (logic.sigmap s atbl)"
     " (logic.substitute (third (car x)) s) nil)))", "nil"),
    ("(ladder.apply (x) (if (logic.const-listp (cdr x)) (list 'quote (logic.apply (car x) (logic.unquote-list"
     " (cdr x)))) nil))", "nil"),
    ("(ladder.reduct (x defs atbl) (if (consp (car x)) (ladder.beta x atbl) (if (logic.primitivep (car x))"
     " (ladder.apply x) (if (ladder.definition (car x) defs) (ladder.open x (ladder.definition (car x) defs) atbl)"
     " nil))))", "nil"),
    ("(ladder.return (frame stack x defs atbl) (if (equal (first frame) 'if) (if (if (equal (second frame) nil)"
     " (equal (third frame) (list (first (third frame)) (second (third frame)))) nil)"
     " (cons stack (if (equal x ''nil) (second (third frame)) (first (third frame)))) nil)"
     " (if (consp (third frame)) (cons (cons (list (first frame) (cons x (second frame)) (cdr (third frame))) stack)"
     " (car (third frame))) (if (ladder.reduct (ladder.fill frame x) defs atbl)"
     " (cons stack (ladder.reduct (ladder.fill frame x) defs atbl)) nil))))", "nil"),
    ("(ladder.enter (stack x defs atbl) (if (if (symbolp (car x)) (consp (cdr x)) nil)"
     " (cons (cons (list (car x) nil (cdr (cdr x))) stack) (car (cdr x)))"
     " (if (ladder.reduct x defs atbl) (cons stack (ladder.reduct x defs atbl)) nil)))", "nil"),
    ("(ladder.advance (s defs atbl) (if (equal (car (cdr s)) 'quote) (if (consp (car s))"
     " (ladder.return (car (car s)) (cdr (car s)) (cdr s) defs atbl) nil) (if (consp (cdr s))"
     " (ladder.enter (car s) (cdr s) defs atbl) nil)))", "nil"),
    ("(ladder.compute (n s defs atbl) (if (< 0 n) (if (if (consp (car s)) nil (equal (car (cdr s)) 'quote)) (cdr s)"
     " (let ((next (ladder.advance s defs atbl))) (if next (ladder.compute (- n 1) next defs atbl) nil))) nil))",
     "(+ 0 n)"),
)


def define_machine(book: Book) -> None:
    """The functions of the machine."""
    for text, measure in DEFINITIONS:
        book.define(text, measure)
