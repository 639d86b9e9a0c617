"""Division: quotient and remainder by subtraction, divisors by a witness, the greatest common divisor, parity."""
from milawa_author import Book
from milawa_author.logic.notation import term
from milawa_author.rules.instances import definition_axiom, instance

from .statements import Statements


def parity(book: Book) -> None:
    """EVENP and ODDP, which call each other."""
    state = Statements(book)
    book.define_all([("(evenp (n) (if (< 0 n) (oddp (- n 1)) t))", "(+ 0 n)"),
                     ("(oddp (n) (if (< 0 n) (evenp (- n 1)) nil))", "(+ 0 n)")])
    both = ("open (evenp n)", "open (oddp n)")
    state("even-or-odd", "(= (cons (evenp n) (oddp n)) (if (evenp n) '(t . nil) '(nil . t)))", by="#n", use=both)
    parts = ("even-or-odd", "axiom-9 (x (evenp n)) (y (oddp n))", "axiom-10 (x (evenp n)) (y (oddp n))")
    state("odd-is-not-even", "(= (oddp n) (if (evenp n) 'nil 't))", use=parts)
    state("even-is-boolean", "(or (= (evenp n) 't) (= (evenp n) 'nil))", use=parts)
    state("even-of-successor", "(implies (natp n) (= (evenp (+ '1 n)) (if (evenp n) 'nil 't)))",
          use=("open (evenp (+ '1 n))", "odd-is-not-even", "positive-successor-of-sum (a n)", "decrease-of-sum (a n)"))
    state("even-of-sum", "(implies (natp a) (natp b) (= (evenp (+ a b)) (equal (evenp a) (evenp b))))", by="#a",
          use=("predecessor", "zero-of-not-positive", "zero-plus (a b)", "axiom-29 (a '1) (b (- a '1)) (c b)",
               "axiom-43 (b '1)", "axiom-27 (a (- a '1))", "even-of-successor (n (- a '1))", "open (evenp '0)",
               "even-of-successor (n (+ (- a '1) b))", "even-is-boolean (n b)", "even-is-boolean (n (- a '1))",
               "even-is-boolean (n (+ (- a '1) b))"), splits=200)
    state("double-is-even", "(implies (natp a) (evenp (+ a a)))", use=("even-of-sum (b a)",))
    state("even-of-product", "(implies (natp a) (natp b) (evenp b) (evenp (times a b)))", by="#a", unfold="times",
          use=("even-of-sum (a b) (b (times (- a '1) b))", "natp-of-times (a (- a '1))", "axiom-43 (b '1)",
               "open (evenp '0)", "even-is-boolean (n b)", "even-is-boolean (n (times (- a '1) b))"))


def division(book: Book) -> None:
    """QUOTIENT and REMAINDER."""
    state = Statements(book)
    for text in ("(quotient (a b) (if (< 0 b) (if (< 0 a) (if (< a b) 0 (+ 1 (quotient (- a b) b))) 0) 0))",
                 "(remainder (a b) (if (< 0 b) (if (< 0 a) (if (< a b) a (remainder (- a b) b)) 0) 0))"):
        book.define(text, "(+ 0 a)")
    call = "(remainder a b)"
    state("natp-of-quotient", "(= (natp (quotient a b)) 't)", unfold={"quotient": "once"}, rules="axiom-27 (+ a b)")
    state("natp-of-remainder", "(= (natp (remainder a b)) 't)", by=call,
          use=("axiom-39 (a '0) (b a)",))
    state("remainder-is-less", "(implies (< '0 b) (< (remainder a b) b))", by=call)
    state("remainder-is-at-most", "(= (< a (remainder a b)) 'nil)", by=call,
          use=("axiom-33", "axiom-36", "difference-is-at-most",
               "at-most-is-transitive (a (remainder (- a b) b)) (b (- a b)) (c a)"))
    state("remainder-of-small", "(implies (natp a) (< a b) (= (remainder a b) a))",
          use=("open (remainder a b)", "zero-of-not-positive", "at-most-then-less (a '0) (b a) (c b)", "axiom-36"))
    state("quotient-of-small", "(implies (< a b) (= (quotient a b) '0))", unfold={"quotient": "once"})
    state("division", "(implies (natp a) (< '0 b) (= (+ (times (quotient a b) b) (remainder a b)) a))", by=call,
          use=("open (quotient a b)", "open (times '0 b)", "open (times (+ '1 (quotient (- a b) b)) b)", "zero-plus",
               "zero-of-not-positive",
               "positive-successor-of-sum (a (quotient (- a b) b))", "decrease-of-sum (a (quotient (- a b) b))",
               "natp-of-quotient (a (- a b))", "axiom-43", "difference-and-rest",
               "axiom-29 (a b) (b (times (quotient (- a b) b) b)) (c (remainder (- a b) b))"), splits=200)
    state("remainder-of-remainder", "(implies (natp a) (< '0 b) (= (remainder (remainder a b) b) (remainder a b)))",
          use=("remainder-is-less", "natp-of-remainder", "remainder-of-small (a (remainder a b))"))
    state("remainder-of-multiple", "(implies (natp b) (= (remainder (times k b) b) '0))", by="#k",
          unfold="times",
          use=("open (remainder (+ b (times (- k '1) b)) b)", "sum-is-at-least-left (a b) (b (times (- k '1) b))",
               "difference-of-sum (a b) (b (times (- k '1) b))", "natp-of-times (a (- k '1))",
               "open (remainder '0 b)", "positive-by-part (a b) (b (times (- k '1) b))", "axiom-37 (a b)",
               "open (remainder (times k b) b)"))
    book.evaluate("fifty-by-eight", "(cons (quotient 50 8) (remainder 50 8))")


def divisors(book: Book) -> None:
    """DIVIDES, by a witness for the quotient; and that GCD divides both and is divided by each common divisor."""
    state = Statements(book)
    book.skolem("divisor-witness", "q", ("n", "d"), "(equal (times d q) n)")
    book.define("(divides (d n) (equal (times d (divisor-witness n d)) n))")
    chosen = instance(definition_axiom(book.theory, "divisor-witness"), {"N": term("(times d q)")})
    book.prove("divides-multiple", "(divides d (times d q))", unfold=["divides"], use=[chosen])
    state("multiple-of-divisor", "(implies (divides d n) (= (times d (divisor-witness n d)) n))", unfold="divides")
    state("divides-zero", "(divides d '0)", use=("divides-multiple (q '0)", "times-zero (a d)"))
    state("divides-sum", "(implies (divides d a) (divides d b) (divides d (+ a b)))",
          use=("multiple-of-divisor (n a)", "multiple-of-divisor (n b)",
               "divides-multiple (q (+ (divisor-witness a d) (divisor-witness b d)))",
               "times-distributes (a d) (b (divisor-witness a d)) (c (divisor-witness b d))"))
    state("divides-itself", "(implies (natp d) (divides d d))",
          use=("divides-multiple (q '1)", "times-commutes (a d) (b '1)", "times-one (a d)"))
    state("times-distributes-over-difference", "(= (times a (- b c)) (- (times a b) (times a c)))",
          unfold="times", use=("axiom-48 (a b) (b c)", "times-zero", "axiom-49 (a b) (b c)",
                               "times-distributes (b c) (c (- b c))", "axiom-50 (a (times a c)) (b (times a (- b c)))",
                               "zero-plus (a (times a (- b c)))", "natp-of-times (b (- b c))",
                               "axiom-48 (a (times a b)) (b (times a c))",
                               "times-keeps-at-most (c a) (a b) (b c)"))
    state("divides-difference", "(implies (divides d a) (divides d b) (divides d (- a b)))",
          use=("multiple-of-divisor (n a)", "multiple-of-divisor (n b)",
               "divides-multiple (q (- (divisor-witness a d) (divisor-witness b d)))",
               "times-distributes-over-difference (a d) (b (divisor-witness a d)) (c (divisor-witness b d))"))
    book.define("(gcd (a b) (if (< 0 a) (if (< 0 b) (if (< a b) (gcd a (- b a)) (gcd (- a b) b)) a) b))", "(+ a b)")
    call, once = "(gcd a b)", {"gcd": "once"}
    state("natp-of-gcd", "(implies (natp a) (natp b) (natp (gcd a b)))", by=call,
          rules="axiom-43 (- a b)")
    state("gcd-of-zero", "(= (gcd '0 b) b)", unfold=once)
    state("gcd-of-itself", "(implies (natp a) (= (gcd a a) a))", unfold=once,
          use=("axiom-33", "axiom-47", "gcd-of-zero (b a)", "axiom-37"))
    state("gcd-divides-both",
          "(implies (natp a) (natp b) (if (divides (gcd a b) a) (divides (gcd a b) b) 'nil))", by=call,
          rules="axiom-43 (- a b)",
          use=("divides-itself (d a)", "divides-itself (d b)", "divides-zero (d a)", "divides-zero (d b)",
               "axiom-37 (a a)", "axiom-37 (a b)", "difference-and-rest", "difference-and-rest (a b) (b a)",
               "less-is-asymmetric",
               "divides-sum (d (gcd (- a b) b)) (a b) (b (- a b))",
               "divides-sum (d (gcd a (- b a))) (b (- b a))"), splits=200)
    state("gcd-is-greatest", "(implies (divides d a) (divides d b) (divides d (gcd a b)))", by=call,
          use=("divides-difference", "divides-difference (a b) (b a)"))
    book.evaluate("gcd-of-84-and-36", "(gcd 84 36)")


def add_divisors(book: Book) -> None:
    """All of the above."""
    for part in (parity, division, divisors):
        part(book)
