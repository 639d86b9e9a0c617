"""Natural numbers: order, differences, products, powers, the larger and the smaller of two."""
from milawa_author import Book
from milawa_author.logic.kernel import Proof
from milawa_author.logic.notation import term
from milawa_author.rules.arithmetic import equal_sums

from .statements import Statements


def order(book: Book) -> None:
    """The order, with sums and differences: what follows by adding up inequalities."""
    state = Statements(book)
    for name, goal in (
            ("less-is-asymmetric", "(implies (< a b) (= (< b a) 'nil))"),
            ("less-then-at-most", "(implies (< a b) (= (< c b) 'nil) (< a c))"),
            ("at-most-then-less", "(implies (= (< b a) 'nil) (< b c) (< a c))"),
            ("at-most-is-antisymmetric", "(implies (natp a) (natp b) (= (< a b) 'nil) (= (< b a) 'nil) (= a b))"),
            ("less-than-successor", "(implies (= (< b a) 'nil) (< a (+ b '1)))"),
            ("successor-of-less", "(implies (< a b) (= (< b (+ a '1)) 'nil))"),
            ("sum-is-at-least-left", "(= (< (+ a b) a) 'nil)"),
            ("sum-is-at-least-right", "(= (< (+ a b) b) 'nil)"),
            ("sums-keep-less", "(implies (< a b) (= (< d c) 'nil) (< (+ a c) (+ b d)))"),
            ("sum-cancels-left", "(implies (natp a) (natp b) (= (+ c a) (+ c b)) (= a b))"),
            ("sum-cancels-right", "(implies (natp a) (natp b) (= (+ a c) (+ b c)) (= a b))"),
            ("sum-is-zero", "(implies (natp a) (= (+ a b) '0) (= a '0))"),
            ("difference-is-at-most", "(= (< a (- a b)) 'nil)"),
            ("difference-is-less", "(implies (< '0 a) (< '0 b) (< (- a b) a))"),
            ("difference-of-sum", "(implies (natp b) (= (- (+ a b) a) b))"),
            ("difference-and-rest", "(implies (natp a) (= (< a b) 'nil) (= (+ b (- a b)) a))"),
            ("difference-is-monotone", "(implies (= (< b a) 'nil) (= (< (- b c) (- a c)) 'nil))"),
            ("difference-of-more", "(implies (= (< b a) 'nil) (= (< (- c a) (- c b)) 'nil))"),
            ("positive-difference", "(implies (< b a) (< '0 (- a b)))"),
            ("zero-difference", "(implies (= (< b a) 'nil) (= (- a b) '0))")):
        state.linear(name, goal)
    state("zero-of-not-positive", "(implies (natp a) (or (= (< '0 a) 't) (= a '0)))", use=("axiom-37",))


def extremes(book: Book) -> None:
    """MAX and MIN of two naturals, and the largest number of a list."""
    state = Statements(book)
    book.define("(max (a b) (if (< a b) b a))")
    book.define("(min (a b) (if (< a b) a b))")
    trichotomy = ("axiom-35", "less-is-asymmetric")
    state("max-commutes", "(implies (natp a) (natp b) (= (max a b) (max b a)))", unfold="max", use=trichotomy)
    state("min-commutes", "(implies (natp a) (natp b) (= (min a b) (min b a)))", unfold="min", use=trichotomy)
    state("max-is-at-least-left", "(= (< (max a b) a) 'nil)", unfold="max", use=("less-is-asymmetric", "axiom-33"))
    state("max-is-at-least-right", "(= (< (max a b) b) 'nil)", unfold="max", use=("axiom-33 (a b)",))
    state("min-is-at-most-left", "(= (< a (min a b)) 'nil)", unfold="min", use=("axiom-33",))
    state("min-is-at-most-right", "(= (< b (min a b)) 'nil)", unfold="min",
          use=("less-is-asymmetric", "axiom-33 (a b)"))
    state("max-of-same", "(= (max a a) a)", unfold="max")
    state("sum-of-max-and-min", "(= (+ (max a b) (min a b)) (+ a b))", unfold="max min", use=("axiom-28",))
    book.define("(largest (x) (if (consp x) (max (car x) (largest (cdr x))) 0))", "(rank x)")
    state("largest-bounds-members", "(implies (logic.memberp a x) (= (< (largest x) a) 'nil))", by="x",
          unfold="largest logic.memberp max",
          use=("axiom-33", "less-is-asymmetric (a (car x)) (b (largest (cdr x)))",
               "axiom-34 (a (largest (cdr x))) (b (car x)) (c a)",
               "less-then-at-most (a (car x)) (b (largest (cdr x))) (c a)",
               "at-most-then-less (a (largest (cdr x))) (b (car x)) (c a)",
               "axiom-34 (a (car x)) (b a) (c (largest (cdr x)))", "axiom-34 (a (largest (cdr x))) (b (car x)) (c a)",
               "axiom-34 (a (car x)) (b (largest (cdr x))) (c a)"))


def multiplication(book: Book) -> None:
    """TIMES, by repeated addition: zero, successor, commutativity, associativity, distribution, order."""
    def sums(t: str, u: str) -> Proof:
        return equal_sums(book.theory, term(t), term(u))

    state = Statements(book)
    book.define("(times (a b) (if (< 0 a) (+ b (times (- a 1) b)) 0))", "(+ 0 a)")
    state("natp-of-times", "(= (natp (times a b)) 't)", unfold={"times": "once"}, rules="axiom-27 (+ a b)")
    state("times-zero", "(= (times a '0) '0)", by="#a", unfold="times")
    step = [book.at("predecessor"), book.at("zero-of-not-positive"), book.axiom_at(43, a="a", b="'1")]
    p = "(times (- a '1) b)"
    book.prove_by_natural(
        "times-successor", "(implies (natp a) (= (times a (+ '1 b)) (+ a (times a b))))", "a", unfold=["times"],
        use=step + [sums(f"(+ (+ '1 b) (+ (- a '1) {p}))", f"(+ (+ '1 (- a '1)) (+ b {p}))")])
    book.prove_by_natural(
        "times-commutes", "(implies (natp a) (natp b) (= (times a b) (times b a)))", "a", unfold=["times"],
        use=step + [book.at("times-zero", a="b"), book.at("times-successor", a="b", b="(- a '1)")])
    q, r = "(times (- a '1) b)", "(times (- a '1) c)"
    book.prove_by_natural(
        "times-distributes", "(= (times a (+ b c)) (+ (times a b) (times a c)))", "a", unfold=["times"],
        use=[sums(f"(+ (+ b c) (+ {q} {r}))", f"(+ (+ b {q}) (+ c {r}))")])
    state("times-distributes-left", "(implies (natp a) (natp b) (natp c)"
          " (= (times (+ a b) c) (+ (times a c) (times b c))))",
          use=("times-commutes (a (+ a b)) (b c)", "times-commutes (b c)", "times-commutes (a b) (b c)",
               "times-distributes (a c) (b a) (c b)", "axiom-27"))
    state("times-one", "(implies (natp a) (= (times '1 a) a))", unfold="times",
          use=("open (times '1 a)", "open (times '0 a)", "axiom-30"))
    state("times-associates", "(implies (natp a) (natp b) (natp c) (= (times (times a b) c) (times a (times b c))))",
          by="#a", unfold="times",
          use=("times-distributes-left (a b) (b (times (- a '1) b))", "natp-of-times (a (- a '1))",
               "axiom-43 (b '1)", "open (times '0 c)"))
    state("times-is-positive", "(implies (< '0 a) (< '0 b) (< '0 (times a b)))", unfold={"times": "once"},
          use=("positive-by-part (a b) (b (times (- a '1) b))",))
    state("times-keeps-at-most", "(implies (= (< b a) 'nil) (= (< (times c b) (times c a)) 'nil))", by="#c",
          unfold="times", use=("at-most-of-sums (c (times (- c '1) a)) (d (times (- c '1) b))", "axiom-33 (a '0)"))
    book.evaluate("six-times-seven", "(times 6 7)")


def powers(book: Book) -> None:
    """POWER, by repeated multiplication, and FACTORIAL."""
    state = Statements(book)
    book.define("(power (b n) (if (< 0 n) (times b (power b (- n 1))) 1))", "(+ 0 n)")
    book.define("(factorial (n) (if (< 0 n) (times n (factorial (- n 1))) 1))", "(+ 0 n)")
    state("natp-of-power", "(= (natp (power b n)) 't)", unfold={"power": "once"}, rules="natp-of-times")
    state("power-of-one", "(= (power '1 n) '1)", by="#n", unfold="power", use=("times-one (a '1)",))
    state("power-of-positive", "(implies (< '0 b) (< '0 (power b n)))", by="#n", unfold="power",
          use=("times-is-positive (a b) (b (power b (- n '1)))",))
    state("factorial-is-positive", "(< '0 (factorial n))", by="#n", unfold="factorial",
          use=("times-is-positive (a n) (b (factorial (- n '1)))",))
    book.evaluate("factorial-of-five", "(factorial 5)")


def add_naturals(book: Book) -> None:
    """All of the above."""
    for part in (order, extremes, multiplication, powers):
        part(book)
