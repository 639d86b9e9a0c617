"""Parts of lists: TAKE, DROP and NTH, prefixes, repetition, and the leaves of a tree."""
from milawa_author import Book

from .statements import Statements


def take_and_drop(book: Book) -> None:
    """TAKE and DROP: the first n members, and the rest."""
    state = Statements(book)
    book.define("(take (n x) (if (consp x) (if (< 0 n) (cons (car x) (take (- n 1) (cdr x))) nil) nil))", "(rank x)")
    book.define("(drop (n x) (if (consp x) (if (< 0 n) (drop (- n 1) (cdr x)) x) x))", "(rank x)")
    both = ({"n": "(- n '1)"},)
    state("app-of-take-and-drop", "(= (app (take n x) (drop n x)) x)", by="x", unfold="app take drop",
          hypotheses=both, use=("axiom-14",))
    state("listp-of-take", "(= (logic.listp (take n x)) 't)", by="x", unfold="logic.listp take", hypotheses=both)
    state("listp-of-drop", "(= (logic.listp (drop n x)) (logic.listp x))", by="x", unfold="logic.listp drop",
          hypotheses=both)
    state.linear("decrease-of-sum", "(implies (natp a) (= (- (+ '1 a) '1) a))")
    state.linear("positive-successor-of-sum", "(= (< '0 (+ '1 a)) 't)")
    state("take-of-app", "(implies (logic.listp x) (= (take (logic.len x) (app x y)) x))", by="x",
          unfold={"take": "once", "app": "decided", "logic.len": "decided", "logic.listp": "decided"},
          use=("axiom-14", "decrease-of-sum (a (logic.len (cdr x)))", "natp-of-len (x (cdr x))",
               "positive-successor-of-sum (a (logic.len (cdr x)))",
               "open (take (+ '1 (logic.len (cdr x))) (cons (car x) (app (cdr x) y)))"))
    state("drop-of-app", "(= (drop (logic.len x) (app x y)) y)", by="x",
          unfold={"drop": "once", "app": "decided", "logic.len": "decided"},
          use=("decrease-of-sum (a (logic.len (cdr x)))", "natp-of-len (x (cdr x))",
               "positive-successor-of-sum (a (logic.len (cdr x)))",
               "open (drop (+ '1 (logic.len (cdr x))) (cons (car x) (app (cdr x) y)))"))
    state("take-is-subset", "(subsetp (take n x) x)", by="x", unfold="take subsetp", hypotheses=both,
          rules="member-of-cons",
          use=("subset-of-cons (x (take (- n '1) (cdr x))) (y (cdr x)) (a (car x))", "axiom-14", "car-is-member"))
    state("member-of-drop", "(implies (logic.memberp a (drop n x)) (logic.memberp a x))", by="x",
          unfold="drop logic.memberp", hypotheses=both)
    state("predecessor", "(implies (= (< '0 a) 't) (= (+ '1 (- a '1)) a))",
          use=("axiom-35 (a '1) (b a)", "axiom-39 (a '0) (b a)", "axiom-41 (a '0) (b a)", "axiom-49 (b '1)"))
    state("length-after-decrease", "(implies (< '0 n) (natp a) (= (- a (- n '1)) (- (+ '1 a) n)))",
          use=("predecessor (a n)", "axiom-51 (a (+ '1 a)) (b '1) (c (- n '1))", "decrease-of-sum"))
    state("len-of-drop", "(= (logic.len (drop n x)) (- (logic.len x) n))", by="x", unfold="drop logic.len",
          hypotheses=both, use=("length-after-decrease (a (logic.len (cdr x)))", "natp-of-len (x (cdr x))",
                                "axiom-48 (a '0) (b n)", "axiom-37 (a n)", "axiom-46 (a (logic.len x))",
                                "natp-of-len", "axiom-36 (a n)", "axiom-45 (a (logic.len x)) (b n)",
                                "axiom-46 (a '0)"))


def places(book: Book) -> None:
    """NTH: the member at a place, counted from 0."""
    state = Statements(book)
    book.define("(nth (n x) (if (< 0 n) (nth (- n 1) (cdr x)) (car x)))", "(+ 0 n)")
    state("nth-of-nil", "(= (nth n 'nil) 'nil)", by="#n", unfold="nth")
    state("car-of-drop", "(= (car (drop n x)) (nth n x))", by="x", unfold="drop",
          hypotheses=({"n": "(- n '1)"},),
          use=("axiom-12", "axiom-13", "nth-of-nil (n (- n '1))", "open (nth n x)"))
    state("nth-of-cons", "(= (nth n (cons a x)) (if (< '0 n) (nth (- n '1) x) a))", unfold={"nth": "once"})
    state.linear("less-after-decrease", "(implies (< n (+ '1 a)) (< '0 n) (< (- n '1) a))")
    state("nth-is-member", "(implies (< n (logic.len x)) (logic.memberp (nth n x) x))", by="x",
          unfold="logic.memberp logic.len", hypotheses=({"n": "(- n '1)"},),
          use=("open (nth n x)", "less-after-decrease (a (logic.len (cdr x)))", "axiom-36 (a n)"))
    state("nth-of-app-left", "(implies (< n (logic.len x)) (= (nth n (app x y)) (nth n x)))", by="x",
          unfold="app logic.len", hypotheses=({"n": "(- n '1)"},),
          use=("open (nth n x)", "open (nth n (cons (car x) (app (cdr x) y)))",
               "less-after-decrease (a (logic.len (cdr x)))", "axiom-36 (a n)"))
    book.define("(update (n a x) (if (consp x) (if (< 0 n) (cons (car x) (update (- n 1) a (cdr x)))"
                " (cons a (cdr x))) nil))", "(rank x)")
    state("len-of-update", "(= (logic.len (update n a x)) (logic.len x))", by="x", unfold="update logic.len",
          hypotheses=({"n": "(- n '1)"},))
    state("nth-of-update", "(implies (< n (logic.len x)) (= (nth n (update n a x)) a))", by="x",
          unfold="update logic.len", hypotheses=({"n": "(- n '1)"},), rules="nth-of-cons (nth n (cons a x))",
          use=("less-after-decrease (a (logic.len (cdr x)))", "axiom-36 (a n)"))


def prefixes(book: Book) -> None:
    """PREFIXP, and REPEAT, a list of n copies."""
    state = Statements(book)
    book.define("(prefixp (x y) (if (consp x) (if (consp y) (if (equal (car x) (car y)) (prefixp (cdr x) (cdr y)) nil)"
                " nil) t))", "(rank x)")
    state("prefix-is-reflexive", "(prefixp x x)", by="x", unfold="prefixp")
    state("prefix-of-app", "(prefixp x (app x y))", by="x", unfold="prefixp app")
    state("take-is-prefix", "(prefixp (take n x) x)", by="x", unfold="prefixp take", hypotheses=({"n": "(- n '1)"},))
    state("prefix-is-transitive", "(implies (prefixp x y) (prefixp y z) (prefixp x z))", by="x", unfold="prefixp",
          hypotheses=({"y": "(cdr y)", "z": "(cdr z)"},))
    state("prefix-is-subset", "(implies (prefixp x y) (subsetp x y))", by="x", unfold="prefixp subsetp logic.memberp",
          hypotheses=({"y": "(cdr y)"},), rules="member-of-cons",
          use=("subset-of-cons (x (cdr x)) (y (cdr y)) (a (car y))", "axiom-14 (x y)"))
    state("successor-keeps-less", "(= (< (+ '1 a) (+ '1 b)) (< a b))", use=("axiom-40 (a '1) (b a) (c b)",))
    state("len-of-prefix", "(implies (prefixp x y) (= (< (logic.len y) (logic.len x)) 'nil))", by="x",
          unfold="prefixp logic.len", hypotheses=({"y": "(cdr y)"},), rules="successor-keeps-less",
          use=("axiom-36 (a (logic.len y))",))
    book.define("(repeat (n a) (if (< 0 n) (cons a (repeat (- n 1) a)) nil))", "(+ 0 n)")
    state("len-of-repeat", "(implies (natp n) (= (logic.len (repeat n a)) n))", by="#n", unfold="repeat logic.len",
          use=("axiom-49 (a n) (b '1)", "axiom-43 (a n) (b '1)", "axiom-41 (a '0) (b n)", "axiom-35 (a '1) (b n)",
               "axiom-37 (a n)"))
    state("member-of-repeat", "(implies (logic.memberp b (repeat n a)) (= b a))", by="#n",
          unfold="repeat logic.memberp")
    state("listp-of-repeat", "(= (logic.listp (repeat n a)) 't)", by="#n", unfold="repeat logic.listp")


def leaves(book: Book) -> None:
    """FLATTEN, the list of the leaves of a tree, and MIRROR, which exchanges the halves of each pair."""
    state = Statements(book)
    book.define("(flatten (x) (if (consp x) (app (flatten (car x)) (flatten (cdr x))) (cons x nil)))", "(rank x)")
    book.define("(mirror (x) (if (consp x) (cons (mirror (cdr x)) (mirror (car x))) x))", "(rank x)")
    book.define("(leaves (x) (if (consp x) (+ (leaves (car x)) (leaves (cdr x))) 1))", "(rank x)")
    tree = "(mirror x)"
    state("listp-of-flatten", "(= (logic.listp (flatten x)) 't)", by=tree, unfold="flatten logic.listp",
          rules="listp-of-app")
    state("consp-of-flatten", "(= (consp (flatten x)) 't)", by=tree, unfold="flatten", rules="consp-of-app")
    state("mirror-of-mirror", "(= (mirror (mirror x)) x)", by=tree, unfold="mirror", use=("axiom-14",))
    state("flatten-of-mirror", "(= (flatten (mirror x)) (rev (flatten x)))", by=tree, unfold="flatten mirror rev app",
          rules="rev-of-app")
    state("leaves-of-mirror", "(= (leaves (mirror x)) (leaves x))", by=tree, unfold="leaves mirror",
          use=("axiom-28 (a (leaves (car x))) (b (leaves (cdr x)))",))
    state("len-of-flatten", "(= (logic.len (flatten x)) (leaves x))", by=tree, unfold="leaves flatten logic.len",
          rules="len-of-app")
    state("rank-of-mirror", "(= (rank (mirror x)) (rank x))", by=tree, unfold="rank mirror",
          use=("axiom-28 (a (rank (car x))) (b (rank (cdr x)))",))
    state("natp-of-leaves", "(= (natp (leaves x)) 't)", unfold={"leaves": "once"}, rules="axiom-27 (+ a b)")
    state.linear("positive-by-part", "(implies (< '0 a) (< '0 (+ a b)))")
    state("leaves-is-positive", "(= (< '0 (leaves x)) 't)", by=tree, unfold="leaves",
          use=("positive-by-part (a (leaves (car x))) (b (leaves (cdr x)))",))


def add_parts(book: Book) -> None:
    """All of the above."""
    for part in (take_and_drop, places, prefixes, leaves):
        part(book)
