"""Lists: appending and reversing, length, members, removal, subsets, distinct members."""
from milawa_author import Book

from .statements import Statements


def append_and_reverse(book: Book) -> None:
    """APP and REV: associativity, and that reversing twice gives the list again."""
    state = Statements(book)
    book.define("(app (x y) (if (consp x) (cons (car x) (app (cdr x) y)) y))", "(rank x)")
    book.define("(rev (x) (if (consp x) (app (rev (cdr x)) (cons (car x) nil)) nil))", "(rank x)")
    state("app-associative", "(= (app (app x y) z) (app x (app y z)))", by="x", unfold="app")
    state("app-of-nil", "(implies (logic.listp x) (= (app x 'nil) x))", by="x", unfold="app logic.listp",
          use=("axiom-14",))
    state("listp-of-app", "(= (logic.listp (app x y)) (logic.listp y))", by="x", unfold="app logic.listp")
    state("listp-of-rev", "(= (logic.listp (rev x)) 't)", by="x", unfold="rev logic.listp", rules="listp-of-app")
    state("consp-of-app", "(= (consp (app x y)) (if (consp x) 't (consp y)))", by="x", unfold="app")
    state("car-of-app", "(= (car (app x y)) (if (consp x) (car x) (car y)))", unfold={"app": "once"})
    state("consp-of-rev", "(= (consp (rev x)) (consp x))", unfold={"rev": "once"}, rules="consp-of-app")
    state("rev-of-app", "(= (rev (app x y)) (app (rev y) (rev x)))", by="x", unfold="rev app",
          use=("app-of-nil (x (rev y))", "listp-of-rev (x y)",
               "app-associative (x (rev y)) (y (rev (cdr x))) (z (cons (car x) 'nil))"))
    state("rev-of-rev", "(implies (logic.listp x) (= (rev (rev x)) x))", by="x", unfold="rev app logic.listp",
          use=("axiom-14",), rules="rev-of-app")
    state("app-is-nil", "(implies (= (app x y) 'nil) (= (consp x) 'nil))", unfold={"app": "once"})
    state("app-cancels-left", "(implies (= (app x y) (app x z)) (= y z))", by="x", unfold="app",
          use=("axiom-10 (x (car x)) (y (app (cdr x) y))", "axiom-10 (x (car x)) (y (app (cdr x) z))"))
    book.evaluate("rev-of-three", "(rev '(1 2 3))")


def accumulated(book: Book) -> None:
    """REVAPP, which reverses in one pass."""
    state = Statements(book)
    book.define("(revapp (x y) (if (consp x) (revapp (cdr x) (cons (car x) y)) y))", "(rank x)")
    state("revapp-is-app-of-rev", "(= (revapp x y) (app (rev x) y))", by="x", unfold="revapp rev app",
          hypotheses=({"y": "(cons (car x) y)"},), rules="app-associative")
    state("rev-by-revapp", "(= (revapp x 'nil) (rev x))", rules="revapp-is-app-of-rev app-of-nil (app x 'nil)",
          use=("listp-of-rev",))
    state("revapp-of-app", "(= (revapp (app x y) z) (revapp y (revapp x z)))", by="x", unfold="app revapp",
          hypotheses=({"z": "(cons (car x) z)"},))


def lengths(book: Book) -> None:
    """The length of APP and of REV; the last member."""
    state = Statements(book)
    state("natp-of-len", "(= (natp (logic.len x)) 't)", by="x", unfold="logic.len", rules="axiom-27 (+ a b)")
    state("zero-plus", "(implies (natp a) (= (+ '0 a) a))", use=("axiom-30", "axiom-28 (a '0) (b a)"))
    state("len-of-app", "(= (logic.len (app x y)) (+ (logic.len x) (logic.len y)))", by="x", unfold="app logic.len",
          use=("zero-plus (a (logic.len y))", "natp-of-len (x y)",
               "axiom-29 (a '1) (b (logic.len (cdr x))) (c (logic.len y))"))
    state("len-of-rev", "(= (logic.len (rev x)) (logic.len x))", by="x", unfold="rev logic.len", rules="len-of-app",
          use=("axiom-28 (a (logic.len (cdr x))) (b '1)",))
    state("len-of-revapp", "(= (logic.len (revapp x y)) (+ (logic.len x) (logic.len y)))",
          rules="revapp-is-app-of-rev len-of-app len-of-rev")
    state("len-is-zero", "(= (equal (logic.len x) '0) (if (consp x) 'nil 't))", unfold={"logic.len": "once"},
          use=("axiom-28 (a '1) (b (logic.len (cdr x)))", "positive-successor (b (logic.len (cdr x)))"))
    book.define("(last (x) (if (consp x) (if (consp (cdr x)) (last (cdr x)) (car x)) nil))", "(rank x)")
    state("last-of-app", "(implies (consp y) (= (last (app x y)) (last y)))", by="x", unfold="last app",
          rules="consp-of-app")
    state("car-of-rev", "(= (car (rev x)) (last x))", by="x", unfold={"last": "decided", "rev": "decided"},
          rules="car-of-app consp-of-rev", use=("axiom-12",))
    state("last-of-rev", "(= (last (rev x)) (car x))", unfold={"rev": "once", "last": "decided"}, rules="last-of-app",
          use=("axiom-12",))


def members(book: Book) -> None:
    """LOGIC.MEMBERP, of lists made by the functions above."""
    state = Statements(book)
    state("member-is-boolean", "(or (= (logic.memberp a x) 't) (= (logic.memberp a x) 'nil))", by="x",
          unfold="logic.memberp")
    state("member-of-cons", "(= (logic.memberp a (cons b x)) (if (equal a b) 't (logic.memberp a x)))",
          unfold={"logic.memberp": "once"})
    state("member-of-app", "(= (logic.memberp a (app x y)) (if (logic.memberp a x) 't (logic.memberp a y)))", by="x",
          unfold="logic.memberp app")
    state("member-of-rev", "(= (logic.memberp a (rev x)) (logic.memberp a x))", by="x", unfold="logic.memberp rev",
          rules="member-of-app", use=("member-is-boolean (x (cdr x))",))
    state("member-of-revapp", "(= (logic.memberp a (revapp x y)) (if (logic.memberp a x) 't (logic.memberp a y)))",
          rules="revapp-is-app-of-rev member-of-app member-of-rev")
    state("rank-of-member", "(implies (logic.memberp a x) (= (< (rank a) (rank x)) 't))", by="x",
          unfold="logic.memberp",
          use=("rank-of-car", "rank-of-cdr", "axiom-34 (a (rank a)) (b (rank (cdr x))) (c (rank x))"))
    state("nothing-is-its-member", "(= (logic.memberp x x) 'nil)",
          use=("rank-of-member (a x)", "axiom-33 (a (rank x))"))
    state("last-is-member", "(implies (consp x) (logic.memberp (last x) x))", by="x", unfold="last logic.memberp")
    state("car-is-member", "(implies (consp x) (logic.memberp (car x) x))", unfold={"logic.memberp": "once"})


def removal(book: Book) -> None:
    """REMOVE, which leaves out each copy of a member."""
    state = Statements(book)
    book.define("(remove (a x) (if (consp x) (if (equal a (car x)) (remove a (cdr x)) (cons (car x)"
                " (remove a (cdr x)))) nil))", "(rank x)")
    names = "remove logic.memberp"
    state("member-of-remove", "(= (logic.memberp b (remove a x)) (if (equal a b) 'nil (logic.memberp b x)))", by="x",
          unfold=names)
    state("remove-of-app", "(= (remove a (app x y)) (app (remove a x) (remove a y)))", by="x", unfold="remove app")
    state("remove-of-rev", "(= (remove a (rev x)) (rev (remove a x)))", by="x", unfold="remove rev app",
          rules="remove-of-app app-of-nil (app x 'nil)", use=("listp-of-rev (x (remove a (cdr x)))",))
    state("listp-of-remove", "(= (logic.listp (remove a x)) 't)", by="x", unfold="remove logic.listp")
    state("remove-of-other", "(implies (logic.listp x) (= (logic.memberp a x) 'nil) (= (remove a x) x))", by="x",
          unfold="remove logic.memberp logic.listp", use=("axiom-14",))
    state("remove-twice", "(= (remove a (remove a x)) (remove a x))", by="x", unfold="remove")
    state("remove-commutes", "(= (remove a (remove b x)) (remove b (remove a x)))", by="x", unfold="remove")
    state.linear("successor-at-most", "(implies (= (< b a) 'nil) (= (< (+ '1 b) a) 'nil))")
    state.linear("successor-keeps-at-most", "(implies (= (< b a) 'nil) (= (< (+ '1 b) (+ '1 a)) 'nil))")
    state("len-of-remove", "(= (< (logic.len x) (logic.len (remove a x))) 'nil)", by="x", unfold="remove logic.len",
          use=("successor-at-most (a (logic.len (remove a (cdr x)))) (b (logic.len (cdr x)))",
               "successor-keeps-at-most (a (logic.len (remove a (cdr x)))) (b (logic.len (cdr x)))",
               "axiom-36 (a '0)"))


def subsets(book: Book) -> None:
    """SUBSETP: each member of the one is a member of the other."""
    state = Statements(book)
    book.define("(subsetp (x y) (if (consp x) (if (logic.memberp (car x) y) (subsetp (cdr x) y) nil) t))", "(rank x)")
    names = "subsetp logic.memberp"
    state("subset-is-boolean", "(or (= (subsetp x y) 't) (= (subsetp x y) 'nil))", by="x", unfold="subsetp")
    state("member-of-subset", "(implies (logic.memberp a x) (subsetp x y) (logic.memberp a y))", by="x", unfold=names)
    state("subset-of-cons", "(implies (subsetp x y) (subsetp x (cons a y)))", by="x", unfold="subsetp",
          rules="member-of-cons")
    state("subset-is-reflexive", "(subsetp x x)", by="x", unfold="subsetp", rules="member-of-cons",
          use=("subset-of-cons (x (cdr x)) (y (cdr x)) (a (car x))", "axiom-14", "car-is-member"))
    state("subset-is-transitive", "(implies (subsetp x y) (subsetp y z) (subsetp x z))", by="x", unfold="subsetp",
          use=("member-of-subset (a (car x)) (x y) (y z)",))
    state("app-is-subset", "(= (subsetp (app x y) z) (if (subsetp x z) (subsetp y z) 'nil))", by="x",
          unfold="subsetp app")
    state("subset-of-app-left", "(implies (subsetp x y) (subsetp x (app y z)))", by="x", unfold="subsetp",
          rules="member-of-app")
    state("subset-of-app-right", "(implies (subsetp x z) (subsetp x (app y z)))", by="x", unfold="subsetp",
          rules="member-of-app")
    state("rev-is-subset", "(= (subsetp (rev x) y) (subsetp x y))", by="x", unfold="subsetp rev",
          rules="app-is-subset", use=("subset-is-boolean (x (cdr x))",))
    state("subset-of-rev", "(= (subsetp x (rev y)) (subsetp x y))", by="x", unfold="subsetp", rules="member-of-rev")
    state("remove-is-subset", "(implies (subsetp x y) (subsetp (remove a x) y))", by="x", unfold="subsetp remove")
    state("subset-of-nothing", "(implies (= (consp y) 'nil) (subsetp x y) (= (consp x) 'nil))", unfold=names)


def combinations(book: Book) -> None:
    """UNION, INTERSECT and DIFFERENCE of lists."""
    state = Statements(book)
    book.define("(intersect (x y) (if (consp x) (if (logic.memberp (car x) y) (cons (car x) (intersect (cdr x) y))"
                " (intersect (cdr x) y)) nil))", "(rank x)")
    book.define("(difference (x y) (if (consp x) (if (logic.memberp (car x) y) (difference (cdr x) y)"
                " (cons (car x) (difference (cdr x) y))) nil))", "(rank x)")
    book.define("(union (x y) (app x (difference y x)))")
    state("member-of-intersect",
          "(= (logic.memberp a (intersect x y)) (if (logic.memberp a x) (logic.memberp a y) 'nil))", by="x",
          unfold="intersect logic.memberp", use=("member-is-boolean (x y)",))
    state("member-of-difference",
          "(= (logic.memberp a (difference x y)) (if (logic.memberp a y) 'nil (logic.memberp a x)))", by="x",
          unfold="difference logic.memberp")
    state("member-of-union", "(= (logic.memberp a (union x y)) (if (logic.memberp a x) 't (logic.memberp a y)))",
          unfold="union", rules="member-of-app member-of-difference")
    state("intersect-is-subset", "(subsetp (intersect x y) y)", by="x", unfold="intersect subsetp")
    state("difference-with-superset", "(implies (subsetp x y) (= (difference x y) 'nil))", by="x",
          unfold="difference subsetp")
    state("intersect-with-superset", "(implies (logic.listp x) (subsetp x y) (= (intersect x y) x))", by="x",
          unfold="intersect subsetp logic.listp", use=("axiom-14",))


def distinct(book: Book) -> None:
    """LOGIC.UNIQUEP, and DEDUPE, which leaves one copy of each member."""
    state = Statements(book)
    book.define("(dedupe (x) (if (consp x) (cons (car x) (remove (car x) (dedupe (cdr x)))) nil))", "(rank x)")
    state("unique-of-remove", "(implies (logic.uniquep x) (logic.uniquep (remove a x)))", by="x",
          unfold="logic.uniquep remove", rules="member-of-remove")
    state("unique-of-dedupe", "(logic.uniquep (dedupe x))", by="x", unfold="logic.uniquep dedupe",
          rules="member-of-remove", use=("unique-of-remove (a (car x)) (x (dedupe (cdr x)))",))
    state("member-of-dedupe", "(= (logic.memberp a (dedupe x)) (logic.memberp a x))", by="x",
          unfold="dedupe logic.memberp", rules="member-of-remove")
    state("dedupe-of-unique", "(implies (logic.uniquep x) (logic.listp x) (= (dedupe x) x))", by="x",
          unfold="logic.uniquep logic.listp dedupe", rules="remove-of-other (remove a x)", use=("axiom-14",))


def add_lists(book: Book) -> None:
    """All of the above."""
    for part in (append_and_reverse, accumulated, lengths, members, removal, subsets, combinations, distinct):
        part(book)
