"""Sorting: how often a member occurs, permutations, an insertion sort and a merge, both verified."""
from milawa_author import Book

from .statements import Statements


def occurrences(book: Book) -> None:
    """OCCURRENCES, how often a member occurs, in lists made by functions of the library."""
    state = Statements(book)
    book.define("(occurrences (a x) (if (consp x) (if (equal a (car x)) (+ 1 (occurrences a (cdr x)))"
                " (occurrences a (cdr x))) 0))", "(rank x)")
    names = "occurrences app rev remove logic.memberp"
    state("natp-of-occurrences", "(= (natp (occurrences a x)) 't)", by="x", unfold=names, rules="axiom-27 (+ a b)")
    state("occurrences-of-app", "(= (occurrences a (app x y)) (+ (occurrences a x) (occurrences a y)))", by="x",
          unfold=names, rules="zero-plus (+ '0 a) natp-of-occurrences",
          use=("axiom-29 (a '1) (b (occurrences a (cdr x))) (c (occurrences a y))",))
    state("occurrences-of-rev", "(= (occurrences a (rev x)) (occurrences a x))", by="x", unfold=names,
          rules="occurrences-of-app",
          use=("axiom-28 (a (occurrences a (cdr x))) (b '1)", "axiom-30 (a (occurrences a (cdr x)))",
               "natp-of-occurrences (x (cdr x))"))
    state("members-occur", "(= (< '0 (occurrences a x)) (logic.memberp a x))", by="x", unfold=names,
          use=("positive-successor-of-sum (a (occurrences a (cdr x)))",))
    state("occurrences-of-remove", "(= (occurrences a (remove b x)) (if (equal a b) '0 (occurrences a x)))", by="x",
          unfold=names)
    state("unique-members-occur-once", "(implies (logic.uniquep x) (= (< '1 (occurrences a x)) 'nil))", by="x",
          unfold="occurrences logic.uniquep",
          use=("members-occur (x (cdr x))", "axiom-37 (a (occurrences a (cdr x)))", "natp-of-occurrences (x (cdr x))"))


def permutations(book: Book) -> None:
    """PERMP: the one list is the other in another order."""
    state = Statements(book)
    book.define("(remove-one (a x) (if (consp x) (if (equal a (car x)) (cdr x) (cons (car x) (remove-one a (cdr x))))"
                " nil))", "(rank x)")
    book.define("(permp (x y) (if (consp x) (if (logic.memberp (car x) y) (permp (cdr x) (remove-one (car x) y)) nil)"
                " (if (consp y) nil t)))", "(rank x)")
    removed = ({"y": "(remove-one (car x) y)"},)
    state("permutation-is-reflexive", "(permp x x)", by="x", unfold="permp",
          rules="member-of-cons", use=("open (remove-one (car x) x)", "car-is-member"))
    state("occurrences-of-remove-one", "(implies (logic.memberp b x)"
          " (= (occurrences a x) (if (equal a b) (+ '1 (occurrences a (remove-one b x)))"
          " (occurrences a (remove-one b x)))))", by="x", unfold="occurrences remove-one logic.memberp")
    state("permutations-have-the-same-members-as-often",
          "(implies (permp x y) (= (occurrences a x) (occurrences a y)))", by="x", unfold="permp occurrences",
          hypotheses=removed, use=("occurrences-of-remove-one (b (car x)) (x y)",))
    state("members-of-permutation", "(implies (permp x y) (= (logic.memberp a x) (logic.memberp a y)))",
          use=("permutations-have-the-same-members-as-often", "members-occur", "members-occur (x y)"))
    state("len-of-remove-one", "(implies (logic.memberp a x) (= (logic.len x) (+ '1 (logic.len (remove-one a x)))))",
          by="x", unfold="logic.len remove-one logic.memberp")
    state("len-of-permutation", "(implies (permp x y) (= (logic.len x) (logic.len y)))", by="x",
          unfold="permp logic.len", hypotheses=removed, use=("len-of-remove-one (a (car x)) (x y)",))
    state("permutation-of-cons", "(= (permp (cons a x) (cons a y)) (permp x y))", unfold={"permp": "once"},
          use=("open (remove-one a (cons a y))", "member-of-cons (b a) (x y)"))


def insertion_sort(book: Book) -> None:
    """Insertion sort: its result is in order, and a permutation."""
    state = Statements(book)
    book.define("(insert (a x) (if (consp x) (if (< (car x) a) (cons (car x) (insert a (cdr x))) (cons a x))"
                " (cons a nil)))", "(rank x)")
    book.define("(isort (x) (if (consp x) (insert (car x) (isort (cdr x))) nil))", "(rank x)")
    book.define("(orderedp (x) (if (consp x) (if (consp (cdr x))"
                " (if (< (car (cdr x)) (car x)) nil (orderedp (cdr x))) t) t))", "(rank x)")
    names = "insert orderedp occurrences isort"
    state("insert-keeps-order", "(implies (orderedp x) (orderedp (insert a x)))", by="x", unfold=names,
          use=("less-is-asymmetric (a (car x)) (b a)",))
    state("isort-is-ordered", "(orderedp (isort x))", by="x", unfold=names,
          use=("insert-keeps-order (a (car x)) (x (isort (cdr x)))",))
    state("occurrences-of-insert",
          "(= (occurrences b (insert a x)) (if (equal b a) (+ '1 (occurrences b x)) (occurrences b x)))", by="x",
          unfold=names)
    state("occurrences-of-isort", "(= (occurrences b (isort x)) (occurrences b x))", by="x", unfold=names,
          use=("occurrences-of-insert (a (car x)) (x (isort (cdr x)))",))
    state("member-of-insert", "(= (logic.memberp b (insert a x)) (if (equal b a) 't (logic.memberp b x)))", by="x",
          unfold="logic.memberp insert")
    state("remove-one-of-insert", "(implies (logic.listp x) (= (remove-one a (insert a x)) x))", by="x",
          unfold="remove-one insert logic.listp", use=("axiom-14", "axiom-33"))
    state("listp-of-insert", "(implies (logic.listp x) (logic.listp (insert a x)))", by="x",
          unfold="insert logic.listp")
    state("listp-of-isort", "(logic.listp (isort x))", by="x", unfold="isort logic.listp",
          use=("listp-of-insert (a (car x)) (x (isort (cdr x)))",))
    state("isort-is-permutation", "(permp x (isort x))", by="x", unfold="isort permp",
          use=("member-of-insert (b (car x)) (a (car x)) (x (isort (cdr x)))", "listp-of-isort (x (cdr x))",
               "remove-one-of-insert (a (car x)) (x (isort (cdr x)))"))
    state("len-of-isort", "(= (logic.len (isort x)) (logic.len x))",
          use=("len-of-permutation (y (isort x))", "isort-is-permutation"))
    state("isort-of-ordered", "(implies (logic.listp x) (orderedp x) (= (isort x) x))", by="x",
          unfold="isort orderedp logic.listp", use=("axiom-14", "open (insert (car x) (cdr x))"))
    state("isort-twice", "(= (isort (isort x)) (isort x))",
          use=("isort-of-ordered (x (isort x))", "isort-is-ordered", "listp-of-isort"))
    book.evaluate("sorted-numbers", "(isort '(3 1 2))")


def merging(book: Book) -> None:
    """MERGE of two lists in order, whose recursion goes down the sum of the ranks."""
    state = Statements(book)
    book.define("(merge (x y) (if (consp x) (if (consp y) (if (< (car y) (car x)) (cons (car y) (merge x (cdr y)))"
                " (cons (car x) (merge (cdr x) y))) x) y))", "(+ (rank x) (rank y))")
    call = "(merge x y)"
    state("member-of-merge", "(= (logic.memberp a (merge x y)) (if (logic.memberp a x) 't (logic.memberp a y)))",
          by=call, use=("open (logic.memberp a x)", "open (logic.memberp a y)", "member-is-boolean",
                        "member-is-boolean (x y)"), rules="member-of-cons")
    state("occurrences-of-merge", "(= (occurrences a (merge x y)) (+ (occurrences a x) (occurrences a y)))", by=call,
          rules="zero-plus (+ '0 a) natp-of-occurrences",
          use=("open (occurrences a x)", "open (occurrences a y)", "axiom-30 (a (occurrences a x))",
               "open (occurrences a (cons (car y) (merge x (cdr y))))",
               "open (occurrences a (cons (car x) (merge (cdr x) y)))",
               "axiom-29 (a '1) (b (occurrences a (cdr x))) (c (occurrences a y))",
               "plus-left-commute (a (occurrences a x)) (b '1) (c (occurrences a (cdr y)))"))
    state("merge-is-ordered", "(implies (orderedp x) (orderedp y) (orderedp (merge x y)))", by=call,
          use=("open (orderedp x)", "open (orderedp y)", "open (orderedp (cons (car y) (merge x (cdr y))))",
               "open (orderedp (cons (car x) (merge (cdr x) y)))", "open (merge x (cdr y))", "open (merge (cdr x) y)",
               "less-is-asymmetric (a (car y)) (b (car x))"), splits=300)


def add_sorting(book: Book) -> None:
    """All of the above."""
    for part in (occurrences, permutations, insertion_sort, merging):
        part(book)
