"""Association lists: looking up, binding, erasing, and the list of the keys."""
from milawa_author import Book

from .statements import Statements


def lookups(book: Book) -> None:
    """LOGIC.LOOKUP finds the first pair with a key; KEYS are all keys."""
    state = Statements(book)
    book.define("(keys (x) (if (consp x) (cons (car (car x)) (keys (cdr x))) nil))", "(rank x)")
    state("lookup-of-cons", "(= (logic.lookup k (cons (cons j v) x)) (if (equal k j) (cons j v) (logic.lookup k x)))",
          unfold={"logic.lookup": "once"})
    state("key-of-lookup", "(implies (logic.lookup k x) (= (car (logic.lookup k x)) k))", by="x",
          unfold="logic.lookup")
    state("lookup-of-app", "(implies k (= (logic.lookup k (app x y))"
          " (if (logic.lookup k x) (logic.lookup k x) (logic.lookup k y))))", by="x", unfold="logic.lookup app",
          use=("axiom-12 (x (car x))",))
    state("lookup-is-member", "(implies (logic.lookup k x) (logic.memberp (logic.lookup k x) x))", by="x",
          unfold="logic.lookup logic.memberp")
    state("key-is-found", "(implies k (= (logic.memberp k (keys x)) (if (logic.lookup k x) 't 'nil)))", by="x",
          unfold="logic.lookup logic.memberp keys", use=("axiom-12 (x (car x))",))
    state("keys-of-app", "(= (keys (app x y)) (app (keys x) (keys y)))", by="x", unfold="keys app")
    state("len-of-keys", "(= (logic.len (keys x)) (logic.len x))", by="x", unfold="keys logic.len")
    state("listp-of-keys", "(= (logic.listp (keys x)) 't)", by="x", unfold="keys logic.listp")
    state("keys-of-pair", "(implies (logic.listp x) (= (keys (logic.pair x y)) x))", by="x",
          unfold="keys logic.listp logic.pair", hypotheses=({"y": "(cdr y)"},), use=("axiom-14",))
    state("len-of-pair", "(= (logic.len (logic.pair x y)) (logic.len x))", by="x", unfold="logic.pair logic.len",
          hypotheses=({"y": "(cdr y)"},))


def bindings(book: Book) -> None:
    """BIND, which changes the value of a key or adds it, and ERASE, which leaves it out."""
    state = Statements(book)
    book.define("(bind (k v x) (if (consp x) (if (equal k (car (car x))) (cons (cons k v) (cdr x))"
                " (cons (car x) (bind k v (cdr x)))) (cons (cons k v) nil)))", "(rank x)")
    book.define("(erase (k x) (if (consp x) (if (equal k (car (car x))) (erase k (cdr x))"
                " (cons (car x) (erase k (cdr x)))) nil))", "(rank x)")
    names = "bind erase logic.lookup keys"
    state("lookup-of-bind", "(= (logic.lookup k (bind k v x)) (cons k v))", by="x", unfold=names)
    state("lookup-of-other-bind", "(implies (!= j k) (= (logic.lookup j (bind k v x)) (logic.lookup j x)))", by="x",
          unfold=names)
    state("bind-twice", "(= (bind k w (bind k v x)) (bind k w x))", by="x", unfold=names)
    state("keys-of-bind", "(implies (logic.memberp k (keys x)) (= (keys (bind k v x)) (keys x)))", by="x",
          unfold=names + " logic.memberp")
    state("member-of-keys-of-bind",
          "(= (logic.memberp j (keys (bind k v x))) (if (equal j k) 't (logic.memberp j (keys x))))", by="x",
          unfold=names + " logic.memberp")
    state("lookup-of-erase", "(= (logic.lookup k (erase k x)) 'nil)", by="x", unfold=names)
    state("lookup-of-other-erase", "(implies (!= j k) (= (logic.lookup j (erase k x)) (logic.lookup j x)))", by="x",
          unfold=names)
    state("keys-of-erase", "(= (keys (erase k x)) (remove k (keys x)))", by="x", unfold=names + " remove")
    state("erase-twice", "(= (erase k (erase k x)) (erase k x))", by="x", unfold=names)
    state("erase-of-bind", "(= (erase k (bind k v x)) (erase k x))", by="x", unfold=names)
    state("erase-commutes", "(= (erase j (erase k x)) (erase k (erase j x)))", by="x", unfold=names)


def add_associations(book: Book) -> None:
    """All of the above."""
    lookups(book)
    bindings(book)
