"""Binary search trees.  A tree is a pair `(key left . right)`; other objects are the empty tree; keys are naturals."""
from milawa_author import Book

from .statements import Statements

KEY, LEFT, RIGHT = "(car tree)", "(car (cdr tree))", "(cdr (cdr tree))"


def keys(book: Book) -> None:
    """HAS-KEY searches; INORDER lists the keys; ALL-BELOW and ALL-ABOVE compare them with a bound."""
    state = Statements(book)
    book.define(f"(all-below (b tree) (if (consp tree) (if (< {KEY} b) (if (all-below b {LEFT})"
                f" (all-below b {RIGHT}) nil) nil) t))", "(rank tree)")
    book.define(f"(all-above (b tree) (if (consp tree) (if (< b {KEY}) (if (all-above b {LEFT})"
                f" (all-above b {RIGHT}) nil) nil) t))", "(rank tree)")
    book.define(f"(search-treep (tree) (if (consp tree) (if (all-below {KEY} {LEFT}) (if (all-above {KEY} {RIGHT})"
                f" (if (search-treep {LEFT}) (search-treep {RIGHT}) nil) nil) nil) t))", "(rank tree)")
    book.define(f"(has-key (k tree) (if (consp tree) (if (< k {KEY}) (has-key k {LEFT})"
                f" (if (< {KEY} k) (has-key k {RIGHT}) t)) nil))", "(rank tree)")
    book.define(f"(inorder (tree) (if (consp tree) (app (inorder {LEFT}) (cons {KEY} (inorder {RIGHT}))) nil))",
                "(rank tree)")
    book.define(f"(size (tree) (if (consp tree) (+ 1 (+ (size {LEFT}) (size {RIGHT}))) 0))", "(rank tree)")
    state("natp-of-size", "(= (natp (size tree)) 't)", unfold={"size": "once"}, rules="axiom-27 (+ a b)")
    state("len-of-inorder", "(= (logic.len (inorder tree)) (size tree))", by="(size tree)",
          use=("open (inorder tree)", f"len-of-app (x (inorder {LEFT})) (y (cons {KEY} (inorder {RIGHT})))",
               f"open (logic.len (cons {KEY} (inorder {RIGHT})))", "open (logic.len 'nil)",
               f"plus-left-commute (a (size {LEFT})) (b '1) (c (size {RIGHT}))"))
    state("listp-of-inorder", "(= (logic.listp (inorder tree)) 't)", by="(inorder tree)", rules="listp-of-app",
          unfold="logic.listp")
    state("less-than-all-below", "(implies (all-below b tree) (logic.memberp k (inorder tree)) (< k b))",
          by="(all-below b tree)", rules="member-of-app member-of-cons", unfold="logic.memberp",
          use=("open (inorder tree)",))
    state("more-than-all-above", "(implies (all-above b tree) (logic.memberp k (inorder tree)) (< b k))",
          by="(all-above b tree)", rules="member-of-app member-of-cons", unfold="logic.memberp",
          use=("open (inorder tree)",))
    state("found-is-boolean", "(or (= (has-key k tree) 't) (= (has-key k tree) 'nil))", by="(has-key k tree)")



def insertion(book: Book) -> None:
    """INSERT-KEY keeps search trees, and adds its key and no other."""
    state = Statements(book)
    book.define(f"(insert-key (k tree) (if (consp tree) (if (< k {KEY})"
                f" (cons {KEY} (cons (insert-key k {LEFT}) {RIGHT}))"
                f" (if (< {KEY} k) (cons {KEY} (cons {LEFT} (insert-key k {RIGHT}))) tree)) (cons k (cons nil nil))))",
                "(rank tree)")
    call = "(insert-key k tree)"
    book.define(f"(natural-treep (tree) (if (consp tree) (if (natp {KEY}) (if (natural-treep {LEFT})"
                f" (natural-treep {RIGHT}) nil) nil) t))", "(rank tree)")
    state("insert-key-keeps-all-below", "(implies (< k b) (all-below b tree) (all-below b (insert-key k tree)))",
          by=call, unfold="all-below")
    state("insert-key-keeps-all-above", "(implies (< b k) (all-above b tree) (all-above b (insert-key k tree)))",
          by=call, unfold="all-above")
    state("insert-key-keeps-search-trees", "(implies (search-treep tree) (search-treep (insert-key k tree)))", by=call,
          unfold="search-treep all-below all-above",
          use=(f"insert-key-keeps-all-below (b {KEY}) (tree {LEFT})",
               f"insert-key-keeps-all-above (b {KEY}) (tree {RIGHT})"))
    state("insert-key-keeps-natural-trees",
          "(implies (natp k) (natural-treep tree) (natural-treep (insert-key k tree)))", by=call,
          unfold="natural-treep")
    state("inserted-key-is-found", "(has-key k (insert-key k tree))", by=call, unfold="has-key",
          use=("axiom-33 (a k)",))
    state("other-keys-are-found-as-before", "(implies (natp j) (natp k) (natural-treep tree) (!= j k)"
          " (= (has-key j (insert-key k tree)) (has-key j tree)))", by=call,
          unfold="has-key natural-treep",
          use=("axiom-35 (a j) (b k)", f"axiom-35 (a j) (b {KEY})", "less-is-asymmetric (a j) (b k)",
               f"less-is-asymmetric (a k) (b {KEY})", f"less-is-asymmetric (a j) (b {KEY})",
               f"axiom-35 (a k) (b {KEY})"), splits=300)
    state("search-finds-members", "(implies (natp k) (natural-treep tree) (search-treep tree)"
          " (= (has-key k tree) (logic.memberp k (inorder tree))))", by="(has-key k tree)",
          rules="member-of-app member-of-cons", unfold="natural-treep search-treep",
          use=("open (inorder tree)", "open (logic.memberp k 'nil)", f"axiom-35 (a k) (b {KEY})", "axiom-33 (a k)",
               f"less-is-asymmetric (a k) (b {KEY})", f"less-than-all-below (b {KEY}) (tree {LEFT})",
               f"more-than-all-above (b {KEY}) (tree {RIGHT})", f"member-is-boolean (a k) (x (inorder {LEFT}))",
               f"member-is-boolean (a k) (x (inorder {RIGHT}))"), splits=300)


def order(book: Book) -> None:
    """The keys of a search tree, from left to right, are in order; and a tree made of a list has its members."""
    state = Statements(book)
    state("app-keeps-order", "(implies (orderedp x) (orderedp (cons k y)) (= (< k (last x)) 'nil)"
          " (orderedp (app x (cons k y))))", by="x", unfold="app orderedp last", rules="consp-of-app car-of-app")
    state("last-is-below", "(implies (all-below b tree) (= (< b (last (inorder tree))) 'nil))",
          use=("less-than-all-below (k (last (inorder tree)))", "last-is-member (x (inorder tree))",
               "less-is-asymmetric (a (last (inorder tree)))", "open (last (inorder tree))", "axiom-39 (a b) (b 'nil)"))
    state("first-is-above", "(implies (all-above b tree) (consp (inorder tree)) (= (< (car (inorder tree)) b) 'nil))",
          use=("more-than-all-above (k (car (inorder tree)))", "car-is-member (x (inorder tree))",
               "less-is-asymmetric (a b) (b (car (inorder tree)))"))
    state("inorder-is-ordered", "(implies (search-treep tree) (orderedp (inorder tree)))", by="(inorder tree)",
          unfold="search-treep",
          use=(f"app-keeps-order (x (inorder {LEFT})) (k {KEY}) (y (inorder {RIGHT}))",
               f"last-is-below (b {KEY}) (tree {LEFT})", f"first-is-above (b {KEY}) (tree {RIGHT})",
               f"open (orderedp (cons {KEY} (inorder {RIGHT})))", "open (orderedp 'nil)"))
    book.define("(tree-of (x) (if (consp x) (insert-key (car x) (tree-of (cdr x))) nil))", "(rank x)")
    book.define("(all-naturals (x) (if (consp x) (if (natp (car x)) (all-naturals (cdr x)) nil) t))", "(rank x)")
    state("tree-of-is-search-tree", "(search-treep (tree-of x))", by="x", unfold="tree-of",
          use=("open (search-treep 'nil)", "insert-key-keeps-search-trees (k (car x)) (tree (tree-of (cdr x)))"))
    state("tree-of-is-natural-tree", "(implies (all-naturals x) (natural-treep (tree-of x)))", by="x",
          unfold="tree-of all-naturals",
          use=("open (natural-treep 'nil)", "insert-key-keeps-natural-trees (k (car x)) (tree (tree-of (cdr x)))"))
    state("tree-of-has-the-members", "(implies (natp k) (all-naturals x)"
          " (= (has-key k (tree-of x)) (logic.memberp k x)))", by="x", unfold="tree-of all-naturals logic.memberp",
          use=("open (has-key k 'nil)", "inserted-key-is-found (tree (tree-of (cdr x)))",
               "tree-of-is-natural-tree (x (cdr x))", "found-is-boolean (tree (tree-of x))",
               "other-keys-are-found-as-before (j k) (k (car x)) (tree (tree-of (cdr x)))"))
    book.evaluate("keys-in-order", "(inorder (tree-of '(2 3 1)))")


def add_trees(book: Book) -> None:
    """All of the above."""
    keys(book)
    insertion(book)
    order(book)
