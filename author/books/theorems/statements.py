"""What a theorem of the library is stated with.

    state = Statements(book)
    state("len-of-rev", "(= (logic.len (rev x)) (logic.len x))", by="x", unfold="rev logic.len", rules="len-of-app")

`by` is what is inducted upon: a list `x`, a natural `#n`, or a call `(f x y)` as the function recurs.  `unfold` and
`rules` are names; a rule may be followed by its pattern.  `use` are instances: a name and then what is put for its
variables, as `app-of-nil (x (rev y))`; AXIOM-28 is an axiom of the primitives, and OPEN a definition, as
`open (rev (cons a x))`.
"""
from milawa_author import Book, Proof
from milawa_author.logic.notation import expand
from milawa_author.logic.objects import Pair, items
from milawa_author.logic.terms import is_equation, left, literals
from milawa_author.logic.text import read_all
from milawa_author.prover.induction import induct_on_call, induct_on_list, induct_on_natural
from milawa_author.prover.linear import linear
from milawa_author.prover.search import prove
from milawa_author.rules.instances import definition_instance, instance, primitive_axiom


class Statements:
    """States theorems in a book; `usual` are rules that are always given."""

    def __init__(self, book: Book, usual: str = ""):
        self.book, self.usual = book, usual

    def __call__(self, name: str, goal: str, by: str = "", unfold: str | dict = "", rules: str = "",
                 use: tuple[str, ...] = (), hypotheses: tuple[dict, ...] = ({},), **options) -> Proof:
        """VERIFY of a theorem.  The hypotheses of an induction on a list or a natural may change further variables."""
        options.update(unfold=unfold.split() if isinstance(unfold, str) else unfold,
                       rules=[r for text in (self.usual, rules) for r in self.rules(text)],
                       use=[self.used(text) for text in use])
        book = self.book
        changes = [{v.upper(): expand(read_all(t)[0]) for v, t in h.items()} for h in hypotheses]
        if by.startswith("("):
            proof = induct_on_call(book, goal, expand(read_all(by)[0]), **options)
        elif by.startswith("#"):
            proof = induct_on_natural(book, goal, by[1:], changes, **options)
        elif by:
            proof = induct_on_list(book, goal, by, changes, **options)
        else:
            proof = prove(book.theory, goal, **options)
        return book.verify(name, proof)

    def linear(self, name: str, goal: str, use: tuple[str, ...] = ()) -> Proof:
        """VERIFY of a theorem by linear arithmetic."""
        return self.book.verify(name, linear(self.book, goal, [self.used(text) for text in use]))

    def rules(self, text: str) -> list[tuple[Pair, Proof]]:
        """The rules of a text: names, each with a pattern or without."""
        found, data = [], read_all(text)
        for k, datum in enumerate(data):
            if isinstance(datum, Pair):
                continue
            pattern = data[k + 1] if k + 1 < len(data) and isinstance(data[k + 1], Pair) else None
            lemma = self.lemma(datum)
            if pattern is None:
                last = literals(lemma.conclusion)[-1]
                pattern = left(last) if is_equation(last) else left(left(last))
            found.append((expand(pattern), lemma))
        return found

    def used(self, text: str) -> Proof:
        """The instance of a text."""
        name, *pairs = read_all(text)
        if name == "OPEN":
            function, *actuals = items(pairs[0])
            return definition_instance(self.book.theory, function, [expand(t) for t in actuals])
        return instance(self.lemma(name), {items(p)[0]: expand(items(p)[1]) for p in pairs})

    def lemma(self, name: str) -> Proof:
        """An axiom of the primitives or a theorem of the book."""
        if name.startswith("AXIOM-"):
            return primitive_axiom(self.book.theory, int(name.removeprefix("AXIOM-")))
        return self.book.lemmas[name]
