"""The ladder: levels 2 to 9, each proved sound under the checker of the one before, switched to, and used for a theorem
that the one before refuses.

 - level 2: the propositional rules by pattern
 - level 3: SUBSET and RESOLVE, over whole disjunctions
 - level 4: the rules of equality
 - level 5: assumptions, instances, and chains of equations in one step
 - level 6: the refutation of a clause in one step
 - level 7: lists of steps, each judged once
 - level 8: values of ground terms
 - level 9: clauses by traces of rewriting
"""
from collections.abc import Callable
from typing import Optional

from ..admission import claim
from ..book import Book
from ..errors import EventError
from ..logic.kernel import axiom, further, packed
from ..logic.notation import formula
from ..logic.terms import disjunction, negation
from ..rules.disjunctions import resolve, subset
from ..rules.equality import commute_pequal
from ..rules.instances import primitive_axiom
from ..rules.propositional import commute_or, right_expansion
from .arities import LAST_NAMES, NAMES
from .chains import add_chain_rules
from .checkers import Checker
from .computing import add_compute
from .congruence import add_equality_rules
from .disjunctions import add_disjunction_rules
from .reflection import verify_reflection
from .refutation import add_refutation_rules
from .rewriting import add_rewrite
from .sharing import add_shared
from .texts import ENV

EQUAL_AB = formula("(= a b)")
PROPOSITIONAL_RULES = """expansion contraction associativity cut propositional-schema
    commute-or right-expansion modus-ponens modus-ponens-2 right-associativity disjoined-left-expansion
    disjoined-right-expansion disjoined-contraction cancel-neg-neg insert-neg-neg lhs-insert-neg-neg
    lhs-cancel-neg-neg merge-implications merge-negatives disjoined-modus-ponens disjoined-modus-ponens-2
    disjoined-commute-or lhs-commute-or-then-rassoc disjoined-right-associativity disjoined-associativity
    disjoined-cut""".split()


def add_propositional_rules(checker: Checker) -> None:
    """Adds the propositional rules by pattern, and the propositional methods with fewer tests."""
    for name in PROPOSITIONAL_RULES:
        checker.add_rule(name)


def _use_2(book: Book) -> None:
    reflexive = axiom(book.theory, formula("(= x x)"))
    book.verify("used-commute-or", commute_or(right_expansion(reflexive, formula("(= a b)"))))


def _use_3(book: Book) -> None:
    reflexive = axiom(book.theory, formula("(= x x)"))
    book.verify("used-subset", subset(reflexive, formula("(or (= a b) (or (= c d) (= x x)) (= e f))")))


def _use_4(book: Book) -> None:
    book.verify("used-commute-pequal", commute_pequal(primitive_axiom(book.theory, 28)))


def _use_5(book: Book) -> None:
    steps = [primitive_axiom(book.theory, 28), primitive_axiom(book.theory, 28, a="B", b="A")]
    book.verify("used-chain", further(book.theory, "CHAIN", formula("(= (+ a b) (+ a b))"), steps))


def _use_6(book: Book) -> None:
    book.prove("used-lemma", "(implies (= (consp x) 'nil) (= (car x) 'nil))", use=[primitive_axiom(book.theory, 12)])


def _use_7(book: Book) -> None:
    proof = axiom(book.theory, formula("(= x x)"))
    for _ in range(4):
        proof = subset(resolve(subset(proof, disjunction(EQUAL_AB, proof.conclusion)), subset(proof, disjunction(
            negation(EQUAL_AB), proof.conclusion)), EQUAL_AB), proof.conclusion)
    book.verify_as_it_stands("used-shared", packed(proof))


def add_computation(checker: Checker) -> None:
    """Adds COMPUTE, and SHARED over it."""
    add_compute(checker)
    add_shared(checker)


def _use_8(book: Book) -> None:
    book.evaluate("used-compute", "(let ((x '(1 2 3))) (logic.len (ladder.onto x (cons 0 x))))")


def add_rewriting(checker: Checker) -> None:
    """Adds REWRITE, and SHARED over it."""
    add_rewrite(checker)
    add_shared(checker)


def _use_9(book: Book) -> None:
    book.prove("used-rewrite", "(implies (consp x) (= y (cdr x)) (= (cons (car x) y) x))", use=[book.axiom_at(14)])


# For each level what adds its rules, and a theorem that the level before refuses.
LEVELS: dict[int, tuple[Callable[[Checker], None], Callable[[Book], None]]] = {
    2: (add_propositional_rules, _use_2), 3: (add_disjunction_rules, _use_3), 4: (add_equality_rules, _use_4),
    5: (add_chain_rules, _use_5), 6: (add_refutation_rules, _use_6), 7: (add_shared, _use_7),
    8: (add_computation, _use_8), 9: (add_rewriting, _use_9)}


def make_ladder(level: int = 9, is_switched: bool = True) -> Book:
    """The ladder up to a level, from 2 to 9.  Without switches the same theorems are proved at level 1.
    Raises EventError for another level."""
    if level not in LEVELS:
        raise EventError("SWITCH", f"the ladder has levels 2 to 9, no level {level}")
    book, checker = Book(), None
    verify_reflection(book)
    for number in range(2, level + 1):
        checker = add_level(book, number, checker, is_switched)
    return book


def add_level(book: Book, level: int, below: Optional[Checker], is_switched: bool = True) -> Checker:
    """Adds a level to a book that has the one below it, and uses it."""
    add_rules, use = LEVELS[level]
    checker = Checker(book, f"level{level}", below, LAST_NAMES if level == max(LEVELS) else NAMES)
    add_rules(checker)
    checker.finish(is_switched)
    if is_switched:
        use(book)
        book.equality_lemmas(is_again=True)
    return checker


def make_wrap() -> Book:
    """A switch to a checker that only calls the built-in one, in the logic: what proofs cost that are judged there."""
    book = Book()
    verify_reflection(book)
    book.define(f"(wrap (x {ENV}) (logic.proofp x {ENV}))")
    book.prove("claim-of-wrap", claim("WRAP"), unfold=["wrap", "logic.proofp", "logic.conclusion"],
               use=[book.at("PROVABLE-BY-PROOF", p="x")])
    book.switch("wrap", {})
    return book
