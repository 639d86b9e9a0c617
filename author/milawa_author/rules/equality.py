"""Rules of equality, plain and under a disjunction, and four lemmas that shorten their proofs.

Where a book has verified a lemma the rules appeal to it, else they derive it (`Book.equality_lemmas`).
"""
from ..logic.kernel import Proof, axiom, base_eval, cut, expansion, functional_equality, further, theorem
from ..logic.notation import formula
from ..logic.objects import Object
from ..logic.terms import NIL, T, call, disjunction, equation, left, negation, right
from ..logic.theory import Theory
from .disjunctions import resolve, subset
from .instances import instance, primitive_axiom
from .propositional import commute_or, disjoined_modus_ponens, modus_ponens
from .schemes import rule

SYMMETRY = formula("(or (!= x y) (= y x))")
TRANSITIVITY = formula("(or (!= x y) (!= y z) (= x z))")
CONS_NOT_NIL = formula("(!= (cons x y) 'nil)")
EQUAL_NIL = formula("(or (!= (equal x y) 'nil) (!= x y))")


# ---- the lemmas --------------------------------------------------------------------------------------------

def symmetry_lemma(theory: Theory) -> Proof:
    """x != y or y = x, from axiom 2."""
    if SYMMETRY in theory.theorems:
        return theorem(theory, SYMMETRY)
    proof = primitive_axiom(theory, 2, x1="X", y1="Y", x2="X", y2="X")          # x != y or x != x or x != x or y = x
    same = equation("X", "X")
    proof = subset(proof, disjunction(negation(same), SYMMETRY))
    return modus_ponens(axiom(theory, same), proof)


def transitivity_lemma(theory: Theory) -> Proof:
    """x != y or y != z or x = z, from axiom 2."""
    if TRANSITIVITY in theory.theorems:
        return theorem(theory, TRANSITIVITY)
    proof = primitive_axiom(theory, 2, x1="Y", y1="X", x2="Y", y2="Z")          # y != x or y != z or y != y or x = z
    proof = resolve(reflexivity(theory, "Y"), proof, equation("Y", "Y"))
    return subset(resolve(symmetry_lemma(theory), proof, equation("Y", "X")), TRANSITIVITY)


def equal_nil_lemma(theory: Theory) -> Proof:
    """(equal x y) != nil or x != y, from axioms 3 and 4."""
    if EQUAL_NIL in theory.theorems:
        return theorem(theory, EQUAL_NIL)
    e = call("EQUAL", "X", "Y")
    proof = primitive_axiom(theory, 4)                                          # x != y or (equal x y) = t
    chain = instance(transitivity_lemma(theory), {"X": T, "Y": e, "Z": NIL})
    proof = resolve(proof, instance(symmetry_lemma(theory), {"X": e, "Y": T}), equation(e, T))
    proof = resolve(proof, chain, equation(T, e))
    proof = resolve(proof, primitive_axiom(theory, 3), equation(T, NIL))
    return subset(proof, EQUAL_NIL)


def cons_not_nil_lemma(theory: Theory) -> Proof:
    """(cons x y) != nil, from axiom 8."""
    if CONS_NOT_NIL in theory.theorems:
        return theorem(theory, CONS_NOT_NIL)
    pair = call("CONS", "X", "Y")
    same = functional_equality(theory, "CONSP", [pair], [NIL])                  # pair != nil or consp pair = consp nil
    t, u = call("CONSP", pair), call("CONSP", NIL)
    chain = instance(transitivity_lemma(theory), {"X": t, "Y": u, "Z": NIL})
    proof = resolve(same, chain, equation(t, u))
    proof = resolve(base_eval(theory, u), proof, equation(u, NIL))              # pair != nil or consp pair = nil
    back = commute_pequal(primitive_axiom(theory, 8))                           # t = consp pair
    chain = instance(transitivity_lemma(theory), {"X": T, "Y": t, "Z": NIL})
    proof = resolve(proof, resolve(back, chain, equation(T, t)), equation(t, NIL))
    return resolve(proof, primitive_axiom(theory, 3), equation(T, NIL))


LEMMAS = {"SYMMETRY": (SYMMETRY, symmetry_lemma), "TRANSITIVITY": (TRANSITIVITY, transitivity_lemma),
          "EQUAL-NIL": (EQUAL_NIL, equal_nil_lemma), "CONS-NOT-NIL": (CONS_NOT_NIL, cons_not_nil_lemma)}


# ---- rules by pattern --------------------------------------------------------------------------------------

@rule(gives="(pequal* a a)", given="a")
def reflexivity(theory: Theory, a: Object) -> Proof:
    return primitive_axiom(theory, 1, x=a)


@rule(gives="(por* (pnot* (pequal* a b)) (por* (pnot* (pequal* c d)) (por* (pnot* (pequal* a c)) (pequal* b d))))",
      given="a b c d")
def equality_axiom(theory: Theory, a: Object, b: Object, c: Object, d: Object) -> Proof:
    return primitive_axiom(theory, 2, x1=a, y1=b, x2=c, y2=d)


@rule("(pequal* a b)", gives="(pequal* b a)", lower="SYMMETRY")
def commute_pequal(proof: Proof, a: Object, b: Object) -> Proof:
    theory = proof.theory
    if SYMMETRY in theory.theorems:
        return modus_ponens(proof, instance(symmetry_lemma(theory), {"X": a, "Y": b}))
    same = reflexivity(theory, a)
    return modus_ponens(same, modus_ponens(same, modus_ponens(proof, equality_axiom(theory, a, b, a, a))))


@rule("(pequal* a b)", "(pequal* b c)", gives="(pequal* a c)", lower="TRANSITIVITY")
def transitivity_of_pequal(first: Proof, second: Proof, a: Object, b: Object, c: Object) -> Proof:
    theory = first.theory
    if TRANSITIVITY in theory.theorems:
        lemma = instance(transitivity_lemma(theory), {"X": a, "Y": b, "Z": c})
        return modus_ponens(second, modus_ponens(first, lemma))
    lemma = modus_ponens(second, modus_ponens(commute_pequal(first), equality_axiom(theory, b, a, b, c)))
    return modus_ponens(reflexivity(theory, b), lemma)


@rule("(por* p (pequal* a b))", gives="(por* p (pequal* b a))")
def disjoined_commute_pequal(proof: Proof, p: Object, a: Object, b: Object) -> Proof:
    theory = proof.theory
    if SYMMETRY in theory.theorems:
        return implied(proof, instance(symmetry_lemma(theory), {"X": a, "Y": b}))
    same = expansion(p, reflexivity(theory, a))
    lemma = implied(proof, equality_axiom(theory, a, b, a, a))
    return disjoined_modus_ponens(same, disjoined_modus_ponens(same, lemma))


@rule("(por* p (pequal* a b))", "(por* p (pequal* b c))", gives="(por* p (pequal* a c))")
def disjoined_transitivity_of_pequal(first: Proof, second: Proof, p: Object, a: Object, b: Object, c: Object) -> Proof:
    theory = first.theory
    if TRANSITIVITY in theory.theorems:
        lemma = instance(transitivity_lemma(theory), {"X": a, "Y": b, "Z": c})
        return disjoined_modus_ponens(second, implied(first, lemma))
    lemma = implied(disjoined_commute_pequal(first), equality_axiom(theory, b, a, b, c))
    return disjoined_modus_ponens(expansion(p, reflexivity(theory, b)), disjoined_modus_ponens(second, lemma))


# ---- further rules -----------------------------------------------------------------------------------------

def implied(proof: Proof, lemma: Proof) -> Proof:
    """From `P or A` and `not A or B`, `P or B`."""
    return cut(commute_or(proof), lemma)


def unequal_constants(theory: Theory, a: Object, b: Object) -> Proof:
    """`'a != 'b` for two constants that are not the same."""
    if a is T and b is NIL:
        return primitive_axiom(theory, 3)
    return modus_ponens(base_eval(theory, call("EQUAL", a, b)), instance(equal_nil_lemma(theory), {"X": a, "Y": b}))


def replace(theory: Theory, function: str, proofs: list[Proof]) -> Proof:
    """From `a1 = b1`, .., `(f a1 ..) = (f b1 ..)`: in one step by REPLACE, which the command `lower` knows, or by
    CONGRUENCE, which the ladder has and which wants no proofs of `t = t`."""
    lefts, rights = [left(p.conclusion) for p in proofs], [right(p.conclusion) for p in proofs]
    conclusion = equation(call(function, *lefts), call(function, *rights))
    if "CONGRUENCE" in theory.methods:
        changed = [p for p in proofs if left(p.conclusion) is not right(p.conclusion)]
        return further(theory, "CONGRUENCE", conclusion, changed)
    if "REPLACE" in theory.methods:
        return further(theory, "REPLACE", conclusion, proofs)
    proof = functional_equality(theory, function, lefts, rights)
    for p in proofs:
        proof = modus_ponens(p, proof)
    return proof
