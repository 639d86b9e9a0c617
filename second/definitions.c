#include "tables.h"

const char *const shared_definitions[] = {
    "(define rank (x) (if (consp x) (+ 1 (+ (rank (car x)) (rank (cdr x)))) 0))",
    "(define ord< (x y)"
    " (if (consp x)"
    "  (if (consp y)"
    "   (if (equal (car (car x)) (car (car y)))"
    "    (if (equal (cdr (car x)) (cdr (car y))) (ord< (cdr x) (cdr y))"
    "     (< (cdr (car x)) (cdr (car y))))"
    "    (ord< (car (car x)) (car (car y))))"
    "   nil)"
    "  (if (consp y) t (< x y))))",
    "(define ordp (x)"
    " (if (consp x)"
    "  (and (consp (car x)) (ordp (car (car x))) (if (equal (car (car x)) 0) nil t)"
    "   (natp (cdr (car x))) (< 0 (cdr (car x))) (ordp (cdr x))"
    "   (if (consp (cdr x)) (ord< (car (car (cdr x))) (car (car x))) t))"
    "  (natp x)))",
    "(define logic.listp (x) (if (consp x) (logic.listp (cdr x)) (equal x nil)))",
    "(define logic.len (x) (if (consp x) (+ 1 (logic.len (cdr x))) 0))",
    "(define logic.lenp (x n) (and (logic.listp x) (equal (logic.len x) n)))",
    "(define logic.memberp (a x)"
    " (if (consp x) (if (equal a (car x)) t (logic.memberp a (cdr x))) nil))",
    "(define logic.uniquep (x)"
    " (if (consp x) (if (logic.memberp (car x) (cdr x)) nil (logic.uniquep (cdr x))) t))",
    "(define logic.lookup (a x)"
    " (if (consp x) (if (equal a (car (car x))) (car x) (logic.lookup a (cdr x))) nil))",
    "(define logic.variablep (x)"
    " (and (symbolp x) (if (equal x t) nil t) (if (equal x nil) nil t)))",
    "(define logic.var-listp (x)"
    " (if (consp x) (and (logic.variablep (car x)) (logic.var-listp (cdr x))) (equal x nil)))",
    "(define logic.constantp (x) (and (consp x) (equal (car x) 'quote) (logic.lenp x 2)))",
    "(define logic.const-listp (x)"
    " (if (consp x) (and (logic.constantp (car x)) (logic.const-listp (cdr x))) (equal x nil)))",
    "(define logic.unquote-list (x)"
    " (if (consp x) (cons (second (car x)) (logic.unquote-list (cdr x))) nil))",
    "(define logic.flag-closedp (flag x vs)"
    " (if (equal flag 'term)"
    "  (if (consp x)"
    "   (if (equal (car x) 'quote) t (logic.flag-closedp 'list (cdr x) vs))"
    "   (logic.memberp x vs))"
    "  (if (consp x)"
    "   (and (logic.flag-closedp 'term (car x) vs) (logic.flag-closedp 'list (cdr x) vs))"
    "   t)))",
    "(define logic.flag-termp (flag x atbl)"
    " (if (equal flag 'term)"
    "  (if (consp x)"
    "   (cond ((equal (car x) 'quote) (logic.constantp x))"
    "    ((consp (car x))"
    "     (and (logic.lenp (car x) 3) (equal (first (car x)) 'lambda)"
    "      (logic.var-listp (second (car x))) (logic.uniquep (second (car x)))"
    "      (logic.flag-termp 'term (third (car x)) atbl)"
    "      (logic.flag-closedp 'term (third (car x)) (second (car x)))"
    "      (equal (logic.len (cdr x)) (logic.len (second (car x))))"
    "      (logic.flag-termp 'list (cdr x) atbl)))"
    "    (t (and (symbolp (car x)) (logic.lookup (car x) atbl)"
    "      (equal (logic.len (cdr x)) (cdr (logic.lookup (car x) atbl)))"
    "      (logic.flag-termp 'list (cdr x) atbl))))"
    "   (logic.variablep x))"
    "  (if (consp x)"
    "   (and (logic.flag-termp 'term (car x) atbl) (logic.flag-termp 'list (cdr x) atbl))"
    "   (equal x nil))))",
    "(define logic.termp (x atbl) (logic.flag-termp 'term x atbl))",
    "(define logic.formulap (x atbl)"
    " (if (consp x)"
    "  (cond ((equal (car x) 'pequal*)"
    "    (and (logic.lenp x 3) (logic.termp (second x) atbl) (logic.termp (third x) atbl)))"
    "   ((equal (car x) 'pnot*) (and (logic.lenp x 2) (logic.formulap (second x) atbl)))"
    "   ((equal (car x) 'por*)"
    "    (and (logic.lenp x 3) (logic.formulap (second x) atbl)"
    "     (logic.formulap (third x) atbl))))"
    "  nil))",
    "(define logic.conclusion (x) (second x))",
    "(define logic.conclusions (x)"
    " (if (consp x) (cons (logic.conclusion (car x)) (logic.conclusions (cdr x))) nil))",
    "(define logic.pequal (a b) (list 'pequal* a b))",
    "(define logic.pnot (a) (list 'pnot* a))",
    "(define logic.por (a b) (list 'por* a b))",
    "(define logic.flag-substitute (flag x s)"
    " (if (equal flag 'term)"
    "  (if (consp x)"
    "   (if (equal (car x) 'quote) x"
    "    (cons (car x) (logic.flag-substitute 'list (cdr x) s)))"
    "   (if (logic.lookup x s) (cdr (logic.lookup x s)) x))"
    "  (if (consp x)"
    "   (cons (logic.flag-substitute 'term (car x) s)"
    "    (logic.flag-substitute 'list (cdr x) s))"
    "   nil)))",
    "(define logic.substitute (x s) (logic.flag-substitute 'term x s))",
    "(define logic.formula-substitute (x s)"
    " (if (consp x)"
    "  (cond ((equal (car x) 'pequal*)"
    "    (logic.pequal (logic.substitute (second x) s) (logic.substitute (third x) s)))"
    "   ((equal (car x) 'pnot*) (logic.pnot (logic.formula-substitute (second x) s)))"
    "   ((equal (car x) 'por*)"
    "    (logic.por (logic.formula-substitute (second x) s)"
    "     (logic.formula-substitute (third x) s))))"
    "  nil))",
    "(define logic.sigmap (x atbl)"
    " (if (consp x)"
    "  (and (consp (car x)) (logic.variablep (car (car x)))"
    "   (logic.termp (cdr (car x)) atbl) (logic.sigmap (cdr x) atbl))"
    "  (equal x nil)))",
    "(define logic.sigma-listp (x atbl)"
    " (if (consp x) (and (logic.sigmap (car x) atbl) (logic.sigma-listp (cdr x) atbl))"
    "  (equal x nil)))",
    "(define logic.sigma-list-listp (x atbl)"
    " (if (consp x)"
    "  (and (logic.sigma-listp (car x) atbl) (logic.sigma-list-listp (cdr x) atbl))"
    "  (equal x nil)))",
    "(define logic.pair (x y)"
    " (if (consp x) (cons (cons (car x) (car y)) (logic.pair (cdr x) (cdr y))) nil))",
    "(define logic.disjoin (x)"
    " (if (consp x)"
    "  (if (consp (cdr x)) (logic.por (car x) (logic.disjoin (cdr x))) (car x)) nil))",
    "(define logic.schema-okp (c)"
    " (and (equal (first c) 'por*) (equal (second c) (logic.pnot (third c)))))",
    "(define logic.expansion-okp (c a) (and (equal (first c) 'por*) (equal (third c) a)))",
    "(define logic.contraction-okp (c a) (equal a (logic.por c c)))",
    "(define logic.associativity-okp (c a)"
    " (and (equal (first a) 'por*) (equal (first (third a)) 'por*)"
    "  (equal c (logic.por (logic.por (second a) (second (third a))) (third (third a))))))",
    "(define logic.cut-okp (c a b)"
    " (and (equal (first a) 'por*) (equal (first b) 'por*)"
    "  (equal (second b) (logic.pnot (second a)))"
    "  (equal c (logic.por (third a) (third b)))))",
    "(define logic.instantiation-okp (c a s atbl)"
    " (and (logic.sigmap s atbl) (equal c (logic.formula-substitute a s))))",
    "(define logic.last-disjunct (c)"
    " (if (consp c) (if (equal (first c) 'por*) (logic.last-disjunct (third c)) c) c))",
    "(define logic.feq (xs ys e)"
    " (if (consp xs)"
    "  (logic.por (logic.pnot (logic.pequal (car xs) (car ys)))"
    "   (logic.feq (cdr xs) (cdr ys) e))"
    "  e))",
    "(define logic.functional-equality-okp (c)"
    " (let* ((e (logic.last-disjunct c)) (l (second e)) (r (third e)))"
    "  (and (equal (first e) 'pequal*) (consp l) (consp r) (symbolp (car l))"
    "   (if (equal (car l) 'quote) nil t) (equal (car l) (car r))"
    "   (equal c (logic.feq (cdr l) (cdr r) e)))))",
    "(define logic.beta-reduction-okp (c)"
    " (let ((l (second c)))"
    "  (and (equal (first c) 'pequal*) (consp (car l))"
    "   (equal (third c) (logic.substitute (third (car l))"
    "     (logic.pair (second (car l)) (cdr l)))))))",
    "(define logic.base-eval-okp (c)"
    " (let ((l (second c)) (r (third c)))"
    "  (and (equal (first c) 'pequal*) (consp l) (logic.primitivep (car l))"
    "   (logic.const-listp (cdr l)) (logic.constantp r)"
    "   (equal (second r) (logic.apply (car l) (logic.unquote-list (cdr l)))))))",
    "(define logic.ind-hyps (f ss)"
    " (if (consp ss)"
    "  (cons (logic.pnot (logic.formula-substitute f (car ss))) (logic.ind-hyps f (cdr ss)))"
    "  nil))",
    "(define logic.ind-steps (f qs ss rest)"
    " (if (consp qs)"
    "  (cons (logic.disjoin (cons f (cons (logic.pnot (car qs)) (logic.ind-hyps f (car ss)))))"
    "   (logic.ind-steps f (cdr qs) (cdr ss) rest))"
    "  rest))",
    "(define logic.ind-dec (m q ss rest)"
    " (if (consp ss)"
    "  (cons (logic.por (logic.pnot q)"
    "    (logic.pequal (list 'ord< (logic.substitute m (car ss)) m) ''t))"
    "   (logic.ind-dec m q (cdr ss) rest))"
    "  rest))",
    "(define logic.ind-decs (m qs ss)"
    " (if (consp qs)"
    "  (logic.ind-dec m (car qs) (car ss) (logic.ind-decs m (cdr qs) (cdr ss))) nil))",
    "(define logic.induction-okp (c as e atbl)"
    " (let ((m (first e)) (qs (second e)) (ss (third e)))"
    "  (and (logic.lenp e 3) (logic.listp qs) (equal (logic.len qs) (logic.len ss))"
    "   (logic.sigma-list-listp ss atbl)"
    "   (equal as (cons (logic.disjoin (cons c qs))"
    "     (logic.ind-steps c qs ss"
    "      (cons (logic.pequal (list 'ordp m) ''t) (logic.ind-decs m qs ss))))))))",
    "(define logic.step-okp (x axioms thms atbl)"
    " (let* ((m (first x)) (c (second x)) (as (logic.conclusions (third x)))"
    "   (e (fourth x)) (n (logic.len as)) (a (first as)))"
    "  (cond ((equal m 'instantiation)"
    "    (and (equal n 1) (logic.instantiation-okp c a e atbl)))"
    "   ((equal m 'induction) (logic.induction-okp c as e atbl))"
    "   (e nil)"
    "   ((equal n 0)"
    "    (cond ((equal m 'axiom) (logic.memberp c axioms))"
    "     ((equal m 'theorem) (logic.memberp c thms))"
    "     ((equal m 'propositional-schema) (logic.schema-okp c))"
    "     ((equal m 'functional-equality) (logic.functional-equality-okp c))"
    "     ((equal m 'beta-reduction) (logic.beta-reduction-okp c))"
    "     ((equal m 'base-eval) (logic.base-eval-okp c))))"
    "   ((equal n 1)"
    "    (cond ((equal m 'expansion) (logic.expansion-okp c a))"
    "     ((equal m 'contraction) (logic.contraction-okp c a))"
    "     ((equal m 'associativity) (logic.associativity-okp c a))))"
    "   ((equal n 2) (and (equal m 'cut) (logic.cut-okp c a (second as)))))))",
    "(define logic.flag-proofp (flag x axioms thms atbl)"
    " (if (equal flag 'proof)"
    "  (if (consp x)"
    "   (and (logic.listp x) (logic.memberp (logic.len x) '(2 3 4))"
    "    (logic.formulap (second x) atbl)"
    "    (logic.flag-proofp 'list (third x) axioms thms atbl)"
    "    (logic.step-okp x axioms thms atbl))"
    "   nil)"
    "  (if (consp x)"
    "   (and (logic.flag-proofp 'proof (car x) axioms thms atbl)"
    "    (logic.flag-proofp 'list (cdr x) axioms thms atbl))"
    "   (equal x nil))))",
    "(define logic.proofp (x axioms thms atbl) (logic.flag-proofp 'proof x axioms thms atbl))",
    "(skolem logic.provable-witness proof (x axioms thms atbl)"
    " (and (logic.proofp proof axioms thms atbl) (equal (logic.conclusion proof) x)))",
    "(define logic.provablep (x axioms thms atbl)"
    " ((lambda (proof x axioms thms atbl)"
    "   (and (logic.proofp proof axioms thms atbl) (equal (logic.conclusion proof) x)))"
    "  (logic.provable-witness x axioms thms atbl) x axioms thms atbl))",
    NULL,
};

const char *const first_profile_definitions[] = {
    "(define logic.primitivep (f)"
    " (logic.memberp f '(if equal consp cons car cdr symbolp symbol-< natp < + -)))",
    "(define logic.apply (f a)"
    " (let ((x (first a)) (y (second a)) (z (third a)))"
    "  (cond ((equal f 'if) (if x y z)) ((equal f 'equal) (equal x y))"
    "   ((equal f 'consp) (consp x)) ((equal f 'cons) (cons x y))"
    "   ((equal f 'car) (car x)) ((equal f 'cdr) (cdr x))"
    "   ((equal f 'symbolp) (symbolp x)) ((equal f 'symbol-<) (symbol-< x y))"
    "   ((equal f 'natp) (natp x)) ((equal f '<) (< x y))"
    "   ((equal f '+) (+ x y)) ((equal f '-) (- x y)))))",
    NULL,
};

const char *const second_profile_definitions[] = {
    "(define logic.primitivep (f)"
    " (logic.memberp f '(if equal consp cons car cdr symbolp symbol-< natp < + - *)))",
    "(define logic.apply (f a)"
    " (let ((x (first a)) (y (second a)) (z (third a)))"
    "  (cond ((equal f 'if) (if x y z)) ((equal f 'equal) (equal x y))"
    "   ((equal f 'consp) (consp x)) ((equal f 'cons) (cons x y))"
    "   ((equal f 'car) (car x)) ((equal f 'cdr) (cdr x))"
    "   ((equal f 'symbolp) (symbolp x)) ((equal f 'symbol-<) (symbol-< x y))"
    "   ((equal f 'natp) (natp x)) ((equal f '<) (< x y))"
    "   ((equal f '+) (+ x y)) ((equal f '-) (- x y))"
    "   ((equal f '*) (* x y)))))",
    NULL,
};
