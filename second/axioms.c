#include "tables.h"

const char *const primitive_axioms[] = {
    /* Equality: 1 to 3 */
    "(pequal* x x)",
    "(por* (pnot* (pequal* x1 y1)) (por* (pnot* (pequal* x2 y2))"
     " (por* (pnot* (pequal* x1 x2)) (pequal* y1 y2))))",
    "(pnot* (pequal* 't 'nil))",
    /* EQUAL and IF: 4 to 7 */
    "(por* (pnot* (pequal* x y)) (pequal* (equal x y) 't))",
    "(por* (pequal* x y) (pequal* (equal x y) 'nil))",
    "(por* (pnot* (pequal* x 'nil)) (pequal* (if x y z) z))",
    "(por* (pequal* x 'nil) (pequal* (if x y z) y))",
    /* Pairs: 8 to 14 */
    "(pequal* (consp (cons x y)) 't)",
    "(pequal* (car (cons x y)) x)",
    "(pequal* (cdr (cons x y)) y)",
    "(por* (pequal* (consp x) 't) (pequal* (consp x) 'nil))",
    "(por* (pequal* (consp x) 't) (pequal* (car x) 'nil))",
    "(por* (pequal* (consp x) 't) (pequal* (cdr x) 'nil))",
    "(por* (pequal* (consp x) 'nil) (pequal* (cons (car x) (cdr x)) x))",
    /* Symbols: 15 to 22 */
    "(por* (pequal* (symbolp x) 't) (pequal* (symbolp x) 'nil))",
    "(por* (pequal* (symbol-< x y) 't) (pequal* (symbol-< x y) 'nil))",
    "(pequal* (symbol-< x x) 'nil)",
    "(por* (pnot* (pequal* (symbol-< x y) 't)) (pequal* (symbol-< y x) 'nil))",
    "(por* (pnot* (pequal* (symbol-< x y) 't))"
     " (por* (pnot* (pequal* (symbol-< y z) 't)) (pequal* (symbol-< x z) 't)))",
    "(por* (pequal* (symbolp x) 'nil) (por* (pequal* (symbolp y) 'nil)"
     " (por* (pequal* (symbol-< x y) 't) (por* (pequal* (symbol-< y x) 't) (pequal* x y)))))",
    "(por* (pequal* (symbolp x) 't) (pequal* (symbol-< x y) (symbol-< 'nil y)))",
    "(por* (pequal* (symbolp y) 't) (pequal* (symbol-< x y) (symbol-< x 'nil)))",
    /* Kinds of objects: 23 to 26 */
    "(por* (pequal* (symbolp x) 'nil) (pequal* (consp x) 'nil))",
    "(por* (pequal* (symbolp x) 'nil) (pequal* (natp x) 'nil))",
    "(por* (pequal* (natp x) 'nil) (pequal* (consp x) 'nil))",
    "(por* (pequal* (natp x) 't) (pequal* (natp x) 'nil))",
    /* Sums: 27 to 31 */
    "(pequal* (natp (+ a b)) 't)",
    "(pequal* (+ a b) (+ b a))",
    "(pequal* (+ (+ a b) c) (+ a (+ b c)))",
    "(por* (pequal* (natp a) 'nil) (pequal* (+ a '0) a))",
    "(por* (pequal* (natp a) 't) (pequal* (+ a b) (+ '0 b)))",
    /* The order of naturals: 32 to 42 */
    "(por* (pequal* (< a b) 't) (pequal* (< a b) 'nil))",
    "(pequal* (< a a) 'nil)",
    "(por* (pnot* (pequal* (< a b) 't)) (por* (pnot* (pequal* (< b c) 't)) (pequal* (< a c) 't)))",
    "(por* (pequal* (natp a) 'nil) (por* (pequal* (natp b) 'nil) (por* (pequal* (< a b) 't)"
     " (por* (pequal* (< b a) 't) (pequal* a b)))))",
    "(pequal* (< a '0) 'nil)",
    "(por* (pequal* (natp a) 'nil) (por* (pequal* a '0) (pequal* (< '0 a) 't)))",
    "(por* (pequal* (natp a) 't) (pequal* (< a b) (< '0 b)))",
    "(por* (pequal* (natp b) 't) (pequal* (< a b) 'nil))",
    "(pequal* (< (+ a b) (+ a c)) (< b c))",
    "(por* (pnot* (pequal* (< a b) 't)) (pequal* (< b (+ a '1)) 'nil))",
    "(pequal* (< a (+ a '1)) 't)",
    /* Differences: 43 to 52 */
    "(pequal* (natp (- a b)) 't)",
    "(por* (pequal* (natp a) 't) (pequal* (- a b) '0))",
    "(por* (pequal* (natp b) 't) (pequal* (- a b) (- a '0)))",
    "(por* (pequal* (natp a) 'nil) (pequal* (- a '0) a))",
    "(pequal* (- a a) '0)",
    "(por* (pequal* (< b a) 't) (pequal* (- a b) '0))",
    "(por* (pnot* (pequal* (< b a) 't)) (pequal* (+ b (- a b)) a))",
    "(pequal* (- (+ a b) a) (+ '0 b))",
    "(pequal* (- (- a b) c) (- a (+ b c)))",
    "(pequal* (< a (- b c)) (< (+ a c) b))",
    /* All objects: 53 */
    "(por* (pequal* (natp x) 't) (por* (pequal* (symbolp x) 't) (pequal* (consp x) 't)))",
    NULL,
};

const char *const product_axioms[] = {
    /* Products: 54 to 60 */
    "(pequal* (natp (* a b)) 't)",
    "(pequal* (* a b) (* b a))",
    "(pequal* (* (* a b) c) (* a (* b c)))",
    "(pequal* (* a (+ b c)) (+ (* a b) (* a c)))",
    "(pequal* (* a '0) '0)",
    "(por* (pequal* (natp a) 'nil) (pequal* (* a '1) a))",
    "(por* (pequal* (natp a) 't) (pequal* (* a b) '0))",
    NULL,
};
