"""Small logs with the reports that docs/ gives for them, by what each shows."""

VERIFY_X = "(step 1 axiom #1=(pequal* x x) nil nil)(verify a (pequal* x x) 1)"


def _fault(text, kind, offset, lines=""):
    return text, lines + f"syntax {kind} at {offset}\n"


def _one(event, line):
    """A log of one event without steps, and the line for it."""
    counts = "yes 1 no 0" if line.endswith("yes") else "yes 0 no 1"
    return event, f"1 {line}\nevents 1 {counts} left 0\n"


def _defined(formals, body, written):
    """F with this body gets the axiom whose right side is written out so."""
    axiom = f"(pequal* (f {' '.join(formals)}) {written})"
    log = (f"(define f ({' '.join(formals)}) {body} nil ())(step 1 axiom {axiom} nil nil)"
           f"(verify a {axiom} 1)")
    return log, "1 DEFINE F yes\n2 VERIFY A yes\nevents 2 yes 2 no 0 left 0\n"


TEXT = {
    "white space": ("(step 1\taxiom\f(pequal* x x)\r\nnil nil); a | # ) \x00 comment\r\n"
                    "(verify a (pequal* x x) 1)", "1 VERIFY A yes\nevents 1 yes 1 no 0 left 0\n"),
    "a vertical tab is no white space": _fault("7\v", "BYTE", 1, "1 - - no SHAPE\n"),
    "a comment without an end": ("; a", "events 0 yes 0 no 0 left 0\n"),
    "symbols that begin like numbers": _one("(+ - -a .5 -.5 +a)", "+ - no SHAPE"),
    "a sign and a digit": _fault("(+1)", "TOKEN", 1),
    "a digit and a letter": _fault("(a 12a)", "TOKEN", 3),
    "two dots": _fault("(a ..)", "TOKEN", 3),
    "leading zeros": (VERIFY_X.replace("step 1", "step 001").replace("x) 1)", "x) 01)"),
                      "1 VERIFY A yes\nevents 1 yes 1 no 0 left 0\n"),
    "glue after a token": _fault("a|b|", "TOKEN", 1, "1 - - no SHAPE\n"),
    "a label glued on": _fault("(a#1#)", "TOKEN", 2),
    "glue after bars": _fault("|a|b", "TOKEN", 3, "1 - - no SHAPE\n"),
    "bars after bars": _fault("(|a||b|)", "TOKEN", 4),
    "what may follow a token": _one("(foo(b)'c'd;e\n)", "FOO - no SHAPE"),
    "what may follow a reference": _one("(foo #1=a #1#b #1##1#(c)#1#'d)", "FOO - no SHAPE"),
    "a malformed token comes before glue": _fault("12a|", "TOKEN", 0),
    "a dot before bars": _fault("(a .|b|)", "TOKEN", 4),
    "a misplaced dot before bars": _fault(".|b|", "TOKEN", 1),
    "a dot in a wrong place": _fault("(. a)", "DOT", 1),
    "a dot alone": _fault(" .", "DOT", 1),
    "nothing after a dot": _fault("(a . )", "DOT", 5),
    "two data after a dot": _fault("(a . b c)", "DOT", 7),
    "a bad token after the datum after a dot": _fault("(a . b 12a)", "DOT", 7),
    "a glued dot after the datum after a dot": _fault("(a . b .|c|)", "DOT", 7),
    "a bad byte after the datum after a dot": _fault('(a . b "', "BYTE", 7),
    "a byte that begins nothing": _fault("(a ,b)", "BYTE", 3),
    "a byte in bars": _fault("(|a\nb|)", "BYTE", 3),
    "a byte above the tilde in bars": _fault("(|a\x7f|)", "BYTE", 3),
    "empty bars": _fault("(a ||)", "TOKEN", 3),
    "bars without an end": _fault("(|ab", "END", 4),
    "a list without an end": _fault("(a (b)", "END", 6),
    "a label without an end": _fault("(a #12", "END", 6),
    "a closing too many": _fault("(a))", "CLOSE", 3, "1 A - no SHAPE\n"),
    "a closing after a quote": _fault("(a ')", "CLOSE", 4),
    "a closing after a label": _fault("(a #1=)", "CLOSE", 6),
    "a label with ten digits": _fault("(a #1234567890=b)", "LABEL", 3),
    "a label without digits": _fault("(a #=b)", "LABEL", 3),
    "a label begun twice": _fault("(#1=a #1=b)", "LABEL", 6),
    "a label named within itself": _fault("(a #1=(b #1#))", "LABEL", 9),
    "a label of another datum": _fault("(step #1=a)(step #1#)", "LABEL", 17),
    "labels by their number": _one("(foo #1= ;\n (a) #01# ' ;\n b)", "FOO - no SHAPE"),
}

LINES = {
    "any symbol is a word": _one("(|foo bar| a)", "|foo bar| - no SHAPE"),
    "small letters in bars": _one("(|verify| a (pequal* x x) 1)", "|verify| - no SHAPE"),
    "a word that is NIL": _one("(() a)", "NIL - no SHAPE"),
    "a word that is none": _one("((verify) a)", "- - no SHAPE"),
    "a number alone": _one("7", "- - no SHAPE"),
    "a name that is none": _one("(verify 7 (pequal* x x) 1)", "VERIFY - no ADMIT"),
    "a name of what is no list": _one("(verify x . y)", "VERIFY X no SHAPE"),
    "no name of DEFINE-ALL": _one("(define-all f g)", "DEFINE-ALL - no SHAPE"),
    "the name of a switch": _one("(switch f)", "SWITCH F no SHAPE"),
    "names in bars": _one("(verify |12| (pequal* x x) 1)", "VERIFY |12| no GOAL"),
    "a name that is long in bars": _one(f"(verify |{'a' * 65534}| (pequal* x x) 1)",
                                        f"VERIFY |{'a' * 65534}| no GOAL"),
    "a name that is too long": _one(f"(verify {'a' * 65537} (pequal* x x) 1)", "VERIFY - no GOAL"),
    "a name that is too long in bars": _one(f"(verify |{'a' * 65535}| (pequal* x x) 1)",
                                            "VERIFY - no GOAL"),
    "steps that are left, good or not": ("(step 7)(step . 1)", "events 0 yes 0 no 0 left 2\n"),
    "STEP alone": _one("step", "- - no SHAPE"),
}

EVENTS = {
    "a name in place of a number": _one("(verify a (pequal* x x) b)", "VERIFY A no SHAPE"),
    "a number in place of a list": _one("(define f (x) x nil 1)", "DEFINE F no SHAPE"),
    "numbers that are no list": _one("(define f (x) x nil (1 . 2))", "DEFINE F no SHAPE"),
    "three members": _one("(define-all ((f (x) x)) ())", "DEFINE-ALL - no SHAPE"),
    "no definitions": _one("(define-all () ())", "DEFINE-ALL - no SHAPE"),
    "a natural that is too large":
        _one(f"(verify a (pequal* x '{2 ** 128}) 1)", "VERIFY A no SHAPE"),
    "too many numbers": _one("(define f (x) x nil (1))", "DEFINE F no GOAL"),
    "a measure that is no term, where there are no obligations":
        _one("(define f (x) x (car x x) ())", "DEFINE F no ADMIT"),
    "a measure with another variable, where there are no obligations":
        _one("(define f (x) x y ())", "DEFINE F no ADMIT"),
    "a measure that calls the function": _one("(define f (x) x (f x) ())", "DEFINE F no ADMIT"),
    "a nested call": _one("(define f (x y) (f (f x y) y) nil ())", "DEFINE F no ADMIT"),
    "a call that is nested once the actuals are put in":
        _one("(define f (x y) ((lambda (a y) (f a y)) (f x y) y) nil ())", "DEFINE F no ADMIT"),
    "a call in a constant": _one("(define f (x) '(f (f x)) nil ())", "DEFINE F yes"),
    "steps cannot name what is being defined":
        _one("(step 1 functional-equality (pequal* (f) (f)) nil nil)(define f () 'a nil ())",
             "DEFINE F no STEP"),
    "the second profile, and then the first":
        ("(profile 1)(profile 2)(profile 1)",
         "1 PROFILE - yes\n2 PROFILE - yes\n3 PROFILE - no ADMIT\nevents 3 yes 2 no 1 left 0\n"),
    "SYMBOL-<": ("(step 1 base-eval (pequal* (symbol-< 'aa 'b) 't) nil nil)"
                 "(step 2 base-eval (pequal* (symbol-< 'a 'aa) 't) nil nil)"
                 "(step 3 base-eval (pequal* (symbol-< '7 'o) 't) nil nil)"
                 "(verify a (pequal* (symbol-< 'aa 'b) 't) 1)",
                 "1 VERIFY A yes\nevents 1 yes 1 no 0 left 0\n"),
    "a call of IF with two arguments":
        _one("(verify a (pequal* (if x y) x) 1)", "VERIFY A no ADMIT"),
    "words as variables":
        ("(step 1 axiom (pequal* x x) nil nil)(step 2 instantiation (pequal* lambda lambda) (1)"
         " ((x . lambda)))(verify a (pequal* lambda lambda) 2)",
         "1 VERIFY A yes\nevents 1 yes 1 no 0 left 0\n"),
    "a pair of a substitution that does not count":
        _one("(step 1 axiom (pequal* x x) nil nil)(step 2 instantiation (pequal* y y) (1)"
             " ((x . y) (x . t)))(verify a (pequal* y y) 2)", "VERIFY A no STEP"),
    "a witness's axiom":
        ("(skolem w y (x z) (and (equal x y) 1))"
         "(step 1 axiom #1=(por* (pequal* #2=(if (equal x y) '1 'nil) 'nil)"
         " (pnot* (pequal* ((lambda (y x z) #2#) (w x z) x z) 'nil))) nil nil)"
         "(verify a (por* (pequal* #2=(if (equal x y) '1 'nil) 'nil)"
         " (pnot* (pequal* ((lambda (y x z) #2#) (w x z) x z) 'nil))) 1)",
         "1 SKOLEM W yes\n2 VERIFY A yes\nevents 2 yes 2 no 0 left 0\n"),
}

ABBREVIATIONS = {
    "constants": _defined("x", "(cons 1 (cons t (cons nil '(and))))",
                          "(cons '1 (cons 't (cons 'nil '(and))))"),
    "AND": _defined("xy", "(cons (and) (cons (and x) (and x y 1)))",
                    "(cons 't (cons x (if x (if y '1 'nil) 'nil)))"),
    "OR": _defined("xy", "(cons (or) (cons (or x) (or x y 1)))",
                   "(cons 'nil (cons x (if x x (if y y '1))))"),
    "COND": _defined("xy", "(cons (cond) (cond (x y) (t 2)))",
                     "(cons 'nil (if x y (if 't '2 'nil)))"),
    "LIST": _defined("xy", "(list x (list) y)", "(cons x (cons 'nil (cons y 'nil)))"),
    "FIRST to FIFTH": _defined("x", "(list (first x) (second x) (third x) (fourth x) (fifth x))",
                               "(cons (car x) (cons (car (cdr x)) (cons (car (cdr (cdr x)))"
                               " (cons (car (cdr (cdr (cdr x))))"
                               " (cons (car (cdr (cdr (cdr (cdr x))))) 'nil)))))"),
    "LET": _defined("xyz", "(let ((a (car z)) (x y)) (list x z (and y x) a))",
                    "((lambda (a x z y) (cons x (cons z (cons (if y x 'nil) (cons a 'nil)))))"
                    " (car z) y z y)"),
    "LET of nothing": _defined("xy", "(let () (cons y x))", "((lambda (y x) (cons y x)) y x)"),
    "LET*": _defined("x", "(let* ((x (car x)) (x (cdr x))) x)",
                     "((lambda (x) ((lambda (x) x) (cdr x))) (car x))"),
    "LET* of nothing": _defined("x", "(let* () (and x 1))", "(if x '1 'nil)"),
    "the body of a lambda":
        _defined("x", "((lambda (y) (or y 1)) x)", "((lambda (y) (if y y '1)) x)"),
    "a variable bound twice":
        _one("(define f (x) (let ((x 1) (x 2)) x) nil ())", "DEFINE F no ADMIT"),
    "a clause of one member": _one("(define f (x) (cond (x)) nil ())", "DEFINE F no ADMIT"),
    "FIRST of two": _one("(define f (x) (first x x) nil ())", "DEFINE F no ADMIT"),
    "a formula with an abbreviation":
        _one("(verify a (pequal* (list x) x) 1)", "VERIFY A no ADMIT"),
}

CASES = {**TEXT, **LINES, **EVENTS, **ABBREVIATIONS}

_ORDINAL = "(step 1 theorem (pequal* (ordp (rank x)) 't) nil nil)"
_FALL = ("(step 2 theorem (por* (pequal* (consp x) 'nil)"
         " (pequal* (ord< (rank (cdr x)) (rank x)) 't)) nil nil)")
_OTHER = "(step 3 instantiation (pequal* (ordp (rank y)) 't) (1) ((x . y)))"
_LOOP = "(if (consp x) (f (cdr x)) x)"


def _owes(event, answer, steps=_ORDINAL + _FALL):
    """This event after books/ranks.book, with the steps of the two theorems at its end."""
    return steps + event, answer


# Definitions after books/ranks.book, and the answers.
AFTER_RANKS = {
    "that the measure is an ordinal, and that it falls":
        _owes(f"(define f (x) {_LOOP} (rank x) (1 2))", "yes"),
    "in this order": _owes(f"(define f (x) {_LOOP} (rank x) (2 1))", "no GOAL"),
    "and each": _owes(f"(define f (x) {_LOOP} (rank x) (2))", "no GOAL"),
    "an obligation that comes twice is proved once":
        _owes("(define f (x) (if (consp x) (cons (f (cdr x)) (f (cdr x))) x) (rank x) (1 2))",
              "yes"),
    "each function has the obligation that its measure is an ordinal, also one that calls none":
        _owes(f"(define-all ((f (x) {_LOOP} (rank x)) (g (y) y (rank y))) (1 2 3))", "yes",
              _ORDINAL + _FALL + _OTHER),
    "and no other":
        _owes(f"(define-all ((f (x) {_LOOP} (rank x)) (g (y) y (rank y))) (1 2))", "no GOAL"),
    "the actuals of a LET are put into its body":
        _owes("(define f (x) (let ((a (cdr x))) (if (consp x) (f a) a)) (rank x) (1 2))", "yes"),
    "the actuals of a LET come before its body":
        _owes("(define f (x) (let ((a (if (consp x) (f (cdr x)) x))) (if (consp a) x (f (cdr x))))"
              " (rank x) (1 2))", "no GOAL"),
    "a test that mentions the function is left out":
        _owes("(define f (x) (if (consp x) (if (f (cdr x)) (f (cdr x)) x) x) (rank x) (1 2))",
              "yes"),
    "so is one that mentions it once the actuals are put in":
        _owes("(define f (x) (if (consp x) (let ((a (f (cdr x)))) (if a (f (cdr x)) x)) x)"
              " (rank x) (1 2))", "yes"),
    "a test is kept that mentions it in a constant":
        _owes("(define f (x) (if (consp x) (if '(f) (f (cdr x)) x) x) (rank x) (1 2))", "no GOAL"),
}
