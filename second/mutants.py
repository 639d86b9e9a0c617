"""Mutants of logs: a log with one to three changes, in its bytes, its tokens or its data."""

import re

BYTES = b" \t\n\f\r\v()'#|.;\"\\,:0123456789=+-*<abcxyzABCXYZ~\x00\x7f\xc3"
WORDS = [b"STEP", b"VERIFY", b"DEFINE", b"DEFINE-ALL", b"SKOLEM", b"PROFILE", b"SWITCH", b"EVAL",
         b"AXIOM", b"THEOREM", b"CUT", b"EXPANSION", b"CONTRACTION", b"INSTANTIATION", b"INDUCTION",
         b"NIL", b"T", b"QUOTE", b"LAMBDA", b"PEQUAL*", b"PNOT*", b"POR*", b"IF", b"CONS", b"CAR",
         b"LET", b"LET*", b"AND", b"OR", b"COND", b"LIST", b"FIRST", b"FIFTH", b"*", b"X", b"Y",
         b"0", b"1", b"2", b"007", b"340282366920938463463374607431768211455",
         b"340282366920938463463374607431768211456", b"|a b|", b"||", b"#1#", b"#1=", b".", b"()",
         b"12a", b"-1", b"..", b"(1 2)", b"(X . 1)"]
TOKEN = re.compile(rb"\|[^|]*\||[()']|[^\s()'|]+")


def _change_byte(random, log):
    at = random.randrange(len(log))
    byte = bytes([random.choice(BYTES)])
    return random.choice([log[:at] + byte + log[at + 1:], log[:at] + byte + log[at:],
                          log[:at] + log[at + 1:]])


def _cut(random, log):
    return log[:random.randrange(len(log))]


def _change_token(random, log):
    """Another token, of the same log or not, in place of one, before it, or none."""
    tokens = list(TOKEN.finditer(log))
    if not tokens:
        return log + random.choice(WORDS)
    old = random.choice(tokens)
    new = random.choice([random.choice(WORDS), random.choice(tokens)[0]])
    return random.choice([log[:old.start()] + new + log[old.end():],
                          log[:old.start()] + new + b" " + log[old.start():],
                          log[:old.start()] + log[old.end():]])


def _change_number(random, log):
    """Another small number in place of one."""
    numbers = list(re.finditer(rb"(?<=[ (])\d{1,3}(?=[ )])", log))
    if not numbers:
        return log + b" 1"
    old = random.choice(numbers)
    new = b"%d" % max(0, int(old[0]) + random.choice([-2, -1, 1, 2]))
    return log[:old.start()] + new + log[old.end():]


def _change_lines(random, log):
    """A line less, twice, or in another place."""
    lines = log.splitlines(keepends=True)
    line = lines.pop(random.randrange(len(lines)))
    for _ in range(random.randrange(3)):
        lines.insert(random.randrange(len(lines) + 1), line)
    return b"".join(lines)


def _change_words(random, log):
    """Each of a name, or many of them, is another name."""
    names = sorted(set(re.findall(rb"(?<=[ (])[A-Z][A-Z0-9*<.-]*(?=[ )])", log)))
    if len(names) < 2:
        return log
    old, new = random.choice(names), random.choice(names)
    changed = re.sub(rb"(?<=[ (])" + re.escape(old) + rb"(?=[ )])", lambda _: new, log)
    return changed if changed != log else _change_token(random, log)


CHANGES = [_change_byte, _change_byte, _cut, _change_token, _change_token, _change_token,
           _change_number, _change_number, _change_lines, _change_words]


def part_of(random, log, most_bytes):
    """The first lines of a log, or some from the middle, where it has more bytes than that."""
    if len(log) <= most_bytes:
        return log
    start = random.choice([0, random.randrange(len(log) - most_bytes)])
    start = log.rfind(b"\n", 0, start) + 1
    end = log.rfind(b"\n", start, start + most_bytes) + 1
    return log[start:end or start + most_bytes]


def mutant(random, logs, most_bytes):
    """A part of one of the logs, changed in one to three places."""
    log = part_of(random, random.choice(logs), most_bytes)
    for _ in range(random.choice([1, 1, 2, 3])):
        log = random.choice(CHANGES)(random, log) or b"("
    return log
