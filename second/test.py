#!/usr/bin/env python3
"""Builds the second checker and compares it with `milawa recheck`: the same output and the same
status, on the logs of books, on small logs that show a rule each, on the axioms that
docs/AXIOMS.md lists, and on mutants of all these.

    MILAWA=PROGRAM second/test.py [BOOK ..]

PROGRAM is crates/milawa/out/milawa of this repository where MILAWA is not set. Further books are
turned to logs as those of books/ are. The last line is `N passed, M failed`; the status is 0 if
nothing failed. The first line has the processor seconds that both programs took for the largest
log. It needs a C compiler, `cc` or what CC names."""

import os
import random
import resource
import re
import subprocess
import sys
from concurrent.futures import ThreadPoolExecutor
from pathlib import Path

import axioms_page
import cases
import mutants

HERE = Path(__file__).resolve().parent
ROOT = HERE.parent
MILAWA = os.environ.get("MILAWA", str(ROOT / "crates/milawa/out/milawa"))
SECOND = str(HERE / "out/recheck")
MUTANTS = 1000
MOST_BYTES = 40_000  # of a log of which a mutant is made


def build():
    """Builds the second checker; a warning is an error."""
    if not os.access(MILAWA, os.X_OK):
        sys.exit(f"There is no program {MILAWA}: set MILAWA, or build it as README.md says.")
    (HERE / "out").mkdir(exist_ok=True)
    subprocess.run([os.environ.get("CC", "cc"), "-std=c11", "-O2", "-Wall", "-Wextra", "-pedantic",
                    "-Werror", "-o", SECOND, *map(str, sorted(HERE.glob("*.c")))], check=True)


def run(command, text):
    """What the command writes for this text, and its status."""
    done = subprocess.run(command, input=text, stdout=subprocess.PIPE, check=False)
    return done.stdout, done.returncode


def flat(book):
    """The log that `milawa flat` makes of a book."""
    return run([MILAWA, "flat"], book)[0]


def count_events(log):
    """How many events the book had of which `milawa flat` made this log; None if it has a fault."""
    counts = re.search(rb"^; events (\d+) flat", log, re.M)
    return int(counts[1]) if counts else None


def book(*names):
    """Books of books/, one after another."""
    return b"".join((ROOT / "books" / f"{name}.book").read_bytes() for name in names)


PREFIXES = [(), ("ranks",), ("ranks", "app"), ("wrap",), ("wrap", "shorthand")]


def logs_of_books(further):
    """By name the logs of the books of this repository, and of further ones."""
    logs = {" ".join(names): flat(book(*names)) for names in [("first",), *PREFIXES[1:]]}
    logs.update({str(path): flat(Path(path).read_bytes()) for path in further})
    return logs


def logs_of_pages():
    """By name the logs of the examples in docs/BOOKS.md, and each block that it and docs/LOGS.md
    have, as it is. An example whose report begins with a later event follows the books that have
    as many events before it."""
    before = {count_events(flat(book(*names))): book(*names) for names in PREFIXES}
    logs = {}
    for page in ["BOOKS.md", "LOGS.md"]:
        text = (ROOT / "docs" / page).read_bytes()
        blocks = re.findall(rb"^```(\w*)\n(.*?)^```", text, re.M | re.S)
        for number, (kind, block) in enumerate(blocks, 1):
            logs[f"{page}, block {number} as it is"] = block
            if kind == b"book":
                first = int(re.match(rb"\d+|", blocks[number][1])[0] or 1)
                logs[f"{page}, block {number}"] = flat(before[first - 1] + block)
    return logs


def citing(formulas):
    """A log that cites each formula as an axiom."""
    return "".join(f"(step 1 axiom {formula} nil nil)(verify axiom-{number} {formula} 1)\n"
                   for number, formula in enumerate(formulas, 1)).encode()


def logs_of_axioms():
    """By name, logs that cite what docs/AXIOMS.md lists, and how many events are to get a yes."""
    page = (ROOT / "docs/AXIOMS.md").read_text()
    axioms, (definitions, of_second) = axioms_page.axioms(page), axioms_page.definitions(page)
    of_first = [definitions.pop(42), definitions.pop(43)]
    of_both = [axioms[n] for n in range(1, 54)] + list(definitions.values())
    of_second += [axioms[n] for n in range(54, 61)]
    second = b"(profile 2)\n"
    return {"axioms of the first profile": (citing(of_both + of_first), 107),
            "axioms of the second profile": (second + citing(of_both + of_second), 115),
            "axioms of the second in the first": (citing(of_second), 0),
            "axioms of the first in the second": (second + citing(of_first), 1)}


def logs_of_cases():
    """The small logs of cases.py with the reports that they are to have."""
    logs = {name: (log.encode("latin-1"), due) for name, (log, due) in cases.CASES.items()}
    ranks = flat(book("ranks"))
    lines = "".join(run([SECOND], ranks)[0].decode().splitlines(keepends=True)[:-1])
    for name, (log, answer) in cases.AFTER_RANKS.items():
        word = "DEFINE-ALL -" if "define-all" in log else "DEFINE F"
        counts = "yes 14 no 0" if answer == "yes" else "yes 13 no 1"
        due = lines + f"14 {word} {answer}\nevents 14 {counts} left 0\n"
        logs[f"obligations: {name}"] = ranks + log.encode(), due
    return logs


def is_agreed(log):
    """Do both programs write the same for this log, and end in the same way?"""
    return run([MILAWA, "recheck"], log) == run([SECOND], log)


def seconds(command, log):
    """The processor seconds that a command takes for this log."""
    def used():
        usage = resource.getrusage(resource.RUSAGE_CHILDREN)
        return usage.ru_utime + usage.ru_stime
    before = used()
    run(command, log)
    return used() - before


def ends_with(status, stdin, stdout):
    """Do both programs end with this status where they read and write these files?"""
    commands = [[MILAWA, "recheck"], [SECOND]]
    return all(subprocess.run(command, stdin=stdin, stdout=stdout, check=False).returncode == status
               for command in commands)


def is_short_of_memory(log, bytes_allowed):
    """Does the second checker end with 6, after a prefix of its report, where memory is short?"""
    def limit():
        resource.setrlimit(resource.RLIMIT_AS, (bytes_allowed, bytes_allowed))
    done = subprocess.run([SECOND], input=log, stdout=subprocess.PIPE, check=False,
                          preexec_fn=limit)
    return done.returncode == 6 and run([SECOND], log)[0].startswith(done.stdout)


def ways_to_end():
    """By name, whether each status besides 0, 1 and 3 is answered where it has to be."""
    empty, folder = os.open(os.devnull, os.O_RDONLY), os.open(HERE, os.O_RDONLY)
    doubled = "(f (cdr x))"
    for label in range(40):  # each branch is written once and reached under two tests
        doubled = f"(if (equal x '{label}) #{label}={doubled} #{label}#)"
    doubled = f"(define f (x) {doubled} (rank x) ())".encode()
    long = b"".join(b"(verify a (pequal* '%d '%d) 1)\n" % (n, n + 1) for n in range(100_000))
    yield "a read that fails is 4", ends_with(4, folder, subprocess.DEVNULL)
    with open("/dev/full", "wb") as out:
        yield "a write that fails is 5", ends_with(5, empty, out)
    yield "a bound that is passed is 6", run([SECOND], doubled) == (b"", 6)
    yield "out of memory is 6", is_short_of_memory(long, 16 << 20)


def failures(further):
    """Runs all comparisons; gives for each its name and whether it failed."""
    logs = {**logs_of_books(further), **logs_of_pages()}
    for name, (log, accepted) in logs_of_axioms().items():
        logs[name] = log
        counts = run([SECOND], log)[0].decode().splitlines()[-1].split()
        yield f"{name}: yes to {accepted}", counts[3] != str(accepted)
    for name, (log, due) in logs_of_cases().items():
        logs[name] = log
        yield f"{name}: the report that is due", run([SECOND], log)[0].decode("latin-1") != due
    for name, log in logs.items():
        yield name, not is_agreed(log)
    largest = max(logs.values(), key=len)
    print(f"largest log: {len(largest) / 1e6:.1f} MB, milawa recheck"
          f" {seconds([MILAWA, 'recheck'], largest):.2f} s, this {seconds([SECOND], largest):.2f} s")
    for name, is_so in ways_to_end():
        yield name, not is_so
    chosen = random.Random(20090901)
    parents = [log for log in logs.values() if log.strip()]
    made = [mutants.mutant(chosen, parents, MOST_BYTES) for _ in range(MUTANTS)]
    with ThreadPoolExecutor(2) as pool:
        for number, agreed in enumerate(pool.map(is_agreed, made), 1):
            if not agreed:
                (HERE / f"out/mutant-{number}.log").write_bytes(made[number - 1])
            yield f"mutant {number}, kept in second/out/", not agreed


def main(further):
    """Prints what failed, and how many did."""
    build()
    passed = failed = 0
    for name, has_failed in failures(further):
        if has_failed:
            print(f"FAILED: {name}")
        passed += not has_failed
        failed += has_failed
    print(f"{passed} passed, {failed} failed")
    return 1 if failed else 0


if __name__ == "__main__":
    sys.exit(main(sys.argv[1:]))
