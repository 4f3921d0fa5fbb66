"""What stands more than once, and what is too long: the part of scripts/tidy-check that reads the code as text.

- a whole contract of `CLAUSES` clauses or more stands word for word in fewer than `FUNCTIONS` functions
- at most `SAME` clauses stand word for word in as many functions or more
- a signature with its contract has at most `LINES` lines
- two files of one kind share as many runs of `RUN` lines or more as scripts/repeats-most.txt has; no fewer, so that the number goes down
- the first line of each commit, from the one on that added this file, is as scripts/commit-message has it
"""
import collections
import functools
import itertools
import re
import subprocess

from reading import ROOT, closing, code_of, script_of, sources

MOST = ROOT / "scripts" / "repeats-most.txt"
MESSAGE = script_of("commit-message")
CLAUSES, FUNCTIONS = 3, 3
# how many clauses stand word for word in three functions or more; it may only go down
SAME = 104
# the lines of the longest signature that there is; it may only go down
LINES = 30
RUN = 6

FN = re.compile(r"(?m)^[ \t]*(?:pub(?:\([a-z]+\))? )?(?:const )?(?:unsafe )?fn (\w+)")
CLAUSE = re.compile(r"\b(?:requires|ensures\*?)")
# what a signature ends with, or what stands in brackets in it
NEXT = re.compile(r"[{;(\[]")
# lines that say nothing by themselves: punctuation, imports, and the modules of tests
THIN = re.compile(r"[\W\d_]*|(?:pub )?(?:ghost |unfoldable )?use .*|(?:pub )?mod .*|#\[cfg\(test\)\]")


def signatures(code):
    """Each function of a text: its name, its signature with its contract, and the clauses of that."""
    for found in FN.finditer(code):
        at, clauses = found.end(), []
        while stop := NEXT.search(code, at):
            sign = stop.group()
            clause = CLAUSE.search(code, at, stop.start()) if sign == "{" else None
            if sign == ";" or sign == "{" and not clause:
                break
            end = closing(code, stop.start(), {"{": "{}", "(": "()", "[": "[]"}[sign])
            if clause:
                clauses.append(" ".join(code[clause.start() : end].split()))
            at = end
        yield found.group(1), code[found.start() : stop.start() if stop else len(code)].strip(), clauses


@functools.lru_cache(maxsize=None)
def functions():
    """Each function of all crates, by its place."""
    files = [file for file in sources() if file.suffix == ".rt"]
    return [(f"{file.relative_to(ROOT)}: {name}", *found) for file in files for name, *found in signatures(code_of(file))]


def same_contracts(each):
    places = collections.defaultdict(list)
    for place, _, clauses in each:
        if len(clauses) >= CLAUSES:
            places[tuple(clauses)].append(place)
    for found in places.values():
        if len(found) >= FUNCTIONS:
            yield f"{found[0]} has the contract of {', '.join(found[1:])}: give it a name in specs/"


def same_clauses(each, most=SAME):
    """The clauses that stand in many functions, where these are too many in all."""
    places = collections.Counter(clause for _, _, clauses in each for clause in clauses)
    found = {clause: count for clause, count in places.items() if count >= FUNCTIONS}
    if sum(found.values()) > most:
        yield f"{sum(found.values())} clauses stand in {FUNCTIONS} functions or more, and scripts/repeats.py has {most}:"
        for clause, count in sorted(found.items(), key=lambda it: (-it[1], it[0])):
            yield f"  {count} times {clause}"


def long_signatures(each):
    """The signatures that are too long."""
    for place, text, _ in each:
        lines = len(text.splitlines())
        if lines > LINES:
            yield f"{place}: a signature of {lines} lines, and scripts/repeats.py has {LINES}"


def longest_signature():
    """What is said of the longest signature, so that the number goes down with it."""
    place, text, _ = max(functions(), key=lambda it: len(it[1].splitlines()))
    return f"the longest signature has {len(text.splitlines())} lines of {LINES}: {place}"


def lines_read(code):
    """The lines of a text that count, their blanks folded."""
    lines = (" ".join(line.split()) for line in code.splitlines())
    return [line for line in lines if not THIN.fullmatch(line)]


def runs(texts):
    """The runs of lines that two of these texts share, each by both places."""
    places = collections.defaultdict(list)
    for file, lines in texts.items():
        for at in range(len(lines) - RUN + 1):
            places[tuple(lines[at : at + RUN])].append((file, at))
    shared = {}
    for found in places.values():
        for (one, at), (other, there) in itertools.combinations(found, 2):
            if one != other:
                shared[one, other, at, there] = True
    return [it for it in shared if (it[0], it[1], it[2] - 1, it[3] - 1) not in shared]


def most_runs():
    """How many runs the files of a kind share, by its suffix."""
    rows = [line.partition(": ") for line in MOST.read_text().splitlines() if line and not line.startswith("#")]
    return {suffix: int(most) for suffix, _, most in rows}


def wrong_counts(suffix, most, texts):
    """What is wrong with a line of scripts/repeats-most.txt."""
    found = runs(texts)
    if len(found) < most:
        yield f"{MOST.name}: files of {suffix} share {len(found)} runs of {RUN} lines, and not {most}: write that"
    if len(found) > most:
        yield f"{MOST.name}: files of {suffix} share {len(found)} runs of {RUN} lines, and it has {most}:"
        for one, other, at, there in found:
            yield f"  {one}, {texts[one][at]!r}, and {other}"


def repeated_runs():
    for suffix, most in most_runs().items():
        files = [file for file in sources() if file.suffix == suffix]
        yield from wrong_counts(suffix, most, {file.relative_to(ROOT): lines_read(code_of(file)) for file in files})


def subjects():
    """The first lines of the commits from the one on that added this file, where git has them."""
    try:
        first = MESSAGE.git("log", "-1", "--diff-filter=A", "--format=%H", "--", "scripts/repeats.py")
        return MESSAGE.git("log", "--no-merges", "--format=%s", "HEAD", "--not", f"{first}^@", "--").splitlines() if first else []
    except (OSError, subprocess.CalledProcessError):
        return []


def wrong_subjects(lines):
    for line in lines:
        for fault in MESSAGE.faults([line]):
            yield f"the commit {line!r}: {fault}"


def clauses(count):
    """A function of a trial, with as many clauses."""
    return "fn f(a: &[u8; 3]) -> u8\n" + "".join(f"    requires {{ a < {at} }}\n" for at in range(count)) + "{\n    0\n}\n"


def each_of(*texts):
    return [(str(at), text, found) for at, code in enumerate(texts) for _, text, found in signatures(code)]


def shared(lines):
    """Two texts of a trial that share as many lines."""
    same = [f"same {at}" for at in range(lines)]
    return {"one": ["one", *same], "other": ["other", *same]}


def trials():
    """Each check over a text that is at its limit, and over one that is past it."""
    return (
        ("contracts", lambda past: list(same_contracts(each_of(*[clauses(CLAUSES)] * (FUNCTIONS - 1 + past))))),
        ("clauses", lambda past: list(same_contracts(each_of(*[clauses(CLAUSES - 1 + past)] * FUNCTIONS)))),
        ("same clauses", lambda past: list(same_clauses(each_of(*[clauses(1)] * (FUNCTIONS - 1 + past)), 0))),
        ("signatures", lambda past: list(long_signatures(each_of(clauses(LINES - 1 + past))))),
        ("runs", lambda past: list(wrong_counts(".rt", 0, shared(RUN - 1 + past)))),
        ("fewer runs", lambda past: list(wrong_counts(".rt", 1, shared(RUN - past)))),
        ("subjects", lambda past: list(wrong_subjects(["x" * (MESSAGE.COLUMNS + past)]))),
    )


def failed_trials():
    for name, found in trials():
        if found(0):
            yield f"scripts/repeats.py: the trial of {name} finds something at the limit: {found(0)[0]}"
        if not found(1):
            yield f"scripts/repeats.py: the trial of {name} finds nothing past the limit"


def repeats():
    """What is wrong, by each check of this file and by its own trials."""
    codes = (*same_contracts(functions()), *same_clauses(functions()), *long_signatures(functions()), *repeated_runs())
    return [*failed_trials(), *codes, *wrong_subjects(subjects())]
