"""Counts the places of each point of docs/DESIGN-PASS.md in the crates' src/: `python3 tools/places.py` prints the counts, and with a point's number its places."""
import itertools
import re
import subprocess
import sys

FILES = sorted(set(subprocess.check_output(["git", "ls-files", "crates"], text=True).split()))
SOURCES = [f for f in FILES if f.endswith(".rt")]
PROOFS = [f for f in FILES if re.search(r"/proofs/.*\.antt$", f)]

LINES = {
    # own enums of the shape of Option or Result, flags, numbers that stand for none, numbers for kinds
    1: r"^(pub )?enum \w+|^ +(pub )?\w+: bool,|none is\b|none where|where there is none|0 after the last|0 where the load|tasks: 0 where|10 where it is none"
    r"|same index, where|0 where one of them is no|// 0 [a-z-]+, 1 |number, 1 to 6|of part k\b|% 4 ==|give\([0-3],|^ +match (call|code|form|rule|kind|memory|k|ways) \{|\bbus\(.*== 4|kind [!=]= 0",
    # loops that count by hand
    3: r"^ *('\w+: )?(while|loop)\b(?! let)",
    # conversions, arithmetic and equality written by hand that the library or a derive has; printing
    4: r"\b(?<!fn )(folds::)?(wide|index|one_if|larger|smaller|saturating_sub|floor_div|ceil_div|ceil_div_tested|wide_byte|low_half|high_half|is_digit|digit_of|with_digit)\(|fn (is_marked|are_marked)\b"
    r"|\b(print_\w+|put_\w+)\(|write_all\(",
    # a switch on which step to run
    7: r"^ +match (call|rule|form|memory|part) \{|::InOrder|_in_order\b.*\(",
}


def lines(point):
    for f in SOURCES:
        for n, l in enumerate(open(f), 1):
            if re.search(LINES[point], l):
                yield f"{f}:{n}: {l.strip()[:120]}"


def functions():
    for f in SOURCES:
        text = open(f).read()
        for m in re.finditer(r"\bfn (\w+)(?:<[^>]*>)?\(([^)]*)\)(.*?)\n *\{\n", text, re.S):
            ps = [p + ": " + re.sub(r"\s+", " ", t).strip() for p, t in re.findall(r"(\w+)\s*:\s*([^,]+)", m.group(2))]
            yield f, m.group(1), ps, m.group(3)


def twins():
    # pairs of functions of one file with the same parameters, four or more, or of the same name in two files
    seen = list(functions())
    for (f, a, p, _), (g, b, q, _) in itertools.combinations(seen, 2):
        if (f == g and len(p) > 3 and sorted(p) == sorted(q)) or (f != g and a == b and len(p) > 2 and sorted(p) == sorted(q)):
            yield f"{f}: {a} and {g}: {b}"


def facts():
    # conjuncts that three or more contracts of one crate or more require
    count = {}
    for f, a, _, clauses in functions():
        for m in re.finditer(r"requires\s*\w*\s*\{(.*?)\}\n", clauses + "\n", re.S):
            for c in set(re.split(r"×", re.sub(r"\s+", " ", m.group(1)))):
                count.setdefault(c.strip(" ()"), []).append(f + ": " + a)
    for c, places in sorted(count.items()):
        if len(places) > 2:
            yield f"{len(places)} require {c}"


def parameters():
    for f, a, p, _ in functions():
        if len(p) > 5:
            yield f"{f}: {a} takes {len(p)}"


def lengths():
    # a number of words or records beside the slice that has them
    for f, a, p, _ in functions():
        names = {x.split(":")[0] for x in p}
        if names & {"n", "len", "count", "records", "planes"} and any("[" in x for x in p):
            yield f"{f}: {a}"


POINTS = {
    "1": lambda: lines(1),
    "2": twins,
    "3": lambda: lines(3),
    "4": lambda: lines(4),
    "5": lambda: itertools.chain(facts(), parameters()),
    "6": lengths,
    "7": lambda: lines(7),
    "8": lambda: (f"{f}: {sum(1 for _ in open(f))} lines" for f in PROOFS if re.search(r"/(Answers|Invariants|Proof)\.antt$", f)),
}

for point in sys.argv[1:] or POINTS:
    found = list(POINTS[point]())
    print(f"point {point}: {len(found)}")
    if sys.argv[1:]:
        print("\n".join(found))
