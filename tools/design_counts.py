#!/usr/bin/env python3
"""Counts, in the sources of a commit, the places that docs/DESIGN-PASS.md speaks of.

    tools/design_counts.py [COMMIT] [-v]

Without a commit the files of the working tree are read. With -v each place is named.
"""
import re
import subprocess
import sys

args = [a for a in sys.argv[1:] if a != "-v"]
verbose = "-v" in sys.argv
commit = args[0] if args else None


def run(*command):
    return subprocess.run(command, capture_output=True, text=True, check=True).stdout


def files(pattern):
    if commit:
        names = run("git", "ls-tree", "-r", "--name-only", commit).split("\n")
    else:
        names = run("git", "ls-files", "-co", "--exclude-standard").split("\n")
    return [n for n in names if re.fullmatch(pattern, n)]


def text(name):
    return run("git", "show", f"{commit}:{name}") if commit else open(name).read()


sources = {n: text(n) for n in files(r"crates/[^/]+/src/.*\.rt")}
crate = lambda n: n.split("/")[1]
ours = {n: s for n, s in sources.items() if crate(n) != "drobisten"}


def show(title, places):
    print(f"{title}: {len(places)}")
    if verbose:
        for p in places:
            print("    " + p)


def functions(s):
    """Name, parameters, clauses and body of each function of a file."""
    for m in re.finditer(r"^( *)(?:pub )?(?:const )?(?:extern \"C\" )?fn (\w+)(?:<[^>]*>)?\(", s, re.M):
        depth, i = 1, m.end()
        while depth:
            depth += {"(": 1, ")": -1}.get(s[i], 0)
            i += 1
        parameters = [p.strip() for p in s[m.end() : i - 1].split(",") if p.strip()]
        indent = m.group(1)
        start = s.find("\n" + indent + "{", i)
        one_line = s.find("{\n", i)
        if start < 0 or (0 <= one_line < start and "\n" not in s[i:one_line]):
            start = one_line - 1
        end = s.find("\n" + indent + "}", start)
        yield m.group(2), parameters, s[i:start], s[start:end]


# 1: enums of the shape of Option or Result, constants that number refusals, a flag beside a value
shaped = []
for n, s in ours.items():
    for m in re.finditer(r"^(?:pub )?enum (\w+)[^{]*\{(.*?)^\}", s, re.M | re.S):
        body = re.sub(r"//.*", "", m.group(2))
        depth, variants, at = 0, [], ""
        for ch in body:
            depth += {"{": 1, "(": 1, "}": -1, ")": -1}.get(ch, 0)
            if ch == "," and depth == 0:
                variants.append(at.strip())
                at = ""
            else:
                at += ch
        variants = [v for v in variants + [at.strip()] if v]
        bare = [v for v in variants if re.fullmatch(r"\w+", v)]
        if m.group(1) != "Refusal" and any(re.match(r"(Refused|Bad\w*|None|Nothing|End|Differs|No)\b", v) for v in variants) and len(bare) < len(variants):
            shaped.append(f"{crate(n)}::{m.group(1)} {{ {'; '.join(re.sub(chr(10) + ' *', ' ', v) for v in variants)} }}")
show("1 enums of the shape of Option or Result", shaped)
show(
    "1 constants that number refusals",
    [f"{crate(n)}::{m.group(1)}" for n, s in ours.items() if crate(n) == "refusals" for m in re.finditer(r"^pub const (\w+): u32", s, re.M)],
)
show("1 flags among fields", [f"{crate(n)}: {m.group(1)}" for n, s in ours.items() for m in re.finditer(r"^    (?:pub )?(\w+): bool,$", s, re.M) if re.search(r"struct \w+[^}]*\b" + m.group(1) + ": bool", s)])

# 2: bodies that are the same but for numbers, types and names
seen = {}
for n, s in ours.items():
    for name, parameters, clauses, body in functions(s):
        flat = re.sub(r"\b(u8|u16|u32|u64|usize|bool)\b", "T", re.sub(r"\b\d+\b", "0", re.sub(r"\s+", " ", body)))
        words = {}
        flat = re.sub(r"[A-Za-z_]\w*", lambda m: words.setdefault(m.group(0), f"x{len(words)}"), flat)
        if len(flat) > 60:
            seen.setdefault(flat, []).append(f"{crate(n)}::{name}")
show("2 groups of functions whose bodies differ only in names, types and numbers", [", ".join(v) for v in seen.values() if len(v) > 1])

# 3: loops, and those that count an index by hand
counted, others = [], []
for n, s in ours.items():
    lines = s.split("\n")
    for i, line in enumerate(lines):
        m = re.match(r"( *)(?:'\w+: )?(while|loop)\b(.*)", line)
        if not m:
            continue
        body = []
        for inner in lines[i + 1 :]:
            if inner.startswith(m.group(1) + "}"):
                break
            body.append(inner)
        steps = {x.group(2) for x in (re.fullmatch(r"( *)(\w+) \+= 1;", b) for b in body) if x}
        names = set(re.findall(r"\w+", m.group(3)))
        place = f"{crate(n)}: {line.strip()}"
        (counted if steps & names else others).append(place)
show("3 loops that count an index by hand", counted)
show("3 other while and loop", others)

# 4: least and greatest by hand; functions that only turn a value of one type into one of another
show("4 calls and definitions of lesser and greater", [f"{crate(n)}: {l.strip()}" for n, s in ours.items() for l in s.split("\n") if re.search(r"\b(lesser|greater)(_word)?\(", l)])
turns = []
for n, s in ours.items():
    for name, parameters, clauses, body in functions(s):
        b = body.strip().lstrip("{").strip()
        if len(parameters) == 1 and re.match(r"(match \w+ \{|\(?\w+( % 256\))? as \w+$)", b) and b.count(";") == 0 and name not in ("from", "number", "extra"):
            turns.append(f"{crate(n)}::{name}")
show("4 functions of one value that only turn it", turns)

# 5: functions of more than seven parameters; facts that stand in three or more contracts
show("5 functions of more than seven parameters", [f"{crate(n)}::{name} {len(p)}" for n, s in ours.items() for name, p, _, _ in functions(s) if len(p) > 7 and not name.startswith("drobisten_")])
facts = {}
for n, s in ours.items():
    for name, p, clauses, _ in functions(s):
        for f in set(re.findall(r"requires [\w]* ?\{ ([A-Z]\w+) ", clauses)):
            facts.setdefault(f, []).append(f"{crate(n)}::{name}")
show("5 facts that three or more functions require", [f"{f} {len(v)}" for f, v in sorted(facts.items(), key=lambda x: -len(x[1])) if len(v) > 2])

# 6: a buffer lent with where a part of it begins; lists side by side; searches of sorted lists
show(
    "6 functions that are lent work memory and where in it",
    [f"{crate(n)}::{name}" for n, s in ours.items() for name, p, _, _ in functions(s) if any(re.match(r"(work|words): &(mut )?\[u32\]", x) for x in p) and sum(bool(re.match(r"(base|at|starts|values|names|groups|place|parents|roots|out|children|sequence|levels|s|m|e|by_rank): usize", x)) for x in p)],
)
show("6 functions over lists side by side", [f"{crate(n)}::{name}" for n, s in ours.items() for name, p, _, _ in functions(s) if any(x.startswith("sources: &") for x in p) and any(x.startswith("targets: &") for x in p) and not name.startswith("drobisten_")])

# 7: a number that says which step to take
show("7 chains of tests of one small number", [f"{crate(n)}::{name}" for n, s in ours.items() for name, p, _, b in functions(s) if len(set(re.findall(r"if (\w+) == \d", b))) == 1 and len(re.findall(r"if \w+ == \d", b)) > 1])

# 8: proofs
proofs = [n for n in files(r"crates/[^/]+/proofs/.*\.antt")]
lines = sum(text(n).count("\n") for n in proofs)
answers = sum(len(re.findall(r"^pub \S+ : goal\.", text(n), re.M)) for n in proofs if n.endswith("Answers.antt"))
print(f"8 files of proofs: {len(proofs)}, lines: {lines}, answers: {answers}")
