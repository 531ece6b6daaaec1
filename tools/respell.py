#!/usr/bin/env python3
"""Brings the repository's own definitions, fields, constructors and lemmas to the spelling of today's Rattle: words in snake case.

usage: respell.py [--check]      in the repository, once, after port.py

A word that the repository's own .antt files declare, with a dash or a capital inside (`can-read`, `childrenIn`), becomes `can_read`, `children_in`, wherever it stands in
.antt files, in clauses of .rt files and in must-fail edits. Types, records of facts and modules keep their upper camel case; names that Rattle makes (goals, steps of a proof by hand,
which the Proof.antt files cite behind `tie.` and `c.`) are left; so are comments and strings. --check writes nothing and lists names that would fall together.
"""
import os
import re
import sys

WORD = re.compile(r"[^\W\d][\w'₀-₉]*(?:-[\w'₀-₉≡≢≤<]+)*", re.U)
SIGN = re.compile(r"^\s*(?:(?:abbrev|unfoldable|irreducible|pub|instance|private|ghost)\s+)*([^\s(){}:;,]+(?:\s+[^\s(){}:;,]+)*)\s*:(?:\s|$)")
SKIP = re.compile(r'--[^\n]*|//[^\n]*|"(?:[^"\\]|\\.)*"')


# words that would have a crate's name
APART = {"rulesStates": "rule_states", "rulesTable": "rule_table", "exceptionsAll": "all_exceptions", "exceptionsMarks": "exception_marks", "exceptions-marks": "exception_marks_lem"}


# words that a library spells so too
LIBRARY = {"not-not", "or-true"}


def new(word):
    if word in LIBRARY:
        return word
    if word in APART:
        return APART[word]
    it = re.sub(r"(?<=[a-z0-9])([A-Z])", lambda m: "_" + m[1].lower(), word) if word[0].islower() else word
    return it.replace("-", "_").replace("·", "_")


def files(root, ends):
    for folder, dirs, names in os.walk(os.path.join(root, "crates")):
        dirs[:] = sorted(d for d in dirs if d != "out")
        for it in sorted(names):
            if it.endswith(ends):
                yield os.path.join(folder, it)


def read(path):
    with open(path, encoding="utf-8") as f:
        return f.read()


def declared(text):
    """The words that signatures of the text declare: definitions, lemmas, fields, constructors."""
    found = set(re.findall(r"(?m)^use .* as ([a-z][\w'-]*)$", text))
    for line in SKIP.sub("", text).split("\n"):
        m = SIGN.match(line)
        if m and not line.lstrip().startswith(("use ", "|", "=", "→", "let ")):
            for w in m[1].split():
                if WORD.fullmatch(w):
                    found.add(w)
    return found


def main():
    root = os.getcwd()
    check = "--check" in sys.argv
    names = set()
    for p in files(root, (".antt",)):
        if os.path.basename(p) != "Proof.antt":
            names |= declared(read(p))
    # a lemma that would have its word's name gets _lem
    words = {new(w) for w in names if "-" not in w}
    table = {w: new(w) + ("_lem" if "-" in w and new(w) in words else "") for w in names if new(w) != w}
    src = set()
    for p in files(root, (".rt",)):
        src |= set(re.findall(r"fn (\w+)", read(p)))
    made = {f.replace("_", "-") for f in src}
    both = {w for w in table if w in made}
    old_by_new = {}
    for w, n in table.items():
        old_by_new.setdefault(n, set()).add(w)
    for n, ws in sorted(old_by_new.items()):
        if len(ws) > 1 or n in names:
            print("together:", n, "<-", " ".join(sorted(ws)), "(stands already)" if n in names else "")
    if both:
        print("names of a function with dashes:", " ".join(sorted(both)))
    changed = 0
    loose = {}
    for p in files(root, (".antt", ".rt", ".edit")):
        text = read(p)
        proof = os.path.basename(p) == "Proof.antt"
        own = dict(table)
        if proof:
            for w in declared(text):
                if new(w) != w and w not in table:
                    own[w] = new(w)
        seen = {}
        clash = set()

        def turn(m):
            w = m[0]
            if w not in own:
                if "-" in w or re.search("[a-z][A-Z]", w):
                    loose.setdefault(w, set()).add(os.path.relpath(p, root))
                seen.setdefault(w, set()).add(w)
                return w
            before = text[: m.start()]
            if proof and (before.endswith("tie.") or (w in both and before.endswith("."))):
                return w
            seen.setdefault(own[w], set()).add(w)
            return own[w]

        out, last = [], 0
        for m in SKIP.finditer(text):
            if m[0].startswith("//") and p.endswith(".antt"):
                continue
            if m[0].startswith("--") and not p.endswith(".antt"):
                continue
            out.append(WORD.sub(turn, text[last : m.start()]) if last < m.start() else "")
            out.append(m[0])
            last = m.end()
        # positions of the tail are those of the whole text only through slices, so turn() looks at what stands before in the slice
        out.append(WORD.sub(turn, text[last:]))
        made_text = "".join(out)
        for n, ws in seen.items():
            if len(ws) > 1:
                print(f"together in {os.path.relpath(p, root)}: {n} <- {' '.join(sorted(ws))}")
        if made_text != text:
            changed += 1
            if not check:
                with open(p, "w", encoding="utf-8") as f:
                    f.write(made_text)
    if check:
        for w, where in sorted(loose.items()):
            print("left:", w, len(where), sorted(where)[0])
    print(f"{len(table)} names, {changed} files")


main()
