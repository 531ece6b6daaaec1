#!/usr/bin/env python3
"""Turns a proof that walks the code by hand, proofs/F/Proof.antt, into proofs/F/Invariants.antt and proofs/F/Answers.antt.

usage: answers.py NAMES CRATE [FUNCTION..]     at the top of the repository

NAMES is the file that `rt check --generated DIR --old-names` writes: for each function its goals, places and steps, with their old and new names.
What a goal cites of the places before it stands in one flat record now, so the chains of `.before` go, and what only leads from a place to an earlier one goes with them.
"""
import json
import os
import re
import sys

ID = r"[^\W\d][\w'₀-₉]*(?:-[\w'₀-₉]+)*"
TOKEN = re.compile(r"--[^\n]*|" + ID + r"|\d+|[^\S\n]+|\n|.", re.U)


def norm(s):
    s = s.replace("_", "-")
    s = re.sub(r"^overflow-", "", s)
    return s


def tokens(s):
    return TOKEN.findall(s)


def is_id(t):
    return re.fullmatch(ID, t) is not None


def balanced(ts, i):
    """The index behind the atom that begins at i: an identifier or number with its projections, or parentheses with theirs."""
    if ts[i] == "(":
        d = 0
        while True:
            if ts[i] == "(":
                d += 1
            elif ts[i] == ")":
                d -= 1
                if d == 0:
                    i += 1
                    break
            i += 1
    else:
        i += 1
    while i + 1 < len(ts) and ts[i] == "." and (is_id(ts[i + 1]) or ts[i + 1].isdigit()):
        i += 2
    return i


class Failed(Exception):
    pass


class Function:
    def __init__(self, names, crate, path):
        self.crate, self.path = crate, path
        self.n = names
        self.goals = {norm(a): b for a, b in names["needs"]}
        self.goals_new = {norm(b): b for a, b in names["needs"]}
        self.at = {b: names["asked_at"][k][0] for k, (a, b) in enumerate(names["needs"])}
        self.places, self.parent, self.own, self.new, self.facts, self.arms = {}, {}, {}, {}, {}, {}
        self.steps, self.clauses, self.params = {}, {}, {}
        for (old, parent, step, callee, more), new, cl, arm in zip(names["places"], names["places_by_name"], names["clauses"], names["arms"]):
            for k in (norm(old), norm(old).lower()):
                self.places.setdefault(k, old)
            self.parent[old], self.own[old], self.new[old] = parent, step, new
            self.facts[old] = dict(more)
            if arm:
                self.arms[old] = [((norm(st),) + tuple(path), (arm[0], field)) for field, st, path in arm[2]]
            if step[0]:
                self.steps.setdefault(norm(step[0]), step[1])
                if cl:
                    self.clauses[step[1]] = cl["fields"]
                if callee:
                    self.params[step[1]] = names["params"].get(callee)
        for (old, new), vs in names["loops"]:
            self.steps[norm(old)] = new
        self.typed = {norm(step): var for at in names["typed"] for var, step in at}
        self.asked = {norm(k): v for k, v in names["asked"].items()}
        self.pre = names["pre"]["fields"] if names["pre"] else None

    def place(self, word):
        """The old name of a place."""
        for w in (norm(word), norm(word).lower(), re.sub("-lem$", "", norm(word))):
            if w in self.places:
                return self.places[w]
        raise Failed(f"no place {word}")

    def named(self, place):
        """The new name of a place; of the parts of an arm, that of the whole arm."""
        new = self.new[place]
        whole = re.sub(r"-\d+$", "", new)
        return whole if whole != new and whole.startswith("In") and whole in self.new.values() else new


def select(path, fields):
    """Which of the fields a chain of .0 and .1 picks from a tuple of them, nested to the right: the field and what is left of the chain, or the fields from there on."""
    i = 0
    path = list(path)
    while path and path[0] == "1" and i < len(fields) - 1:
        path.pop(0)
        i += 1
    if i == len(fields) - 1:
        return [fields[i]], path
    if path and path[0] == "0":
        return [fields[i]], path[1:]
    return fields[i:], path


class Helper:
    pass


def skip(ts, i):
    while i < len(ts) and ts[i].isspace():
        i += 1
    return i


def place_at(f, ts, i, env, helpers):
    """The place that the atom at i is, without its fields, and the index behind it; or None."""
    if i >= len(ts) or (i > 0 and ts[i - 1] == "."):
        return None
    if is_id(ts[i]) and ts[i] in env:
        place, j = env[ts[i]], i + 1
    elif ts[i] == "(":
        got = place_term(f, ts, skip(ts, i + 1), env, helpers)
        if not got:
            return None
        j = skip(ts, got[1])
        if j >= len(ts) or ts[j] != ")":
            return None
        place, j = got[0], j + 1
    else:
        return None
    while ts[j : j + 2] == [".", "before"]:
        place = f.parent[place]
        if place is None:
            raise Failed("nothing is before the start")
        j += 2
    return place, j


def place_term(f, ts, i, env, helpers):
    """The same for a term: an atom, or a function that leads from place to place with its argument."""
    if i < len(ts) and is_id(ts[i]) and ts[i] in helpers and helpers[ts[i]].leads:
        got = place_at(f, ts, skip(ts, i + 1), env, helpers)
        return got and (helpers[ts[i]].to, got[1])
    return place_at(f, ts, i, env, helpers)


def record_at(f, ts, i, env, helpers, root):
    """Of `PLACE.requires in` or `PLACE.STEP.ensures in`, where there are several clauses: the record's path, their names, and the index behind `in`; or None."""
    got = place_at(f, ts, i, env, helpers)
    if got is None and i < len(ts) and ts[i] == "(":
        inner = place_term(f, ts, skip(ts, i + 1), env, helpers)
        if inner:
            j = skip(ts, inner[1])
            if j < len(ts) and ts[j] == ")":
                got = (inner[0], j + 1)
    if not got:
        return None
    place, j = got
    chain = []
    while j + 1 < len(ts) and ts[j] == "." and (is_id(ts[j + 1]) or ts[j + 1].isdigit()):
        chain.append(ts[j + 1])
        j += 2
    e = skip(ts, j)
    if e >= len(ts) or ts[e] != "in" or not chain:
        return None
    if chain in (["pre"], ["requires"]) and f.pre and len(f.pre) > 1:
        return f"{root}.requires", f.pre, e + 1
    if len(chain) == 2 and chain[1] == "ensures":
        for w in (norm(chain[0]), norm(chain[0]).lower(), re.sub("-lem$", "", norm(chain[0]))):
            step = f.own[place][1] if norm(f.own[place][0]) == w else f.steps.get(w)
            if step:
                fields = f.clauses.get(step)
                return (f"{root}.{step}.ensures", fields, e + 1) if fields and len(fields) > 1 else None
    return None


def walk(f, ts, env, root, at, helpers, own):
    """A term with what it cites of places written for one flat record, root. at: the goal that it answers, or None in a function of the place own."""
    env = dict(env)
    records = {}
    out = []
    i = 0
    while i < len(ts):
        t = ts[i]
        if t == "let":
            j = skip(ts, i + 1)
            if j < len(ts) and is_id(ts[j]):
                k = skip(ts, j + 1)
                if ts[k] == "=":
                    got = place_term(f, ts, skip(ts, k + 1), env, helpers)
                    if got:
                        e = skip(ts, got[1])
                        if e < len(ts) and ts[e] == "in":
                            env[ts[j]] = got[0]
                            i = skip(ts, e + 1)
                            continue
                    whole = record_at(f, ts, skip(ts, k + 1), env, helpers, root)
                    if whole:
                        records[ts[j]] = whole[1]
                        out += tokens(f"let {ts[j]} = {whole[0]} in")
                        i = whole[2]
                        continue
        if is_id(t) and t in records and not (out and out[-1] == "."):
            chain = []
            j = i + 1
            while j + 1 < len(ts) and ts[j] == "." and ts[j + 1].isdigit():
                chain.append(ts[j + 1])
                j += 2
            got, rest = select(chain, records[t])
            out += tokens(".".join([t, got[0]] + rest) if len(got) == 1 else tuple_of([f"{t}.{g}" for g in got]))
            i = j
            continue
        if is_id(t) and t in helpers and not (out and out[-1] == "."):
            h = helpers[t]
            got = place_at(f, ts, skip(ts, i + 1), env, helpers)
            if got and not (ts[got[1] : got[1] + 1] == ["."]):
                if h.leads:
                    out.append(root)
                elif at is not None:
                    h.used = True
                    out += tokens(f"{t} (goal.at.{at} {root}).{h.place_name}")
                elif own == h.place_name:
                    h.used = True
                    out += tokens(f"{t} {root}")
                else:
                    inner = "".join(walk(f, tokens(h.body), {h.var: h.place}, root, at, helpers, own)).strip()
                    kind = "".join(walk(f, tokens(h.type), {h.var: h.place}, root, at, helpers, own)).strip()
                    plain = not re.search(r"\b(omega|search|grind|simp|rw|cc)\b", inner)
                    out += tokens(f"({inner})" if h.abbrev or not kind or plain else f"(let {t} : {kind} = {inner} in {t})")
                i = got[1]
                continue
        got = place_at(f, ts, i, env, helpers)
        if got is None and t == "(":
            inner = place_term(f, ts, skip(ts, i + 1), env, helpers)
            if inner:
                j = skip(ts, inner[1])
                if j < len(ts) and ts[j] == ")":
                    got = (inner[0], j + 1)
        if got:
            place, j = got
            chain = []
            while j + 1 < len(ts) and ts[j] == "." and (is_id(ts[j + 1]) or ts[j + 1].isdigit()):
                chain.append(ts[j + 1])
                j += 2
            out += tokens(citation(f, root, place, chain)) if chain else [root]
            i = j
            continue
        out.append(t)
        i += 1
    text = "".join(out)
    return tokens(re.sub(r"not-(?:true|false) _ (" + ID + r"(?:\." + ID + r")*\.(?:true|false))-raw", r"\1", text))


def sub_root(s, var, root):
    return re.sub(r"(?<![\w'.₀-₉-])" + re.escape(var) + r"(?![\w'₀-₉-])", root, s)


def citation(f, root, place, chain):
    head = chain[0]
    if head in ("pre", "requires"):
        if not f.pre or len(f.pre) == 1 and f.pre == [None]:
            return ".".join([root, "requires"] + chain[1:])
        got, rest = select(chain[1:], f.pre)
        if len(got) == 1:
            return ".".join([root, "requires", got[0]] + rest)
        return tuple_of([f"{root}.requires.{g}" for g in got])
    if head in ("args", "ranges", "lifetimes", "type_inv", "result"):
        return ".".join([root] + chain)
    if head == "well-formed":
        return ".".join([root, "well_formed"] + chain[1:])
    if norm(head) in f.typed and chain[1:2] == ["given"]:
        return ".".join([root, "type_inv", f.typed[norm(head)]] + chain[2:])
    for k in range(len(chain), 0, -1):
        for key, (step, field) in f.arms.get(place, []):
            if key == (norm(chain[0]),) + tuple(chain[1:k]):
                return ".".join([root, step, field] + chain[k:])
    step = None
    for w in (norm(head), norm(head).lower(), re.sub("-lem$", "", norm(head))):
        if norm(f.own[place][0]) == w:
            step = f.own[place][1]
            break
        if w in f.steps and step is None:
            step = f.steps[w]
    if step is None:
        return ".".join([root] + chain)
    rest = [{"taken": "true", "left": "false", "inv": "invariant"}.get(c, c) if k == 0 else c for k, c in enumerate(chain[1:])]
    if rest and rest[0] in f.facts.get(place, {}):
        rest[0] = f.facts[place][rest[0]]
    if rest and rest[0] == "ensures" and f.clauses.get(step):
        got, more = select(rest[1:], f.clauses[step])
        if len(got) == 1:
            return ".".join([root, step, "ensures", got[0]] + more)
        return tuple_of([f"{root}.{step}.ensures.{g}" for g in got])
    if rest and rest[0] in ("kept", "auto", "new") and f.params.get(step):
        k = 0
        path = rest[1:]
        while path and path[0] == "1":
            path = path[1:]
            k += 1
        if path and path[0] == "0" and k < len(f.params[step]):
            return ".".join([root, step, "auto" if rest[0] == "kept" else rest[0], f.params[step][k]] + path[1:])
    return ".".join([root, step] + rest)


def tuple_of(items):
    return items[0] if len(items) == 1 else f"({items[0]}, {tuple_of(items[1:])})"


def split_tuple(s):
    """The two parts of a parenthesised pair, or None."""
    s = s.strip()
    if not s.startswith("("):
        return None
    ts = tokens(s)
    if balanced(ts, 0) != len(ts):
        return None
    d = 0
    cut = []
    for i, t in enumerate(ts):
        if t in "([{":
            d += 1
        elif t in ")]}":
            d -= 1
        elif t == "," and d == 1:
            cut.append(i)
    if not cut:
        return None
    parts = []
    last = 1
    for c in cut + [len(ts) - 1]:
        parts.append("".join(ts[last:c]).strip())
        last = c + 1
    if parts[-1] == "":
        parts.pop()
    return parts


def tail(s):
    """What comes before the last term of a chain of lets, and that term."""
    ts = tokens(s)
    d = 0
    i = 0
    # only lets at the front count
    while True:
        j = i
        while j < len(ts) and ts[j].isspace():
            j += 1
        if j < len(ts) and ts[j] == "let":
            k, d, lets = j + 1, 0, 1
            while k < len(ts):
                if ts[k] in "([{":
                    d += 1
                elif ts[k] in ")]}":
                    d -= 1
                elif ts[k] == "let" and d == 0:
                    lets += 1
                elif ts[k] == "in" and d == 0:
                    lets -= 1
                    if lets == 0:
                        break
                k += 1
            if k >= len(ts):
                return "".join(ts[:i]), "".join(ts[i:])
            i = k + 1
            continue
        return "".join(ts[:i]), "".join(ts[i:])


def by_clause(body, fields):
    """A tuple for several clauses as a record of them."""
    before, last = tail(body)
    left, items = last.strip(), []
    for k in range(len(fields) - 1):
        parts = split_tuple(left)
        if not parts or len(parts) < 2:
            left = left.strip()
            if k == 0 and not re.fullmatch(r"[\w.'₀-₉-]+", left):
                if re.match(r"can_|search |grind ", left):
                    return body
                left = left.replace("\n", " ")
                n = len(fields)
                return before + (" " if before and not before[-1].isspace() else "") + f"let both = {left} in record {{ " + "; ".join(f"{a} = both" + ".1" * j + (".0" if j < n - 1 else "") for j, a in enumerate(fields)) + " }"
            if not re.fullmatch(r"[\w.'₀-₉-]+", left):
                before += (" " if before and not before.endswith((" ", "\n")) else "") + ""
                left = f"({left})"
            items += [left + ".1" * j + (".0" if k + j < len(fields) - 1 else "") for j in range(len(fields) - k)]
            left = None
            break
        items.append(parts[0])
        left = parts[1] if len(parts) == 2 else "(" + ", ".join(parts[1:]) + ")"
    if left is not None:
        items.append(left)
    return before + (" " if before and not before[-1].isspace() else "") + "record { " + "; ".join(f"{a} = {b.strip()}" for a, b in zip(fields, items)) + " }"


def sections(text):
    """Sections over one place, `module _ (r : tie.P) where`, as functions of the place."""

    def opened(m):
        var, place, body = m[1], m[2], m[3]
        body = re.sub(r"(?m)^  ", "", body)
        blocks = [b for b in re.split(r"\n\s*\n", body) if b.strip()]
        names = re.findall(r"(?m)^(?:abbrev |unfoldable |pub )*(" + ID + r") :", body)
        out = []
        for b in blocks:
            k = re.search(r"(?m)^((?:abbrev |unfoldable |pub )*)(" + ID + r") : ", b)
            comment, marks, name, rest = b[: k.start()], k[1], k[2], b[k.end() :]
            c = re.search(r"\n(?:unfolding [^\n]*\n)?" + re.escape(name) + r"\b", rest)
            sig, clause = rest[: c.start()], rest[c.start() :].lstrip("\n")

            def cite(part):
                return re.sub(r"(?<![\w'.₀-₉-])(" + "|".join(map(re.escape, names)) + r")(?![\w'₀-₉-]|\s=\s)", lambda w: f"({w[1]} {var})", part)

            unf = ""
            while clause.startswith("unfolding"):
                u, clause = clause.split("\n", 1)
                unf += u + "\n"
            out.append(comment + f"{marks}{name} : ({var} : tie.{place}) → {cite(sig)}\n{unf}{name} {var}" + cite(clause[len(name) :]))
        return "\n\n".join(out) + "\n\n"

    return re.sub(r"(?m)^module _ \((" + ID + r") : tie\.(" + ID + r")[^)]*\) where\n((?:(?:  [^\n]*)?\n)+)", opened, text)


def convert(f, text):
    text = sections(text)
    # a name that an earlier script respelled at its declaration alone
    brought = re.findall(r"[a-z]\w*_\w*", " ".join(re.findall(r"(?m)^use Rattle\.[\w.]+\.\{([^}]*)\}", text)))
    for name in set(re.findall(r"(?m)^(?:abbrev |unfoldable |pub )*([a-z]\w*_\w*) :", text)) | set(brought):
        text = re.sub(r"(?<![\w'.₀-₉-])" + name.replace("_", "[_-]") + r"(?![\w'₀-₉-])", name, text)
    blocks = []
    header = []
    lines = text.split("\n")
    i = 0
    while i < len(lines) and lines[i].startswith("--"):
        header.append(lines[i])
        i += 1
    uses, decls = [], []
    comment = []
    while i < len(lines):
        l = lines[i]
        if l.startswith("use "):
            uses.append(l)
            i += 1
        elif l.startswith("--"):
            comment.append(l)
            i += 1
        elif not l.strip():
            if comment and not (i + 1 < len(lines) and lines[i + 1].strip()):
                pass
            i += 1
        else:
            j = i
            while j < len(lines) and lines[j].strip() and not lines[j].startswith("--"):
                j += 1
            decls.append((comment, "\n".join(lines[i:j])))
            comment = []
            i = j
    tie = re.compile(r"tie\.(" + ID + r")((?:\s+(?:invariant|decreases)[\w'-]*)*)")
    helpers, order, invs = {}, [], []
    for comment, d in decls:
        if re.search(r"\btie\.(close|spec)\b", d):
            continue
        m = re.match(r"((?:abbrev |unfoldable |pub )*)(" + ID + r")\s*:\s*", d)
        if not m:
            order.append(("plain", comment, d, None))
            continue
        marks, name = m[1], m[2]
        # the clauses begin at a line that begins with the name
        k = re.search(r"\n(?:unfolding [^\n]*\n)*(?=" + re.escape(name).replace("_", "[_-]").replace(r"\-", "[_-]") + r"(?![\w'-]))", d)
        if not k:
            raise Failed(f"no clause of {name}")
        sig, rest = d[m.end() : k.start()], d[k.start() + 1 :]
        unf = ""
        while rest.startswith("unfolding"):
            u, rest = rest.split("\n", 1)
            unf += u + "\n"
        t = tie.match(sig.strip())
        if t and (t[1].startswith(("invariant", "decreases"))):
            invs.append((t[1], comment, unf, rest, name))
            continue
        if t and t[1].startswith("Need-") and not re.search(r"→", sig[t.end() :]):
            order.append(("goal", comment, (t[1][5:], unf, rest), name))
            continue
        if "tie." in sig:
            h = Helper()
            h.name, h.comment, h.unf, h.abbrev, h.used = name, comment, unf, "abbrev" in marks, False
            s = sig.strip()
            a = re.match(r"\(\s*(" + ID + r")\s*:\s*tie\.(" + ID + r")((?:\s+(?:invariant|decreases)[\w'-]*)*)\s*\)\s*(?:→\s*)?", s)
            b = re.match(r"tie\.(" + ID + r")((?:\s+(?:invariant|decreases)[\w'-]*)*)\s*→\s*", s)
            if a:
                h.var, h.place, h.type = a[1], f.place(a[2]), s[a.end() :]
            elif b:
                h.var, h.place, h.type = None, f.place(b[1]), s[b.end() :]
            else:
                raise Failed(f"the signature of {name}: {s[:80]}")
            h.place_name = f.named(h.place)
            to = re.match(r"tie\.(" + ID + ")", h.type)
            if to:
                if "→" in h.type:
                    raise Failed(f"two places in {name}")
                h.leads, h.to = True, f.place(to[1])
                helpers[name] = h
                continue
            if "tie." in h.type:
                raise Failed(f"two places in {name}")
            h.leads = False
            c = re.match(ID + r"\s+(" + ID + r")((?:\s+" + ID + r")*)\s*=\s*", rest)
            if not c or re.search(r"\n" + re.escape(name) + r"\s", rest):
                raise Failed(f"the clauses of {name}")
            h.more = c[2]
            if h.var and h.var != c[1]:
                h.type = sub_root(h.type, h.var, c[1])
            h.var, h.body = c[1], rest[c.end() :]
            if h.more:
                h.body = f"λ{h.more}. {h.body}"
            helpers[name] = h
            order.append(("helper", comment, h, name))
            continue
        order.append(("plain", comment, d, name))

    goals = []
    for kind, comment, it, name in order:
        if kind != "goal":
            continue
        old, unf, rest = it
        new = f.goals.get(norm(old)) or f.goals_new.get(norm(old)) or f.goals.get(re.sub("-lem", "", norm(old)))
        if new is None:
            print(f"  {f.path}: no goal {old}")
            continue
        c = re.match(ID + r"\s+(" + ID + r"|_)((?:\s+(?:" + ID + r"|_))*)\s*=\s*", rest)
        if not c:
            raise Failed(f"the clause of {name}")
        var = c[1] if c[1] != "_" else "c"
        try:
            out = "".join(walk(f, tokens(rest[c.end() :]), {var: f.at[new]}, var, new, helpers, None)).rstrip()
        except Failed as e:
            raise Failed(f"{name}: {e}")
        asked = f.asked.get(norm(old)) or f.asked.get(norm(new))
        if asked and len(asked) > 1 and not out.strip().startswith("search rules"):
            out = by_clause(out, asked)
        # what the check finds alone needs no answer
        if out.strip() in ("search rules", "omega arith") and not unf:
            continue
        goals.append((comment, new, unf, var, out))
    # helpers that a goal or another helper cites, as functions of their place
    done = set()
    again = True
    while again:
        again = False
        for kind, comment, h, name in order:
            if kind == "helper" and h.used and name not in done:
                done.add(name)
                again = True
                typ = "".join(walk(f, tokens(h.type), {h.var: h.place}, h.var, None, helpers, h.place_name)).strip()
                body = "".join(walk(f, tokens(h.body), {h.var: h.place}, h.var, None, helpers, h.place_name)).rstrip()
                h.text = (
                    "".join(c + "\n" for c in comment)
                    + ("abbrev " if h.abbrev else "")
                    + f"{name} : ({h.var} : {h.place_name}) → {typ}\n{h.unf}{name} {h.var} = {body}"
                )
    places = sorted({h.place_name for h in helpers.values() if not h.leads and h.used})
    parts = []
    for kind, comment, it, name in order:
        if kind == "plain":
            parts.append("".join(c + "\n" for c in comment) + it)
        elif kind == "helper" and it.used:
            parts.append(it.text)
    for comment, new, unf, var, out in goals:
        parts.append("".join(c + "\n" for c in comment) + f"pub {new} : goal.{new}\n{unf}{new} {var} ={' ' + out.strip() if chr(10) not in out.strip() else chr(10) + '    ' + out.strip()}")
    keep = [u for u in uses if not re.search(r"\.(Statement\.\{|Tie as )", u)]
    mod = f"Rattle.{f.crate}.proofs.{f.path}"
    inv_text = None
    if invs:
        il = []
        for old, comment, unf, rest, name in invs:
            kind, loop = old.replace("-", "_").split("_", 1)
            found = [(k, l) for k, l in enumerate(f.n["loops"]) if norm(l[0][0]) == norm(loop)]
            if not found:
                raise Failed(f"no loop {loop}")
            k, ((_, new), vs) = found[0]
            changed = f.n["changed"][k]
            want = [("l.initial." + v) if ch else "l." + v for v, ch in zip(vs, changed)] + ["l." + v for v, ch in zip(vs, changed) if ch]
            c = re.match(ID + r"((?:\s+(?:" + ID + r"|_))*)\s*=\s*", rest)
            if not c:
                raise Failed(f"the clause of {name}")
            ps = c[1].split()
            if len(ps) != len(want):
                raise Failed(f"{name}: {len(ps)} parameters for {len(want)} values: {ps} {want}")
            body = rest[c.end() :]
            table = {p: w for p, w in zip(ps, want) if p != "_"}
            ts = tokens(body)
            out = []
            for q, t in enumerate(ts):
                if t in table and not (out and out[-1] == "."):
                    out.append(table[t])
                else:
                    out.append(t)
            il.append("".join(x + "\n" for x in comment) + f"abbrev pub {kind}-{new} : goal.{kind}-{new}\n{unf}{kind}-{new} l = " + "".join(out).rstrip())
        inv_text = "\n".join(header) + "\n" + "\n".join(keep) + f"\nuse {mod}.Given as goal\n\n" + "\n\n".join(il) + "\n"
    ans = None
    if goals:
        head = "\n".join(header) if not invs else header_of_answers(f)
        ans = head + "\n" + "\n".join(keep) + f"\nuse {mod}.Goals as goal\n"
        if places:
            ans += f"use {mod}.Goals." + "{" + ", ".join(places) + "}\n"
        ans += "\n" + "\n\n".join(parts) + "\n"
    return inv_text, ans


def header_of_answers(f):
    return f"-- `{f.crate}::{f.path.replace('.', '::')}` meets its contract, by the invariant beside this file."


def main():
    names = json.load(open(sys.argv[1]))
    crate = sys.argv[2]
    only = sys.argv[3:]
    base = os.path.join("crates", crate, "proofs")
    good = bad = 0
    for folder, dirs, files in os.walk(base):
        if "Proof.antt" not in files:
            continue
        path = os.path.relpath(folder, base).replace("/", ".")
        if only and path not in only:
            continue
        key = f"Rattle-{crate}-proofs.{path}.Lts"
        if key not in names:
            print(f"{crate}: no names for {path}")
            bad += 1
            continue
        with open(os.path.join(folder, "Proof.antt"), encoding="utf-8") as it:
            text = it.read()
        try:
            inv, ans = convert(Function(names[key], crate, path), text)
        except Failed as e:
            print(f"{crate}: {path}: {e}")
            bad += 1
            continue
        if inv:
            with open(os.path.join(folder, "Invariants.antt"), "w", encoding="utf-8") as it:
                it.write(inv)
        if ans:
            with open(os.path.join(folder, "Answers.antt"), "w", encoding="utf-8") as it:
                it.write(ans)
        os.remove(os.path.join(folder, "Proof.antt"))
        good += 1
    print(f"{crate}: {good} turned, {bad} left")


main()
