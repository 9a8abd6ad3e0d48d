#!/usr/bin/env python3
"""Turns proofs by hand of the older form (proofs/F/Proof.antt, one answer for each part, put together by `tie.spec`) into today's files
Invariants.antt and Answers.antt.

usage: python3 tools/answers.py CRATE NAMES.json      at the top of the repository

NAMES.json is what `rt check --generated DIR --old-names`, run in the crate's folder, writes as DIR/names.json. Each answer gets the goal's
name of today, each path through the places of the code (`c.before.before.args`) becomes a step's name (`c.args`), and answers that the
check finds alone go. What it could not turn it says in lines that begin with `left:`.
"""

import json
import os
import re
import sys

IDENT = r"[A-Za-z_α-ωΑ-Ω⊎][A-Za-z0-9_\-'₀-₉α-ω]*"
PATH = re.compile(rf"(?<![A-Za-z0-9_\-'.₀-₉α-ω])({IDENT})((?:\.[A-Za-z0-9_][A-Za-z0-9_\-'₀-₉]*)*)")
START = {"args", "requires", "ranges", "well-formed", "known"}
TRIVIAL = {"search rules", "omega arith", "refl"}


def norm(name):
    name = name.replace("_", "-")
    name = {"type-size": "size-of", "Store-word": "store-word", "Each-right": "each-right"}.get(name, name)
    name = name[: -len("-lem")] if name.endswith("-lem") else name
    for op in ("overflow", "nonzero", "bounds", "offset-bounds", "slice-bounds"):
        if name.startswith(op + "-"):
            name = name[len(op) + 1 :]
    return name


def blocks(text):
    """The declarations of a file, each with the comments above it: (comments, lines)."""
    out, comments, lines = [], [], []
    for line in text.split("\n"):
        starts = line and not line[0].isspace()
        if line.startswith("--"):
            if lines:
                out.append((comments, lines))
                comments, lines = [], []
            comments.append(line)
        elif starts:
            name = re.match(rf"(?:pub |abbrev |unfoldable )*({IDENT}|\S+)", line).group(1)
            own = re.match(rf"(?:pub |abbrev |unfoldable )*(\S+)", lines[0]).group(1) if lines else None
            if lines and (name == own or line.startswith("unfolding")):
                lines.append(line)
            else:
                if lines:
                    out.append((comments, lines))
                    comments, lines = [], []
                lines = [line]
        elif line.strip():
            lines.append(line)
        elif lines:
            out.append((comments, lines))
            comments, lines = [], []
        elif comments:
            out.append((comments, []))
            comments = []
    if lines or comments:
        out.append((comments, lines))
    return out


class Turner:
    def __init__(self, spec, said):
        self.spec = spec
        self.said = said
        self.places = {}
        for k, p in enumerate(spec["places"]):
            self.places[norm(p[0])] = (p, spec["arms"][k] if k < len(spec["arms"]) else None, spec["clauses"][k] if k < len(spec["clauses"]) else None)
        self.args = {}
        for old, new in spec["args"]:
            o = [w.strip(". ") for w in old.split()]
            n = [w.strip(". ") for w in new.split()]
            self.args[tuple(map(norm, o))] = n
        self.loops = {norm(l[0][0]): (l[0][1], l[1], spec["changed"][k]) for k, l in enumerate(spec["loops"])}

    def refine(self, place, new, old):
        """Names in place of numbers: of the ensures of a call, of what its references hold afterwards, of the requires."""
        p, arm, clauses = self.places.get(place, (None, None, None))
        for k, f in enumerate(new):
            if f == "ensures" and k and clauses and clauses.get("fields"):
                names = clauses["fields"]
                return new[: k + 1] + self.pick(names, new[k + 1 :])
            if f in ("last", "kept") and k and p and p[3] and k + 1 < len(new) and new[k + 1] in ("0", "1"):
                f = new[k] = {"last": "new", "kept": "auto"}[f]
            if f in ("new", "auto") and p and p[3]:
                names = self.spec["params"].get(p[3])
                rest = new[k + 1 :]
                if names and rest and rest[0] in ("0", "1"):
                    n = 0
                    while n < len(rest) and rest[n] == "1":
                        n += 1
                    if n < len(rest) and rest[n] == "0" and n < len(names):
                        return new[: k + 1] + [names[n]] + rest[n + 1 :]
        if new and new[0] == "requires" and self.spec.get("pre"):
            pre = self.spec["pre"]
            names = pre["fields"] if isinstance(pre, dict) else pre
            return new[:1] + self.pick(names, new[1:])
        return new

    @staticmethod
    def pick(names, rest):
        if len(names) < 2 or not rest or not rest[0].isdigit():
            return rest
        n, k = 0, 0
        while n < len(names) - 1 and k < len(rest) and rest[k] == "1":
            n, k = n + 1, k + 1
        if n < len(names) - 1:
            if k < len(rest) and rest[k] == "0":
                return [names[n]] + rest[k + 1 :]
            if k < len(rest) and rest[k].isdigit() and int(rest[k]) < len(names):
                return [names[int(rest[k])]] + rest[k + 1 :]
            return rest
        return [names[n]] + rest[k:]

    def parent(self, place):
        return norm(self.places[place][0][1])

    def field(self, place, fields):
        """(new fields below c, how many of the old were read) of a path that begins with a step of this place."""
        p, arm, _ = self.places[place]
        step = norm(fields[0])
        if place == "Start":
            for n in range(min(3, len(fields)), 0, -1):
                key = tuple(map(norm, fields[:n]))
                if key in self.args:
                    return self.args[key] + fields[n:]
            return ["well_formed"] + fields[1:] if fields[0] == "well-formed" else fields
        if arm:
            best = None
            for new, old, path in arm[2]:
                if norm(old) == step and [norm(x) for x in fields[1 : 1 + len(path)]] == [norm(x) for x in path]:
                    if best is None or len(path) > best[0]:
                        best = (len(path), new)
            if best:
                return [arm[0], best[1]] + fields[1 + best[0] :]
        if step == norm(p[2][0]):
            return [p[2][1]] + fields[1:]
        return None

    def resolve(self, place, fields):
        """('place', P), or ('path', new fields below c, place, old fields), or None. A step's name stands once among the places above a goal."""
        n = 0
        while n < len(fields) and fields[n] == "before":
            n += 1
        rest = fields[n:]
        if not rest:
            return ("place", place)
        at = place
        while True:
            new = self.field(at, rest)
            if new is not None and (at != "Start" or norm(rest[0]) in START or rest[0].startswith(("told", "fits", "length"))):
                return ("path", self.refine(at, new, rest), at, rest)
            if at == "Start" or at not in self.places:
                return None
            at = self.parent(at)

    def body(self, text, env, where, keep=False):
        """env: variable -> ('place', P) | ('steps', place, old fields)"""
        env = dict(env)
        out, k = [], 0
        depth, hidden = 0, []
        binder = re.compile(rf"λ ((?:{IDENT}|\((?:[^():]+):[^()]*(?:\([^()]*\)[^()]*)*\)|\s)+)\.")
        let = re.compile(rf"let ({IDENT}) = ({IDENT})((?:\.[A-Za-z0-9_][A-Za-z0-9_\-'₀-₉]*)*) in(\s+|$)")
        while k < len(text):
            if text[k] in "([{":
                depth += 1
            elif text[k] in ")]}":
                depth -= 1
            ends_let = re.match(r"\sin\s", text[k : k + 4])
            while hidden and (depth < hidden[-1][0] or (ends_let and depth == hidden[-1][0])):
                env.update(hidden.pop()[1])
            b = binder.match(text, k)
            if b:
                names = re.findall(IDENT, re.sub(r":[^)]*\)", ")", b.group(1)))
                taken = {n: env.pop(n) for n in names if n in env}
                if taken:
                    hidden.append((depth, taken))
                out.append(text[k : b.end()])
                k = b.end()
                continue
            m = let.match(text, k)
            if m and (k == 0 or not re.match(r"[\w\-]", text[k - 1])) and m.group(2) in env:
                got = self.path(env, m.group(2), m.group(3), where)
                if got and got[0] == "place":
                    env[m.group(1)] = got
                    k = m.end()
                    continue
                if got and got[0] == "path":
                    env[m.group(1)] = ("steps", got[2], got[3])
                    out.append(f"let {m.group(1)} = {m.group(2) if keep else 'c'}.{'.'.join(got[1])} in{m.group(4)}")
                    k = m.end()
                    continue
            m = PATH.match(text, k)
            if m and (k == 0 or not re.match(r"[\w\-'.]", text[k - 1])):
                var, rest = m.group(1), m.group(2)
                if var in env:
                    got = self.path(env, var, rest, where)
                    if env[var][0] == "steps" and not rest:
                        out.append(var)
                    elif got is None:
                        self.said.append(f"left: {where}: {var}{rest}")
                        out.append(var + rest)
                    elif got[0] == "place":
                        out.append(var if keep else "c")
                    else:
                        out.append((var if keep else "c") + "." + ".".join(got[1]))
                else:
                    out.append(m.group(0))
                k = m.end()
                continue
            out.append(text[k])
            k += 1
        return "".join(out)

    def path(self, env, var, rest, where):
        fields = [f for f in rest.split(".") if f]
        kind = env[var]
        if kind[0] == "place":
            return self.resolve(kind[1], fields)
        if not fields:
            return None
        new = self.field(kind[1], kind[2] + fields)
        if new is None:
            return None
        return ("path", self.refine(kind[1], new, kind[2] + fields), kind[1], kind[2] + fields)


def parts_of(text):
    """The top-level parts of a tuple's inside."""
    out, depth, start = [], 0, 0
    for k, ch in enumerate(text):
        if ch in "([{":
            depth += 1
        elif ch in ")]}":
            depth -= 1
        elif ch == "," and depth == 0:
            out.append(text[start:k].strip())
            start = k + 1
    last = text[start:].strip()
    return out + ([last] if last else [])


def wrapped(body, names):
    """A lemma at the end of an answer that gives a tuple, as a record of the clauses' names."""
    m = re.search(r"(?:^|(?<=\sin)\s)\s*((?!rw\b|let\b|simp\b|omega\b|search\b|elim\b|refl\b|cc\b|grind\b|subst\b|absurd\b|λ|c\.|record\b)[a-z][^\s]*(?:\s[^=]*)?)$", body)
    if not m or " in " in m.group(1) or "\n" in m.group(1).strip() and "let " in m.group(1):
        return None
    lemma = m.group(1).rstrip()
    path = ["0"]
    fields = []
    for k, n in enumerate(names):
        fields.append(f"{n} = both." + ("1." * k)[:-1] + ("" if k == len(names) - 1 else ("." if k else "") + "0"))
    fields = [re.sub(r"\.+", ".", f).rstrip(".") for f in fields]
    return body[: m.start(1)] + f"let both = {lemma} in record {{ " + "; ".join(fields) + " }"


def as_record(body, names):
    """A tuple at the end of an answer, as a record of the clauses' names."""
    text = body.rstrip()
    if not text.endswith(")"):
        return None
    depth, k = 0, len(text) - 1
    while k >= 0:
        if text[k] == ")":
            depth += 1
        elif text[k] == "(":
            depth -= 1
            if depth == 0:
                break
        k -= 1
    before = text[:k].rstrip()
    if before and not re.search(r"(\bin|=|\.|↦)$", before) and not re.search(r"(?:^|\s|\))(rw|simp) [^\n]*$", before):
        return None
    parts = parts_of(text[k + 1 : -1])
    if len(parts) == 1:
        inside = text[k + 1 : -1]
        rec = as_record(inside, names) or wrapped(inside, names)
        return text[:k] + "(" + rec + ")" if rec else None
    while len(parts) < len(names) and len(parts) > 1 and parts[-1].startswith("(") and parts[-1].endswith(")"):
        parts = parts[:-1] + parts_of(parts[-1][1:-1])
    if len(parts) != len(names):
        return None
    if "\n" in text or sum(map(len, parts)) > 100:
        inside = "\n" + "".join(f"      {n} = {p};\n" for n, p in zip(names, parts)) + "    "
    else:
        inside = " " + "; ".join(f"{n} = {p}" for n, p in zip(names, parts)) + " "
    return text[:k] + "record {" + inside + "}"


ATOM = r"(?:[A-Za-z_][^\s()]*|\((?:[^()]|\((?:[^()]|\([^()]*\))*\))*\))"
NOT = re.compile(rf"not-(true|false) {ATOM} (c\.if[A-Za-z0-9_\-.]*\.\1)")


def loop_of(turner, name):
    return turner.loops.get(norm(name))


def substitute(body, names):
    def one(m):
        v, rest = m.group(1), m.group(2)
        return (names[v] + rest) if v in names else m.group(0)

    return PATH.sub(one, body)


def is_field(step, sources):
    """Whether `c.if-not-X` tests a field of X, where the fact is of `not`; for a call's result it is of the result itself."""
    m = re.match(r"c\.if-not-([A-Za-z0-9_]+)", step)
    return bool(m) and bool(re.search(rf"!{m.group(1)}\.[a-z0-9_]+(?:\.[a-z0-9_]+)*(?![\w(.])", sources))


def turn(folder, lib, func, spec, said, sources):
    path = os.path.join(folder, "Proof.antt")
    with open(path, encoding="utf-8") as f:
        text = f.read()
    where = f"{folder}"
    t = Turner(spec, said)
    needs = {norm(o): (n, norm(spec["asked_at"][k][0])) for k, (o, n) in enumerate(spec["needs"])}
    older = {n: o for o, n in spec["needs"]}
    parts = blocks(text)
    uses, head, inv, ans, others = [], [], [], [], []
    order = []
    for comments, lines in parts:
        for l in lines:
            if "tie.spec" in " ".join(lines):
                whole = " ".join(x.strip() for x in lines)
                m = re.search(r"tie\.spec\s+(.*)\)", whole)
                if m:
                    order = [w for w in re.split(r"[\s()]+", m.group(1)) if w]
    declared = {}
    for comments, lines in parts:
        if lines:
            m = re.match(rf"(?:pub |abbrev )*({IDENT}) : tie\.(\S+)", lines[0])
            if m:
                declared[m.group(1)] = m.group(2)
    answers = [o for o in order if declared.get(o, "").startswith("Need")]
    by_order = {}
    if len(answers) == len(spec["needs"]):
        by_order = {a: (spec["needs"][k][1], norm(spec["asked_at"][k][0])) for k, a in enumerate(answers)}
    first = True
    for comments, lines in parts:
        if not lines:
            (head if first else others).extend(comments + [""])
            continue
        l0 = lines[0]
        if l0.startswith("use ") or l0.startswith("pub use "):
            if first:
                head += comments
                first = False
                comments = []
            for l in lines:
                if re.search(r"\.(Statement\.\{statement\}|Tie as tie)", l):
                    continue
                uses.append(l)
            continue
        if "tie.spec" in " ".join(lines):
            continue
        m = re.match(rf"(pub )?(abbrev )?(pub )?({IDENT}) : tie\.(invariant|decreases)-(\S+)", l0)
        if m:
            kind, name = m.group(5), m.group(6)
            lp = loop_of(t, name)
            if not lp:
                said.append(f"left: {where}: loop {name}")
                inv += comments + lines + [""]
                continue
            new, variables, changed = lp
            rest = "\n".join(lines[1:])
            un = re.findall(r"(?m)^unfolding.*$", rest)
            rest = re.sub(r"(?m)^unfolding.*\n", "", rest)
            eq = re.match(rf"{re.escape(m.group(4))}((?:\s+\S+)*?)\s*=\s*", rest)
            params = eq.group(1).split()
            body = rest[eq.end() :]
            want = [f"l.initial.{v}" if changed[k] else f"l.{v}" for k, v in enumerate(variables)] + [f"l.{v}" for k, v in enumerate(variables) if changed[k]]
            if len(params) != len(want):
                said.append(f"left: {where}: {kind}-{name} has {len(params)} parameters, not {len(want)}")
            body = substitute(body, {p: w for p, w in zip(params, want) if p != "_"})
            sep = "\n" if "\n" in body else " "
            inv += comments + [f"abbrev pub {kind}-{new} : goal.{kind}-{new}"] + un
            inv += [f"{kind}-{new} l ={sep if sep == ' ' else chr(10) + '    '}{body}", ""]
            continue
        m = re.match(rf"(pub )?({IDENT}) : tie\.(Need-\S+)(.*)", l0)
        if m:
            own, old = m.group(2), m.group(3)[len("Need-") :]
            got = by_order.get(own) or needs.get(norm(old))
            if not got and old.startswith(("slice-aggregate", "slice_aggregate")):
                continue
            if not got:
                if norm(old) not in {norm(x) for x in spec["settled"]}:
                    said.append(f"left: {where}: no goal {old} ({own})")
                    others += ["-- ? " + x for x in comments + lines] + [""]
                continue
            new, place = got
            t.start = place
            un = [l for l in lines[1:] if l.startswith("unfolding")]
            rest = "\n".join(l for l in lines[1:] if not l.startswith("unfolding"))
            eq = re.match(rf"{re.escape(own)}((?:\s+[^\s=]+)*?)\s*=\s*", rest)
            if not eq:
                said.append(f"left: {where}: form of {own}")
                others += ["-- ? " + x for x in comments + lines] + [""]
                continue
            params = eq.group(1).split()
            body = rest[eq.end() :].rstrip()
            if re.sub(r"\s+", " ", body) in TRIVIAL and not un:
                continue
            env = {params[0]: ("place", place)} if params and params[0] != "_" else {}
            body = t.body(body, env, where + " " + new)
            extra = [p for p in params[1:] if p != "κs"]
            body = NOT.sub(lambda m: m.group(0) if is_field(m.group(2), sources) else m.group(2), body)
            body = re.sub(r"\((c\.if[A-Za-z0-9_\-.]*)\)", r"\1", body)
            names = spec["asked"].get(older[new])
            if names and len(names) > 1:
                rec = as_record(body, names) or wrapped(body, names)
                if rec is None:
                    if body not in TRIVIAL and not body.startswith("search"):
                        said.append(f"left: {where}: {new} is no tuple of {names}")
                else:
                    body = rec
            multi = "\n" in body or len(body) > 130
            ans += comments + [f"pub {new} : goal.{new}"] + un
            ans += [" ".join([new, "c", *extra, "="]) + ("\n    " if multi else " ") + body, ""]
            continue
        whole = "\n".join(comments + lines)
        if "tie." in whole:
            env = {}

            def named(m):
                at = norm(m.group(2))
                k = [norm(x[0]) for x in spec["places"]].index(at)
                env[m.group(1)] = ("place", at)
                return f"({m.group(1)} : goal.{spec['places_by_name'][k]})"

            try:
                whole = re.sub(rf"\(({IDENT}) : tie\.([A-Za-z0-9_\-]+)[^)]*\)", named, whole)
                head_line, _, tail = whole.partition("\n")
                t.start = next(iter(env.values()))[1] if env else "Start"
                for v in env:
                    tail = re.sub(rf"(?m)^({re.escape(l0.split()[0] if not l0.startswith('pub ') else l0.split()[1])}) {re.escape(v)} =", r"\1 c =", tail)
                whole = t.body(head_line, env, where, keep=True) + "\n" + t.body(tail, {"c": next(iter(env.values()))}, where) if env else whole
                others += whole.split("\n") + [""]
                continue
            except (ValueError, StopIteration):
                pass
            said.append(f"left: {where}: helper names a place: {l0[:80]}")
        others += comments + lines + [""]
    base = f"use {lib}.{func}"
    uses_answers = []
    os.remove(path)
    title = [re.sub(r"^-- ", "-- ", h) for h in head]
    if inv:
        helper, rest, moved = [], [], []
        block = []
        for l in others + [""]:
            if l != "":
                block.append(l)
                continue
            named = [re.match(rf"(?:pub |abbrev |unfoldable )*({IDENT})", x) for x in block if not x.startswith("--")]
            own = named[0].group(1) if named and named[0] else None
            if own and re.search(rf"(?<![\w\-']){re.escape(own)}(?![\w\-'])", "\n".join(inv)) and "tie." not in "\n".join(block):
                moved.append(own)
                done = False
                for x in block:
                    if not done and not x.startswith("--"):
                        done = True
                        if "pub " not in x.split(":")[0]:
                            x = re.sub(r"^(abbrev |unfoldable )?", lambda m: (m.group(1) or "") + "pub ", x)
                    helper.append(x)
                helper.append("")
            else:
                rest += block + [""]
            block = []
        others = [l for l in rest]
        while others and others[-1] == "":
            others.pop()
        if others:
            others.append("")
        if moved:
            uses_answers = [base + ".Invariants.{" + ", ".join(moved) + "}"]
        with open(os.path.join(folder, "Invariants.antt"), "w", encoding="utf-8") as f:
            f.write("\n".join(title + uses + [base + ".Given as goal", ""] + helper + inv).rstrip() + "\n")
    if ans or others:
        extra = uses_answers + [base + ".Goals as goal"]
        with open(os.path.join(folder, "Answers.antt"), "w", encoding="utf-8") as f:
            f.write("\n".join(title + uses + extra + [""] + others + ans).rstrip() + "\n")
    if not os.listdir(folder):
        os.rmdir(folder)


def main(crate, names):
    with open(names, encoding="utf-8") as f:
        all_names = json.load(f)
    said = []
    root = os.path.join("crates", crate, "proofs")
    sources = ""
    for folder, dirs, files in os.walk(os.path.join("crates", crate, "src")):
        for name in files:
            with open(os.path.join(folder, name), encoding="utf-8") as f:
                sources += f.read()
    for folder, dirs, files in os.walk(root):
        if "Proof.antt" not in files:
            continue
        rel = os.path.relpath(folder, root).split(os.sep)
        key = f"Rattle-{crate}-proofs." + ".".join(rel) + ".Lts"
        if key not in all_names:
            said.append(f"left: {folder}: no names for {key}")
            continue
        turn(folder, f"Rattle.{crate}.proofs", ".".join(rel), all_names[key], said, sources)
    print("\n".join(said))


main(*sys.argv[1:])
