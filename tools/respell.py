#!/usr/bin/env python3
"""Respells the names that this repository's specs/ and proofs/ declare, as today's Rattle spells them: words in snake case.

usage: respell.py [--show] [TOP]

numberAt -> number_at, walk-ends -> walk_ends; a dash stays where it joins the names of two definitions, as in be-bytes_of.
It runs once, after port.py, over crates/*/specs, crates/*/proofs and the clauses of crates/*/src. It goes by whole words.
A lemma whose new spelling is a definition's or a function's gets _lem. --show prints the table and what falls together, and writes nothing.
Names of functions of src/, exported names, strings, inputs and outputs are not touched, nor is formatID, the layouts' name of a field, in comments.
"""
import collections
import os
import re
import sys

WORD = re.compile(r'"(?:[^"\\\n]|\\.)*"|(?<![^\s(){}.;,@"«»])--[^\n]*|[^\s(){}.;,@"«»]+')
DECLARED = re.compile(r"^(?:(?:abbrev|unfoldable|opaque|private|pub|record|data|ruleset) )*([^\s(){}.;,@\"«»:=]+)(?: [^\n:=]*)?(?: :|\n* =| where)", re.M)
INSIDE = re.compile(r"^ +(?:pub )?([^\s(){}.;,@\"«»:=|]+) : ", re.M)
CLAUSE = re.compile(r"(?:requires|ensures|ghost)\b\*?[^{};\n]*\{|ghost use [^;]*;")
# Each such word in code is the repository's own: port.py has turned the library's. One behind 'as', a bound variable and a field are turned too.
CAMEL = re.compile(r"[a-z][a-z0-9]*[A-Z][\w']*")
KEYWORDS = set("use pub mod module record data infix infixl infixr abbrev unfoldable unfolding ruleset where let in".split())


def files(top):
    for d, dirs, fs in os.walk(os.path.join(top, "crates")):
        dirs[:] = sorted(x for x in dirs if x not in ("out", "must-fail"))
        for f in sorted(fs):
            if f.endswith((".antt", ".rt")):
                yield os.path.join(d, f)


def read(p):
    with open(p, encoding="utf-8", newline="") as f:
        return f.read()


def snake(word):
    """The word with each capital inside it after a dash-free lower letter turned."""
    parts = word.split("-")
    return "-".join(re.sub(r"(?<=[a-z0-9])([A-Z]+)", lambda m: "_" + m[1].lower(), p) if re.match("[a-z]", p) else p for p in parts)


def main(argv):
    show = "--show" in argv
    rest = [a for a in argv if not a.startswith("--")]
    top = rest[0] if rest else "."
    declared, defined, stated, texts, rust, own = set(), set(), set(), {}, set(), set()
    for p in files(top):
        t = texts[p] = read(p)
        if p.endswith(".rt"):
            rust |= set(re.findall(r"\b([a-z]\w*)\s*:(?!:)", t)) | set(re.findall(r"\blet (?:mut )?(\w+)", t))
            own |= set(re.findall(r"\bfn (\w+)", t))
            declared |= {w for g in re.findall(r"ghost use [^;]*;", t) for w in WORD.findall(g) if CAMEL.fullmatch(w)}
            continue
        if p.endswith(("Proof.antt", "Answers.antt", "Invariants.antt")) and "/proofs/" in p and os.path.dirname(p).count("/proofs/") and not p.endswith("proofs/Answers.antt"):
            declared |= {n for n in DECLARED.findall(t) if "-" not in n}
            continue
        declared |= set(DECLARED.findall(t))
        declared |= set(INSIDE.findall(t))
        if "/specs/" in p:
            stated |= set(INSIDE.findall(t))
            defined |= set(re.findall(r"(?m)^(?:abbrev|unfoldable) pub (\S+) :", t))
        declared |= {w for w in WORD.findall(t) if CAMEL.fullmatch(w)}
    declared -= KEYWORDS
    names = {n for n in declared if re.match("[a-z]", n)}
    spelled = {n: snake(n) for n in names}
    # What a dash may join: definitions of specs/, and words of std.
    heads = {spelled[n] for n in defined if n in names and "-" not in n} | {"length", "take", "drop", "append", "map", "get_or", "set"}
    table, used = {}, {spelled[n] for n in names if "-" not in n}
    for n in sorted(names):
        if "-" not in n and spelled[n] != n:
            table[n] = spelled[n]
    # A lemma with the spelling that a definition now has.
    for n in sorted(names):
        if n in table.values() and n not in table and n not in stated:
            table[n] = n + "_lem"
    for n in sorted(names):
        if "-" not in n:
            continue
        parts = spelled[n].split("-")
        new = parts[0]
        for a, b in zip(parts, parts[1:]):
            new += ("-" if a in heads and b in heads else "_") + b
        if new in used or new in rust or new in own:
            new += "_lem"
        if new in used or not re.fullmatch(r"[a-z]\w*(?:-\w+)*'*", new):
            new = spelled[n]
        used.add(new)
        if new != n:
            table[n] = new
    back = collections.defaultdict(set)
    for n in names:
        back[table.get(n, n)].add(n)
    together = {k: v for k, v in back.items() if len(v) > 1}
    hides = sorted(n for n, s in table.items() if s in rust)
    if show:
        for n, s in sorted(table.items()):
            print(n, s)
        print("TOGETHER", together)
        print("RUST", {n: table[n] for n in hides})
        return 0
    count = collections.Counter()
    for p, t in texts.items():
        proof = "/proofs/" in p and p.endswith("Proof.antt")
        # What the file imports from the library keeps its spelling there.
        foreign = {w for g in re.findall(r"(?m)^use (?!Rattle\.(?!std\b))[^{\n]*\{([^}]*)\}", t) for w in WORD.findall(g)}

        def turn(m, text):
            w = m[0]
            if w[0] == '"' or (w.startswith("--") and p.endswith(".antt")):
                if w.startswith("--"):
                    return re.sub(r"[A-Za-z][\w'-]*", lambda x: table[x[0]] if x[0] in table and x[0] != "formatID" and re.search("[A-Z]", x[0]) else x[0], w)
                return w
            if w not in table or w in foreign:
                return w
            if text[m.start() - 1 : m.start()] == "." and (proof and "-" in w or table[w].endswith("_lem") and "-" not in w):
                return w
            count[w] += 1
            return table[w]

        if p.endswith(".antt"):
            new = WORD.sub(lambda m: turn(m, t), t)
        else:
            new, at = [], 0
            for m in CLAUSE.finditer(t):
                if m.start() < at:
                    continue
                end = m.end()
                if m[0].endswith("{"):
                    depth = 1
                    while depth:
                        depth += {"{": 1, "}": -1}.get(t[end], 0)
                        end += 1
                new.append(t[at : m.start()])
                part = t[m.start() : end]
                new.append(WORD.sub(lambda k: turn(k, part), part))
                at = end
            new = "".join(new) + t[at:]
        if new != t:
            with open(p, "w", encoding="utf-8", newline="") as f:
                f.write(new)
    print(f"respelled {len(table)} names, {sum(count.values())} places; fall together: {together}")
    return 0


if __name__ == "__main__":
    raise SystemExit(main(sys.argv[1:]))
