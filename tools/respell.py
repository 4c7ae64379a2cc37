#!/usr/bin/env python3
"""Brings the definitions and lemmas of this repository to today's spelling: words in snake case, once, right after port.py.

usage: python3 tools/respell.py [--look]     at the top of the repository; --look lists the names that fall together and writes nothing

A name is turned where it is declared in specs/ or proofs/ of this repository: `firstDue` and `first-due` become `first_due`. A name
that a file imports from a library stays in that file. Where two names of one file would fall together, a lemma gets `_lem`.
It goes through .antt and .rt files, must-fail and other edits, and the code spans of the pages.
"""
import collections
import os
import re
import sys

TOKEN = re.compile(r"[^\s(){}.;,@\"«»\[\]\\:`=]+")
DECL = re.compile(
    r"^\s*(?:(?:abbrev|unfoldable|opaque|pub|ruleset|data|record)\s+)*([^\s(){}.;,@\"«»\[\]\\:`=]+)\s*(?:\{[^}]*\}\s*|\([^)]*\)\s*)*:(?!:)(?!\s*(?:tie|goal)\.)"
)
PLAIN = re.compile(r"^[a-z][A-Za-z0-9₀-₉']*(?:[-_][a-z0-9][A-Za-z0-9₀-₉']*)*$")
CAMEL = re.compile(r"(?<=[a-z0-9])([A-Z])")
# names whose plain turn is a tactic, a word of the logic, or another definition of the same file
BY_HAND = {"functionRow-long": "function_row_is_long", "first_of": "first_reports", "oneMore": "one_more_event"}
# fields that would fall together with a definition beside them: a dash joins two names, so they stay
STAY = {"is-due", "in-state", "not-above", "none-refused"}
LIBRARY = re.compile(r"^\s*(?:pub )?use (?!Rattle\.)([^\n{]*)(?:\{([^}]*)\})?", re.M)
KIT = re.compile(r"^\s*(?:pub )?(?:ghost )?use Rattle\.(\w+)\.([^\n{;]*)(?:\{([^}]*)\})?", re.M)
RESERVED = set(
    "data record deriving module where use mod pub package open as unfoldable abbrev axiom unfold unfolding ruleset mutual infix infixl infixr elim let in do search simp rw cc omega grind hlevel assumption ground first_of".split()
)


def files(ends):
    for folder, dirs, names in os.walk("crates"):
        dirs[:] = sorted(d for d in dirs if d not in ("out", "data"))
        for n in sorted(names):
            if n.endswith(ends):
                yield os.path.join(folder, n)


def read(p):
    with open(p, encoding="utf-8") as f:
        return f.read()


def code(t, p):
    return re.sub(r"--[^\n]*" if p.endswith(".antt") else r"//[^\n]*", "", t)


def snake(n):
    return CAMEL.sub(lambda m: "_" + m.group(1).lower(), n.replace("getD", "get_or").replace("-", "_"))


def imported(t, own_crates):
    out = set()
    for m in LIBRARY.finditer(t):
        if m.group(2):
            out |= {w.split(" as ")[0].strip() for w in m.group(2).split(",")} | {w.split(" as ")[-1].strip() for w in m.group(2).split(",") if " as " not in w}
    for m in KIT.finditer(t):
        if m.group(1) not in own_crates and m.group(3):
            out |= {w.split(" as ")[0].strip() for w in m.group(3).split(",")}
    return out


def main(look):
    own_crates = {c for c in os.listdir("crates")}
    decl = collections.defaultdict(set)
    for p in files(".antt"):
        for l in code(read(p), p).splitlines():
            m = DECL.match(l)
            if m and not l.strip().startswith(("use ", "module ", "pub use ")):
                decl[m.group(1)].add(p)
    plan = {}
    for n in decl:
        if PLAIN.match(n) and snake(n) != n and n not in BY_HAND and n not in STAY:
            if n.startswith(("Need-", "invariant-", "decreases-")):
                continue
            plan[n] = snake(n)
    for n, t in BY_HAND.items():
        plan[n] = t
    # where each token stands, but for what stands behind a dot
    where = collections.defaultdict(set)
    for p in files((".antt",)):
        t = code(read(p), p)
        for m in re.finditer(r"(?<![\w'])" + TOKEN.pattern, t):
            if m.start() and t[m.start() - 1] == ".":
                continue
            where[m.group(0)].add(p)
    by_target = collections.defaultdict(set)
    for n, t in plan.items():
        by_target[t].add(n)
    for t in list(by_target):
        others = set(by_target[t])
        if where.get(t):
            others.add(t)
        clash = False
        names = sorted(others)
        for i, x in enumerate(names):
            for y in names[i + 1 :]:
                both = where[x] & where[y]
                if both:
                    clash = True
                    if look:
                        print("together:", t, "|", x, sorted(decl.get(x, ()))[:2], "|", y, sorted(decl.get(y, ()))[:2], "| in", sorted(both)[:3], len(both))
        if clash or t in RESERVED:
            # a lemma that port.py turned gives way to a definition
            if t in decl and not any("/specs/" in p for p in decl[t]):
                plan[t] = t + "_lem"
            for n in by_target[t]:
                if "-" in n and n not in BY_HAND:
                    plan[n] = t + "_lem"
                    if where.get(t + "_lem") or t + "_lem" in by_target:
                        print("look: " + t + "_lem is taken too")
            if t in RESERVED:
                print("look: reserved", t, by_target[t])
    for p in files((".antt",)):
        c = code(read(p), p)
        lib = imported(read(p), own_crates)
        seen = collections.defaultdict(set)
        for m in TOKEN.finditer(c):
            if m.start() and c[m.start() - 1] == ".":
                continue
            w = m.group(0)
            seen[plan.get(w, w) if w not in lib else w].add(w)
        for x, ws in seen.items():
            if len(ws) > 1:
                print("look: still together:", x, ws, p)
    if look:
        print(len(plan), "names")
        return
    for p in files((".antt", ".rt", ".edit")):
        t = read(p)
        lib = imported(t, own_crates)
        # an edit speaks of names of its crate
        def turn(m):
            w = m.group(0)
            if w not in plan or w in lib:
                return w
            if m.start() and m.string[m.start() - 1] == "." and (plan[w].endswith("_lem") or w in BY_HAND):
                return w
            return plan[w]

        if p.endswith(".rt"):
            out = []
            for l in t.splitlines(keepends=True):
                out.append(TOKEN.sub(turn, l) if not re.search(r'b?"', l) else l)
            new = "".join(out)
        else:
            new = TOKEN.sub(turn, t)
        if new != t:
            with open(p, "w", encoding="utf-8") as f:
                f.write(new)
    for p in ["README.md"] + sorted(os.path.join("docs", d) for d in os.listdir("docs") if d.endswith(".md")):
        t = read(p)
        new = re.sub(r"`[^`\n]*`", lambda s: TOKEN.sub(lambda m: plan.get(m.group(0), m.group(0)), s.group(0)), t)
        if new != t:
            with open(p, "w", encoding="utf-8") as f:
                f.write(new)
    print(f"{len(plan)} names")


if __name__ == "__main__":
    main("--look" in sys.argv[1:])
