#!/usr/bin/env python3
"""Spells the repository's own definitions and lemmas as today's Rattle does: words in snake case, types in camel case.

usage: tools/port/spell.py            at the top, once, after port.py
       tools/port/spell.py --names    prints the names only

A name of a definition, lemma, field or constructor of specs/ and proofs/ that has a dash between words, or a small first letter and a capital
further on, is written with '_' in all .antt files, in the clauses of .rt files, in must-fail edits and, between backticks, in pages.
Names of the kit, of Rust code and of what Rattle makes are left as they are.
"""
import collections, glob, re, sys

N = r"[^\s(){}\[\];,.\"]+"


def snake(name):
    name = name.replace("-", "_")
    if re.match(r"[a-z]", name): name = re.sub(r"(?<=[a-z0-9])([A-Z])", lambda m: "_" + m[1].lower(), name)
    return name


def files(end): return sorted(p for part in ("specs", "proofs") for p in glob.glob(f"crates/*/{part}/**/*{end}", recursive=True))


def own_names():
    own, kit = set(), set()
    crates = {p.split("/")[1] for p in files(".antt")}
    for p in files(".antt"):
        walk = p.endswith("/Proof.antt")
        for line in open(p, encoding="utf-8"):
            m = re.match(r"(?:pub )?use (\S+?)\.\{(.*)\}", line)
            if m:
                if not (m[1].startswith("Rattle.") and m[1].split(".")[1] in crates):
                    kit |= {n.strip().split(" as ")[0] for n in m[2].split(",")}
                continue
            m = re.match(r"\s*(?:(?:abbrev|unfoldable|opaque|pub|instance) )*(?:(?:record|data) )?(" + N + r")(?:\s+\([^=]*\)|\s+\{[^=]*\})*\s*:(?:\s|$)(.*)", line)
            if m and m[1] not in ("use", "let", "λ", "module") and not (walk and re.match(r"\s*(tie\.|\{M : Type 1\} → statement)", m[2])):
                own.add(m[1])
    names = {n: snake(n) for n in own - kit if re.search(r"[A-Za-z]", n) and snake(n) != n}
    # a lemma that would have the name of a definition, or of another lemma, gets `_lem`
    taken = {snake(n) for n in own | kit if "-" not in n}
    return {n: s + "_lem" if "-" in n and s in taken and n != "next-at" else s for n, s in names.items()}


def turn(text, names, walk):
    if walk:
        # a path of a generated record, and what the file declares of them, stay
        made = {m[1] for m in re.finditer(r"(?m)^(?:abbrev )?(?:pub )?(" + N + r") : (?:tie\.|\{M : Type 1\} → statement)", text)}
    else: made = set()
    def put(m):
        w = m[0]
        if w in made or w not in names: return w
        return names[w]
    return re.sub(r"\"[^\"\n]*\"|" + N, lambda m: m[0] if m[0].startswith('"') else put(m), text)


def main():
    names = own_names()
    if "--names" in sys.argv:
        for a, b in sorted(names.items()): print(a, b)
        return
    for p in files(".antt"):
        t = open(p, encoding="utf-8").read()
        u = turn(t, names, p.endswith("/Proof.antt"))
        if u != t: open(p, "w", encoding="utf-8").write(u)
    camel = {a: b for a, b in names.items()}
    for p in sorted(glob.glob("crates/*/src/**/*.rt", recursive=True)):
        t = open(p, encoding="utf-8").read()
        lines = []
        for line in t.split("\n"):
            # only clauses and ghost lines hold antt
            if re.match(r"\s*(ghost use|requires|ensures|ghost )", line): line = turn(line, camel, False)
            lines.append(line)
        u = "\n".join(lines)
        if u != t: open(p, "w", encoding="utf-8").write(u)
    for p in sorted(glob.glob("crates/*/must-fail/*.edit")):
        t = open(p, encoding="utf-8").read()
        u = "\n".join(turn(l, names, False) if re.match(r"(old|new): ", l) else l for l in t.split("\n"))
        if u != t: open(p, "w", encoding="utf-8").write(u)
    for p in ["README.md", *sorted(glob.glob("docs/*.md"))]:
        t = open(p, encoding="utf-8").read()
        u = re.sub(r"`[^`\n]*`", lambda m: turn(m[0], {**names, **{"`" + a: "`" + b for a, b in names.items()}}, False) if "-" in m[0] or re.search("[a-z][A-Z]", m[0]) else m[0], t)
        u = re.sub(r"`(" + r"[^\s`]+" + r")`", lambda m: "`" + names.get(m[1], m[1]) + "`", u)
        if u != t: open(p, "w", encoding="utf-8").write(u)


main()
