#!/usr/bin/env python3
"""Brings the repository's own names to the spelling of today's Rattle, after the toolchain's port.py: words in snake case.

usage: python3 tools/respell.py     once, at the top, over what port.py left. Prints each name that changed, old and new.

A definition, lemma, field or constructor of specs/ and proofs/ that is written in camel case, or with dashes, is then in snake case; a dash
stays where it joins two names of definitions, or where the name without it would be another name's; a lemma whose name a definition then has
gets `_lem`. Types, modules, functions and types of src/, and names that the toolchain makes, stay. A ghost import under a name with a middle dot gets its own name back. README.md, docs/ and the
edits that must be refused follow.
"""

import glob
import re

NAME = r"[A-Za-z_ℕ∷][A-Za-z0-9_'₀-₉ℕ∷-]*"
TOKEN = re.compile(r"[A-Za-z_ℕμ≡≤∷+*<][A-Za-z0-9_'₀-₉ℕ∷≡≤+*<·-]*")
DECLARED = re.compile(rf"^\s*(?:(?:pub|abbrev|unfoldable) )*({NAME}) :(?: |$)")
LIBRARY = set("length take drop set get_or append map not cond sum min max".split())


def antt(kinds):
    return sorted(f for k in kinds for f in glob.glob(f"crates/*/{k}/**/*.antt", recursive=True))


def read(path):
    with open(path, encoding="utf-8") as f:
        return f.read()


def declared():
    """Each declared name, and the files that declare it. What a Proof.antt declares are goals, which the toolchain names."""
    names = {}
    for path in antt(["specs", "proofs"]):
        if path.endswith("/Proof.antt"):
            continue
        for line in read(path).split("\n"):
            m = DECLARED.match(line)
            if m and not m[1][0].isupper():
                names.setdefault(m[1], set()).add(path)
    return names


def snake(word):
    return re.sub(r"(?<=[a-z0-9])([A-Z])", lambda m: "_" + m[1].lower(), word)


def main():
    names = declared()
    locals_ = set(re.findall(r"\b[a-z]+[A-Z][A-Za-z]*\b", "\n".join(map(read, antt(["specs"])))))
    local_words = {w for w in locals_ if w in "goOn visitOf sumFrom lookedUp onValue onPlan isGood shapeOfFields".split()}
    words = {n for n in names if "-" not in n} | LIBRARY
    whole = {}
    for name in sorted(set(names) | local_words):
        parts = name.split("-")
        new = snake(parts[0])
        for before, part in zip(parts, parts[1:]):
            new += ("-" if before in words and part in words else "_") + snake(part)
        whole[name] = new
    # a name that would fall together with another keeps its dashes
    taken = {}
    for name, new in whole.items():
        taken.setdefault(new, []).append(name)
    for new, olds in taken.items():
        if len(olds) > 1:
            for name in olds:
                if "-" in name:
                    whole[name] = snake(name)
    changed = {old: new for old, new in whole.items() if old != new}
    # a lemma that has its function's name then gets `_lem`
    lemmas = {old for old, new in whole.items() if old == new and new in changed.values()}
    for old, new in sorted([*changed.items(), *((n, n + "_lem") for n in lemmas)]):
        print(f"{old} -> {new}")

    def turned(text):
        def token(m):
            if m[0] in lemmas and "." not in (text[m.start() - 1 : m.start()], text[m.end() : m.end() + 1]):
                return m[0] + "_lem"
            return changed.get(m[0], m[0])

        return TOKEN.sub(token, text)

    for path in antt(["specs", "proofs"]):
        old = read(path)
        new = turned(old)
        new = new.replace("Rattle·", "Rattle.")
        if new != old:
            with open(path, "w", encoding="utf-8") as f:
                f.write(new)
    camel = {o: n for o, n in changed.items() if "-" not in o}
    dotted = re.compile(r"\b([A-Z][A-Za-z]*)·([a-z][A-Za-z_]*)\b")
    for path in sorted(glob.glob("crates/*/src/**/*.rt", recursive=True)):
        old = read(path)
        new = re.sub(r"\b[a-z][A-Za-z0-9]*\b", lambda m: camel.get(m[0], m[0]), old)
        new = re.sub(r"\b([a-z][A-Za-z_]*) as [A-Z][A-Za-z]*·\1\b", r"\1", new)
        new = dotted.sub(lambda m: camel.get(m[2], m[2]), new)
        if new != old:
            with open(path, "w", encoding="utf-8") as f:
                f.write(new)
    for path in sorted(glob.glob("crates/*/must-fail/*.edit") + glob.glob("crates/*/edits/*.edit")):
        old = read(path)
        source = re.search(r"^file: src/", old, re.M)
        new = "\n".join(line if line.startswith("file:") else (re.sub(r"\b[a-z][A-Za-z0-9]*\b", lambda m: camel.get(m[0], m[0]), line) if source else turned(line)) for line in old.split("\n"))
        if new != old:
            with open(path, "w", encoding="utf-8") as f:
                f.write(new)
    quoted = re.compile(r"(?<=#)" + NAME + r"|(?<=`)" + NAME + r"(?=`)")
    for path in ["README.md", *sorted(glob.glob("docs/**/*.md", recursive=True))]:
        old = read(path)
        new = quoted.sub(lambda m: changed.get(m[0], m[0]), old)
        if new != old:
            with open(path, "w", encoding="utf-8") as f:
                f.write(new)


main()
