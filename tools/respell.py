#!/usr/bin/env python3
"""Brings the repository's own definitions and lemmas to snake case: run once, at the top, on the tree that port.py left.

usage: tools/respell.py [FOLDER]

A name counts as the repository's own where a file of specs/ or a file of lemmas in proofs/ declares it with its type: a definition, a lemma,
a field of a record. `lowestOutside` becomes `lowest_outside`, and `outside-later` becomes `outside_later`. Names that begin with a capital keep
their spelling: they are types and facts, or the figures T1, T2, T3, JC, JF, RM, TO1 and TO2 of the rules, which differ from t1 and t2 by their case.
Names of src/ stay; so do strings, and what a file takes from the library under the same name. It prints names that fall together.
"""

import collections
import os
import re
import sys

IDENT = re.compile(r"[^\s(){}\[\].,:;=→λ∷⊎×≡≤<>|+*/&!\"`@#←?◌∙↔¬⊥⌜⌝∗«»]+")
DECLARED = re.compile(r"^\s*(?:(?:abbrev|unfoldable|pub|ruleset) +)*([^\s:(){}|=.,]+) *(?:\([^)]*\) *|\{[^}]*\} *)*:(?:\s|$)")
# A lemma that would fall together with a definition or with a field gets `_lem` behind it.
LEMMAS = {
    "all_known", "colour-shown", "cycle-shown", "drawn-cycle", "in-range", "is-whole", "last-text", "length-fixed", "own-least", "own-most",
    "phase-shown", "placed-text", "refused-by", "second-added",
}
# The same in one file alone, where other files have a lemma of that name.
APART = {("orders/proofs/Narrowing.antt", "one_more"): "one_more_lem"}
WRITTEN_BY_HAND = {"Answers.antt", "Invariants.antt", "Choices.antt", "Proof.antt"}
FROM_LIBRARY = re.compile(r"^\s*(?:ghost )?use (?:Rattle\.std|borrow|lib|native|mathlib|Prim)\b[^{]*\{([^}]*)\}", re.M)


def respelt(name):
    end = "_lem" if name in LEMMAS else ""
    name = re.sub(r"(?<=[a-z0-9])([A-Z])", lambda m: "_" + m.group(1).lower(), name)
    return name.replace("-", "_") + end


def files(top, *ends):
    for folder, dirs, names in os.walk(os.path.join(top, "crates")):
        dirs[:] = sorted(d for d in dirs if d not in ("out", "target"))
        for name in sorted(names):
            if name.endswith(ends):
                yield os.path.join(folder, name)


def read(path):
    with open(path, encoding="utf-8") as f:
        return f.read()


def declared(top):
    """Each name that the repository declares, with the places."""
    found = collections.defaultdict(list)
    for path in files(top, ".antt"):
        if os.path.basename(path) in WRITTEN_BY_HAND:
            continue
        for number, line in enumerate(read(path).split("\n"), 1):
            m = DECLARED.match(line)
            if m and not line.lstrip().startswith(("--", "let ", "use ", "in ")):
                found[m.group(1)].append(f"{path}:{number}")
    return found


def fields(top):
    """The fields of the records of specs/ and proofs/, which are also read behind a dot."""
    found = set()
    for path in files(top, ".antt"):
        indent = None
        for line in read(path).split("\n"):
            m = re.match(r"^(\s*)(?:abbrev )?(?:pub )?record \S+.*where\s*$", line)
            if m:
                indent = len(m.group(1))
                continue
            if indent is not None and line.strip():
                if len(line) - len(line.lstrip()) <= indent:
                    indent = None
                    continue
                m = DECLARED.match(line)
                if m:
                    found.add(m.group(1))
    return found


def strings_aside(text, change):
    """Changes what stands outside of string literals."""
    parts = re.split(r'(b?"(?:[^"\\\n]|\\.)*")', text)
    return "".join(p if i % 2 else change(p) for i, p in enumerate(parts))


def turn(text, names, members, answers):
    taken = {n.split(" as ")[-1].strip() for m in FROM_LIBRARY.finditer(text) for n in m.group(1).split(",")}

    def one(m):
        name, start = m.group(0), m.start()
        if name not in names or name in taken:
            return name
        if answers and start and m.string[start - 1] == "." and name not in members:
            return name
        return names[name]

    return strings_aside(text, lambda part: IDENT.sub(one, part))


def main():
    top = sys.argv[1] if len(sys.argv) > 1 else "."
    where = declared(top)
    members = fields(top)
    names = {n: respelt(n) for n in where if re.match(r"[a-z]", n) and respelt(n) != n}
    new = collections.defaultdict(set)
    for old, spelt in names.items():
        new[spelt].add(old)
    for spelt, olds in sorted(new.items()):
        if len(olds) > 1 or (spelt in where and spelt not in names):
            print("falls together:", spelt, sorted(olds | ({spelt} if spelt in where else set())), [where[o] for o in sorted(olds)], where.get(spelt))
    for path in files(top, ".antt", ".rt", ".edit"):
        text = read(path)
        apart = {name: new for (place, name), new in APART.items() if path.endswith(place)}
        done = turn(text, names | apart, members, os.path.basename(path) in WRITTEN_BY_HAND)
        if path.endswith(".antt"):
            for m in FROM_LIBRARY.finditer(done):
                both = {n.split(" as ")[-1].strip() for n in m.group(1).split(",")} & set(new)
                if both:
                    print("also of the library:", path, sorted(both))
        if done != text:
            with open(path, "w", encoding="utf-8") as f:
                f.write(done)
    for name in ["README.md"] + ["docs/" + n for n in sorted(os.listdir(os.path.join(top, "docs")))]:
        path = os.path.join(top, name)
        if not path.endswith(".md") or not os.path.exists(path):
            continue
        text = read(path)
        done = re.sub(r"`[^`\n]+`", lambda m: IDENT.sub(lambda n: names.get(n.group(0), n.group(0)) if re.search("[A-Z]", n.group(0)) else n.group(0), m.group(0)), text)
        if done != text:
            with open(path, "w", encoding="utf-8") as f:
                f.write(done)


if __name__ == "__main__":
    main()
