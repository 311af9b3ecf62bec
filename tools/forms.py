#!/usr/bin/env python3
"""Lists places in src/ that may be written in a plainer form, by kind; run at the top of the repository.

With a kind's letter as argument, its lines are printed; without, only how many there are. `cases` is left out.
A line is a place to look, no verdict: docs/DESIGN-PASS.md says what each was read to be.
"""
import collections
import glob
import re
import sys

KINDS = [
    ("a", "enums", r"^ *(pub(\(crate\))? )?enum "),
    ("b", "flags among the fields of a struct", r"^    (pub(\(crate\))? )?[a-z_]+: bool,$"),
    ("c", "numbers as errors", r"Result<[^,]*, (u8|u16|u32|u64|usize)>"),
    ("d", "functions that give a byte", r"-> u8$"),
    ("e", "causes as an Option", r"Option<(Cause|Refused|[A-Za-z]*Fault)>"),
    ("f", "a 0 for none", r"0 outside|both 0 where|return 0;"),
    ("g", "loops over a range, and while", r"^ *(for [a-z_]+ in [0-9a-z_().]*\.\.|while )"),
    ("h", "casts", r" as (u8|u16|u32|u64|usize|i64)"),
    ("i", "Option or Result turned by match", r"Some\(\w+\) => Some\(|None => None|None => Err\("),
    ("j", "equality by match", r"_ => false|=> true,"),
    ("k", "words as functions", r"&'static str"),
    ("l", "requires", r"\brequires\b"),
    ("m", "arrays in structs", r"^    (pub )?[a-z]+: \[+[A-Za-z0-9]+; ?[0-9A-Z]+"),
]


def sources():
    for path in sorted(glob.glob("crates/*/src/**/*.rt", recursive=True)):
        if not path.startswith("crates/cases/"):
            yield path, open(path, encoding="utf-8").read()


def lines_of(pattern):
    for path, text in sources():
        for number, line in enumerate(text.split("\n"), 1):
            if re.search(pattern, line):
                yield f"{path}:{number}:{line}"


def pairs():
    """Pairs of parameters that three or more functions of a crate share."""
    head = re.compile(r"fn\s+(\w+)\s*(?:<[^{;]*?>)?\s*\(([^{;]*?)\)\s*(?:->|requires|ensures|\{|;)", re.S)
    users = collections.defaultdict(list)
    for path, text in sources():
        crate = path.split("/")[1]
        for name, inside in head.findall(text):
            params = [" ".join(p.split()) for p in re.split(r",(?![^<]*>)", inside)]
            params = [p for p in params if p and "self" not in p.split(":")[0]]
            for i, first in enumerate(params):
                for second in params[i + 1 :]:
                    users[crate, first, second].append(name)
    for (crate, first, second), names in sorted(users.items()):
        if len(names) >= 3:
            yield f"{crate}: ({first}, {second}): {', '.join(names)}"


def main():
    wanted = sys.argv[1] if len(sys.argv) > 1 else None
    for letter, title, pattern in KINDS:
        found = list(lines_of(pattern))
        if wanted in (None, letter):
            print(f"{letter} {title}: {len(found)}")
        if wanted == letter:
            print("\n".join(found))
    found = list(pairs())
    if wanted in (None, "n"):
        print(f"n pairs of parameters that three functions share: {len(found)}")
    if wanted == "n":
        print("\n".join(found))


main()
