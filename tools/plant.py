#!/usr/bin/env python3
"""Plants bugs in the bodies of functions, one at a time, and reports which of them the check of their crate refuses.

    plant.py [CRATE..] [--bugs N] [--only WORD] [--jobs N] [--seed N] [--then COMMAND] [--list] [--out FILE] [--tree FOLDER]

CRATE       the crates (all of crates.txt that have functions, but the tests, if none is named)
--bugs N    how many bugs a crate gets that the compiler takes (24); a crate with more functions gets one for each
--only WORD plants only in functions whose file, line and name contain WORD
--jobs N    how many copies of the tree to work in side by side (2)
--seed N    another choice of bugs (1)
--then COMMAND  runs this at the top of the copy where a bug is proved, as tests/examples: tests may see what no contract says
--list      prints the bugs that there are to choose from, and tries none
--out FILE  adds a line for each bug that was tried: crate, place, kind, outcome, what was changed, what the check said first
--tree FOLDER  the repository (the one that this file stands in); a tree that was checked is copied with what it kept

A bug is one change of one body or constant that still reads as a program somebody might have written. Outcomes:
    refused      the check says what is not proved
    proved       the contracts hold with the bug: it is without effect, or a contract says too little
    seen         proved, but the command that comes then ends with a status other than 0
    no program   the compiler does not take it, so it says nothing of a contract, and it does not count
    unsure       the check ended in another way
Nothing of the tree itself is changed: each bug is planted in a copy.
"""

import argparse
import collections
import concurrent.futures
import os
import queue
import random
import re
import shutil
import subprocess
import sys
import tempfile

FUNCTION = re.compile(r"^(\s*)(?:pub(?:\([a-z]+\))? )?(?:const )?fn (\w+)")
CONSTANT = re.compile(r"^\s*(?:pub(?:\([a-z]+\))? )?const (\w+)\b[^=]*= ")
STRUCT = re.compile(r"^\s*(?:pub(?:\([a-z]+\))? )?struct (\w+)")
ENUM = re.compile(r"^\s*(?:pub(?:\([a-z]+\))? )?enum (\w+)")
FIELD = re.compile(r"^\s*(?:pub(?:\([a-z]+\))? )?(\w+): (.+),$")
VARIANT = re.compile(r"^\s*(\w+)(\(.*\)| \{.*\})?,$")
NUMBER = re.compile(r"(?<![\w.])\d[\d_]*\b(?!\.\d)")
COMPARED = {" < ": [" <= ", " > "], " <= ": [" < "], " > ": [" >= ", " < "], " >= ": [" > "], " == ": [" != "], " != ": [" == "]}
REACHED = {" + ": " - ", " - ": " + ", " * ": " + ", " / ": " * ", " % ": " / ", " & ": " | ", " | ": " & "}
CALLED = {".min(": ".max(", ".max(": ".min(", "is_some()": "is_none()", "is_none()": "is_some()", ".any(": ".all(", ".all(": ".any("}
STOPPED = {"saturating_add": "wrapping_add", "saturating_sub": "wrapping_sub", "saturating_mul": "wrapping_mul"}

# outcomes that say nothing of a contract or a theorem: the place gets another bug
NOTHING_SAID = ("no program", "unsure", "no text")


class Bug:
    """A change of a file: what is changed where, and the text of the file with it."""

    def __init__(self, crate, file, function, line, kind, old, new, lines):
        self.crate, self.file, self.function, self.line = crate, file, function, line
        self.kind, self.old, self.new, self.lines = kind, old.strip(), new.strip(), lines

    def place(self):
        return f"{self.file}:{self.line + 1} {self.function}"


class Shapes:
    """The structs and enums of the tree: which field may be taken for which, and which variant."""

    def __init__(self, tree):
        self.fields, self.variants = {}, {}
        for file in sources(tree):
            self.read(open(file, encoding="utf-8").read().split("\n"))

    def read(self, lines):
        for start, line in enumerate(lines):
            if not line.endswith("{"):
                continue
            inside = []
            for it in lines[start + 1 :]:
                if it.strip() == "}":
                    break
                inside.append(it)
            if STRUCT.match(line):
                self.struct([m for m in map(FIELD.match, inside) if m and "ghost " not in m.string])
            elif (it := ENUM.match(line)):
                cases = [m for m in map(VARIANT.match, inside) if m]
                for one in cases:
                    self.variants[f"{it[1]}::{one[1]}"] = [
                        f"{it[1]}::{other[1]}" for other in cases if other[1] != one[1] and other[2] == one[2]
                    ]

    def struct(self, fields):
        for one in fields:
            alike = [other[1] for other in fields if other[1] != one[1] and other[2] == one[2]]
            self.fields.setdefault(one[1], []).extend(it for it in alike if it not in self.fields.get(one[1], []))


def sources(folder):
    for at, folders, files in os.walk(folder):
        folders[:] = sorted(it for it in folders if it not in ("out", "target", ".git", "must-fail"))
        for name in sorted(files):
            if name.endswith(".rt"):
                yield os.path.join(at, name)


def bodies(lines):
    """The functions of a file: name, the line of its header, and the lines of its body."""
    found = []
    for start, line in enumerate(lines):
        it = FUNCTION.match(line)
        if not it:
            continue
        first = start
        while first < len(lines) and not lines[first].endswith("{") and not lines[first].endswith(";"):
            first += 1
        # a struct's braces in a clause end no header: the body's brace stands alone or ends the header's line
        if first == len(lines) or lines[first].endswith(";"):
            continue
        last = next((n for n in range(first + 1, len(lines)) if lines[n] == it[1] + "}"), None)
        if last:
            found.append((it[2], start, range(first + 1, last)))
    return found


def names_in(lines, header, body):
    """The names of the values that a function has: its parameters and what it binds by let."""
    text = "\n".join(lines[header : body.start])
    names = set(re.findall(r"[(,\n]\s*(?:mut )?(\w+): ", text))
    for n in body:
        it = re.match(r"\s*let (?:mut )?(\w+)\b", lines[n])
        if it:
            names.add(it[1])
    return sorted(names - {"self"})


def code_of(line):
    """The line without what stands in quotes and behind a comment mark, each sign of which becomes one that nothing matches."""
    blank = lambda it: "\0" * len(it[0])
    line = re.sub(r'b?"(?:[^"\\]|\\.)*"', blank, line)
    return re.sub(r"//.*", blank, line)


def changes(lines, header, body, shapes):
    """Every bug that can be planted in a body: its kind, its line, and the lines of the file with it."""

    def put(kind, n, new, upto=None):
        upto = n + 1 if upto is None else upto
        return kind, n, "\n".join(lines[n:upto]), new or "", lines[:n] + ([new] if new is not None else []) + lines[upto:]

    names = names_in(lines, header, body) if header is not None else []
    for n in body:
        line, code = lines[n], code_of(lines[n])
        if not code.strip("\0 ") or code.strip().startswith(("ghost ", "use ", "#[", "ensures", "requires", "invariant", "decreases")):
            continue

        def at(start, end, new):
            return line[:start] + new + line[end:]

        for sign, others in COMPARED.items():
            for it in re.finditer(re.escape(sign), code):
                for other in others:
                    yield put("comparison", n, at(it.start(), it.end(), other))
        for table, kind in ((REACHED, "operator"), (CALLED, "operator"), (STOPPED, "count at its stop")):
            for old, new in table.items():
                for it in re.finditer(re.escape(old), code):
                    yield put(kind, n, at(it.start(), it.end(), new))
        for old, new in ((" && ", " || "), (" || ", " && "), ("true", "false"), ("false", "true")):
            for it in re.finditer(rf"(?<!\w){re.escape(old)}(?!\w)" if old.strip() == old else re.escape(old), code):
                yield put("condition", n, at(it.start(), it.end(), new))
        for it in re.finditer(r"!(?=[a-z(])(?<!\w!)", code):
            yield put("condition", n, at(it.start(), it.end(), ""))
        for it in re.finditer(r"\bif (?!let )(?=[^{]+ \{)", code):
            end = code.index(" {", it.end())
            yield put("condition", n, at(it.end(), end, "true"))
            yield put("condition", n, at(it.end(), end, "false"))
        for it in NUMBER.finditer(code):
            number = int(it[0].replace("_", ""))
            yield put("constant", n, at(it.start(), it.end(), str(number + 1)))
            if number:
                yield put("constant", n, at(it.start(), it.end(), str(number - 1)))
        for it in re.finditer(r"\bu(?:32|size|8)::MAX\b", code):
            yield put("constant", n, at(it.start(), it.end(), it[0] + " - 1"))
        for it in re.finditer(r"\.(\w+)\b(?!\()", code):
            for other in shapes.fields.get(it[1], []):
                yield put("another field", n, at(it.start(1), it.end(1), other))
        for it in re.finditer(r"\b[A-Z]\w*::[A-Z]\w*", code):
            for other in shapes.variants.get(it[0], []):
                yield put("another case", n, at(it.start(), it.end(), other))
        bound = re.match(r"\s*let (?:mut )?(\w+)\b", code)
        for it in re.finditer(r"(?<![\w.:])[a-z_]\w*\b(?!\(|!|:)", code):
            if it[0] in names and not (bound and it.start() == bound.start(1)):
                for other in names:
                    if other != it[0]:
                        yield put("another value", n, at(it.start(), it.end(), other))
        for it in re.finditer(r"([\w.&*]+), ([\w.&*]+)(?=[,)])", code):
            if it[1] != it[2]:
                yield put("swapped arguments", n, at(it.start(), it.end(), f"{it[2]}, {it[1]}"))
        for it in re.finditer(r"(?<![\w(])Some\(([^()]*)\)(?! =>| =)", code):
            yield put("missed case", n, at(it.start(), it.end(), "None"))
        yield from whole_lines(lines, n, body, put)
    if header is not None:
        yield from given_up(lines, header, body, put)


def whole_lines(lines, n, body, put):
    """Lines dropped, and what stands on two lines swapped."""
    line = lines[n]
    depth = len(line) - len(line.lstrip())
    end = statement_end(lines, n, body)
    if end and not re.match(r"\s*(let|return|break|continue)\b", line):
        yield put("dropped write", n, None, end)
    if end and (after := statement_end(lines, end, body)):
        yield put("order", n, "\n".join(lines[end:after] + lines[n:end]), after)
    if line.rstrip().endswith(",") and depth == len(lines[n + 1]) - len(lines[n + 1].lstrip()):
        one, two = (re.match(r"(\s*)(.+?)(: | => )(.+),$", it) for it in (line, lines[n + 1]))
        if one and two and one[3] == two[3] and one[4] != two[4]:
            kind = "swapped write" if one[3] == ": " else "swapped cases"
            yield put(kind, n, f"{one[1]}{one[2]}{one[3]}{two[4]},\n{two[1]}{two[2]}{two[3]}{one[4]},", n + 2)
        alone = [re.match(r"(\s*)(\w+),$", it) for it in (line, lines[n + 1])]
        if all(alone) and alone[0][2] != alone[1][2]:
            (space, a), (_, b) = (it.groups() for it in alone)
            yield put("swapped write", n, f"{space}{a}: {b},\n{space}{b}: {a},", n + 2)
    if re.match(r"\s*\w+(: .+)?,$", line):
        rest = [it for it in lines[n:body.stop] if len(it) - len(it.lstrip()) <= depth]
        if any(it.strip().startswith("..") for it in rest[: next((k for k, it in enumerate(rest) if it.strip() and len(it) - len(it.lstrip()) < depth), len(rest))]):
            yield put("dropped write", n, None)
    if re.match(r"\s*[^ ].* => .+,$", line):
        yield put("missed case", n, None)
    if (it := re.match(r"(\s*.+?) if .+?( => .+)$", line)):
        yield put("missed case", n, it[1] + it[2])


def statement_end(lines, n, body):
    """The line behind a statement that begins at a line, if a whole one does."""
    if n not in body or not lines[n].strip() or lines[n].strip().startswith(("}", "//", ".", ")", "ghost ", "invariant")):
        return None
    depth = len(lines[n]) - len(lines[n].lstrip())
    if not lines[n - 1].rstrip().endswith((";", "{", "}")):
        return None
    for m in range(n, body.stop):
        here = len(lines[m]) - len(lines[m].lstrip())
        if m > n and here < depth:
            return None
        if lines[m].rstrip().endswith(";") and here == depth:
            return m + 1
        if m > n and here == depth and not lines[m].strip().startswith((")", "}", ".")):
            return None
    return None


def given_up(lines, header, body, put):
    """The whole body replaced by an answer that is given too early."""
    text = " ".join(lines[header : body.start])
    answer = re.search(r"-> (.+?)(?: ensures| requires| \{|$)", text)
    what = answer[1].strip() if answer else "()"
    space = re.match(r"\s*", lines[header])[0] + "    "
    early = {"bool": ["true", "false"], "u32": ["0"], "usize": ["0"], "i64": ["0"], "u64": ["0"], "()": ["return;"]}.get(what, [])
    if what.startswith("Option"):
        early = ["None"]
    if what in ("Self",) or "self" in text and re.search(r"\((?:mut )?self\b", text) and what not in ("bool", "u32"):
        early = early + ["self"]
    for it in early:
        yield put("early return", body.start, space + it, body.stop)


def bugs_of(tree, crate, shapes, only):
    """The bugs that can be planted in a crate, by function."""
    found = {}
    for file in sources(f"{tree}/crates/{crate}/src"):
        lines = open(file, encoding="utf-8").read().split("\n")
        path = os.path.relpath(file, f"{tree}/crates/{crate}")
        places = bodies(lines)
        for n, line in enumerate(lines):
            it = CONSTANT.match(line)
            if it and line.endswith(";") and not any(n in body for _, _, body in places):
                places.append((it[1], None, range(n, n + 1)))
        for name, header, body in places:
            if only and only not in f"{path}:{(header or body.start) + 1} {name}":
                continue
            seen = {"\n".join(lines)}
            for kind, n, old, new, text in changes(lines, header, body, shapes):
                whole = "\n".join(text)
                if whole not in seen:
                    seen.add(whole)
                    found.setdefault((path, name, body.start), []).append(Bug(crate, path, name, n, kind, old, new, whole))
    return found


def in_turn(found, chance):
    """The bugs in the order in which they are tried: a bug of each function in turn, and of each kind in turn there."""
    turns = []
    for _, bugs in sorted(found.items()):
        kinds = {}
        for bug in bugs:
            kinds.setdefault(bug.kind, []).append(bug)
        for some in kinds.values():
            chance.shuffle(some)
        order = sorted(kinds)
        chance.shuffle(order)
        turns.append([kinds[kind][k] for k in range(max(map(len, kinds.values()))) for kind in order if k < len(kinds[kind])])
    chance.shuffle(turns)
    return turns


def outcome_of(ran):
    said = [it for it in ran.stdout.split("\n") if it.strip()]
    errors = [it for it in said if re.match(r"(\./)?\S+:\d+:\d+: error", it) or re.search(r"error\[", it)]
    first = (errors or [it for it in said if "error" in it or "not proved" in it] or said[-1:] or [""])[0]
    last = next((it for it in reversed(said) if it.startswith("logic=")), "")
    if ran.returncode == 0:
        return "proved", ""
    if last.startswith("logic=not-proved"):
        return "refused", first
    if any(re.search(r"\berror\[[\w-]+\]", it) for it in said):
        return "no program", first
    return "unsure", first


def run(words, folder):
    return subprocess.run(words, cwd=folder, stdin=subprocess.DEVNULL, stdout=subprocess.PIPE, stderr=subprocess.STDOUT, text=True, errors="replace")


def tried(bug, copies, then):
    """Checks the crate with the bug, in a copy of the tree that nobody else uses; where it is proved, what comes then may see the bug."""
    copy = copies.get()
    try:
        folder = f"{copy}/crates/{bug.crate}"
        file = f"{folder}/{bug.file}"
        was = open(file, encoding="utf-8").read()
        with open(file, "w", encoding="utf-8") as it:
            it.write(bug.lines)
        try:
            outcome = outcome_of(run(["rt", "check"], folder))
            if outcome[0] == "proved" and then:
                ran = run(then.split(), copy)
                if ran.returncode:
                    outcome = "seen", (ran.stdout.strip().split("\n") or [""])[-1]
        finally:
            with open(file, "w", encoding="utf-8") as it:
                it.write(was)
        return outcome
    finally:
        copies.put(copy)


def row_of(bug, *more):
    return "\t".join(it.replace("\n", " ⏎ ") for it in (bug.crate, bug.place(), bug.kind, bug.old, bug.new, *more))


def try_in_turn(found, wanted, pool, jobs, chance, attempt, out):
    """Tries bugs, those of each place in turn, until as many as are wanted say something. Prints each, and gives how often each outcome came."""
    turns = collections.deque(in_turn(found, chance))
    left = max(wanted, len(turns))
    counts, running = collections.Counter(), {}
    while True:
        while turns and len(running) < min(jobs, left):
            turn = turns.popleft()
            if turn:
                bug = turn.pop(0)
                running[pool.submit(attempt, bug)] = bug, turn
        if not running:
            return counts
        done, _ = concurrent.futures.wait(running, return_when=concurrent.futures.FIRST_COMPLETED)
        for it in done:
            bug, turn = running.pop(it)
            outcome, said = it.result()
            counts[outcome] += 1
            row = row_of(bug, outcome, said[:300])
            print(row, flush=True)
            if out:
                print(row, file=out, flush=True)
            if outcome in NOTHING_SAID:
                turns.appendleft(turn)
            else:
                left -= 1
                turns.append(turn)


def told(name, found, counts):
    """How often each outcome came, in a line."""
    planted = sum(many for it, many in counts.items() if it not in NOTHING_SAID)
    return f"{name}: {planted} planted in {len(found)} places: " + ", ".join(f"{many} {it}" for it, many in sorted(counts.items()))


def arguments(doc, jobs):
    """The arguments that both tools take."""
    words = argparse.ArgumentParser(description=doc, formatter_class=argparse.RawDescriptionHelpFormatter)
    words.add_argument("crates", nargs="*")
    words.add_argument("--bugs", type=int, default=24)
    words.add_argument("--only", default="")
    words.add_argument("--jobs", type=int, default=jobs)
    words.add_argument("--seed", type=int, default=1)
    words.add_argument("--list", action="store_true")
    words.add_argument("--out")
    words.add_argument("--tree", default=os.path.dirname(os.path.dirname(os.path.abspath(__file__))))
    return words


def crates_of(tree):
    """The crates of a tree, those below first."""
    with open(f"{tree}/crates.txt", encoding="utf-8") as it:
        return [line.split(":")[0].strip() for line in it if line.strip() and line[0] != "#"]


def main():
    words = arguments(__doc__, 2)
    words.add_argument("--then", default="")
    given = words.parse_args()

    shapes = Shapes(f"{given.tree}/crates")
    crates = given.crates or [it for it in crates_of(given.tree) if it != "cases"]
    chosen = {crate: bugs_of(given.tree, crate, shapes, given.only) for crate in crates}
    if given.list:
        for bug in (it for found in chosen.values() for some in found.values() for it in some):
            print(row_of(bug))
        return 0

    room = tempfile.mkdtemp(prefix="planted-")
    out = open(given.out, "a", encoding="utf-8") if given.out else None
    copies = queue.Queue()
    try:
        for k in range(given.jobs):
            shutil.copytree(given.tree, f"{room}/{k}", ignore=shutil.ignore_patterns(".git", "target"), symlinks=True)
            copies.put(f"{room}/{k}")
        with concurrent.futures.ThreadPoolExecutor(given.jobs) as pool:
            for crate, found in chosen.items():
                chance = random.Random(f"{given.seed} {crate}")
                counts = try_in_turn(found, given.bugs, pool, given.jobs, chance, lambda bug: tried(bug, copies, given.then), out)
                print(told(crate, found, counts), flush=True)
    finally:
        shutil.rmtree(room, ignore_errors=True)
    return 0


if __name__ == "__main__":
    sys.exit(main())
