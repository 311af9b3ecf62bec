#!/usr/bin/env python3
"""Measures the check of the whole repository: the processor time of each crate by kind, and the whole by the clock.

    bench/check.py            the check from nothing, in a copy of the tree
    bench/check.py --kept     the same with what earlier runs on this machine kept

The kinds are the proofs of a crate (and the building of it for others), its must-fail edits, and tests and programs. What
a process used is looked up four times a second, so that the sums are some seconds too low.
"""

import os
import re
import shutil
import subprocess
import sys
import tempfile
import time

TOP = os.path.dirname(os.path.dirname(os.path.abspath(__file__)))
TICK = os.sysconf("SC_CLK_TCK")
KINDS = ("proofs", "edits", "tests and programs")


def text_of(path):
    try:
        with open(path, encoding="utf-8", errors="replace") as it:
            return it.read()
    except OSError:
        return ""


def processes():
    """Every process: its parent, its words, its folder, when it began, and the seconds of processor time that it used."""
    found = {}
    for pid in (it for it in os.listdir("/proc") if it.isdigit()):
        stat = text_of(f"/proc/{pid}/stat").rpartition(")")[2].split()
        if len(stat) < 20:
            continue
        words = text_of(f"/proc/{pid}/cmdline").split("\0")
        try:
            folder = os.readlink(f"/proc/{pid}/cwd")
        except OSError:
            folder = ""
        found[int(pid)] = (int(stat[1]), words, folder, stat[19], (int(stat[11]) + int(stat[12])) / TICK)
    return found


def below(found, top):
    """The processes that `top` started, and those that they started."""
    def is_below(pid):
        while pid in found and pid != top:
            pid = found[pid][0]
        return pid == top
    return [pid for pid in found if pid != top and is_below(pid)]


def crate_and_kind(found, pid, top):
    """What a process works on, by its own words or else by those of the nearest process above it that tells; nothing
    for a process that is ending, which has no words any more."""
    if not any(found[pid][1]):
        return None
    while pid in found and pid != top:
        above, words, folder = found[pid][:3]
        said = " ".join(words)
        named = re.search(r"--crate-name ([a-z_]+)", said)
        if named:
            crate = named.group(1).removesuffix("_tests")
            if "/rt-edit-" in folder:
                return crate, "edits"
            in_tests = "--test" in words or "test" in words[1:2] or crate == "cases"
            return crate, "tests and programs" if in_tests else "proofs"
        place = re.search(r"/crates/([a-z_]+)", folder)
        if place and not said.startswith(("python", "/root")):
            return place.group(1), "tests and programs"
        pid = above
    return "rt", "tests and programs"


def main():
    kept = sys.argv[1:] == ["--kept"]
    with tempfile.TemporaryDirectory() as room:
        tree = f"{room}/tree"
        shutil.copytree(TOP, tree, ignore=shutil.ignore_patterns("out", "target"))
        began = time.monotonic()
        used = {}
        with open(f"{room}/said", "w+", encoding="utf-8") as said:
            with subprocess.Popen(["rt", "ci"] + ([] if kept else ["--anew"]), cwd=tree, stdin=subprocess.DEVNULL, stdout=said, stderr=subprocess.STDOUT) as run:
                while run.poll() is None:
                    found = processes()
                    for pid in below(found, run.pid):
                        began_at, seconds = found[pid][3:]
                        work = crate_and_kind(found, pid, run.pid) or used.get((pid, began_at), (None,))[0]
                        used[pid, began_at] = (work, seconds)
                    time.sleep(0.25)
            said.seek(0)
            lines = said.read().split("\n")
            last = [line.strip() for line in lines if line.startswith("rt: ok") or " passed, " in line]
            if run.returncode:
                print("\n".join(lines[-200:]))
        took = time.monotonic() - began
        sums = {}
        for work, seconds in used.values():
            sums[work] = sums.get(work, 0) + seconds
        crates = [line.split(":")[0].strip() for line in text_of(f"{TOP}/crates.txt").split("\n") if line.strip() and line[0] != "#"]
        print("| Crate | " + " | ".join(KINDS) + " | edits tried |\n|---|---:|---:|---:|---:|")
        for crate in crates + ["rt"]:
            folder = f"{TOP}/crates/{crate}/must-fail"
            edits = len(os.listdir(folder)) if os.path.isdir(folder) else 0
            print(f"| `{crate}` | " + " | ".join(f"{sums.get((crate, kind), 0):.0f} s" for kind in KINDS) + f" | {edits or ''} |")
        print("| all | " + " | ".join(f"{sum(s for work, s in sums.items() if work and work[1] == kind) / 60:.1f} min" for kind in KINDS) + " | |")
        print(f"{took / 60:.1f} minutes by the clock, {os.cpu_count()} processors")
        print("\n".join(last[-2:]))
    return 0


if __name__ == "__main__":
    sys.exit(main())
