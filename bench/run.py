#!/usr/bin/env python3
"""Measures `trial` on a generated plan, and what each command needs for it.

    bench/run.py                    a week of seconds, timed; 20,000 seconds, counted by callgrind
    bench/run.py --plan SECONDS     writes the plan of so many seconds to standard output

The plan has two lanes, periods of a minute, a step limiter over ALINEA, a vehicle at the line in three seconds of five,
and a command line every three seconds, by turns a cycle of the centre and the reading of the cycles.
"""

import os
import subprocess
import sys
import tempfile
import time

TOP = os.path.dirname(os.path.dirname(os.path.abspath(__file__)))
TRIAL = f"{TOP}/crates/trial/out/trial"
WEEK = 604_800
COUNTED = 20_000

HEAD = """\
sheet;1;60;5;20;4;3;3;800;20;400;30;15;2;20;3;80;600;70;200;30;900;600
strategy;limiter;10;alinea
head;relay
calendar;0..10080
line;PA, AM=PIL, AF=PF/0
"""
CYCLES = (60, 8, 12, 20, 7, 30)


def rows_of(seconds):
    yield HEAD
    for s in range(seconds):
        if s % 6 == 0:
            yield f"line;PA, AM=F.1, CY={CYCLES[s // 6 % 6]}\n"
        elif s % 3 == 0:
            yield "line;PE\n"
        near, far = s % 2, s // 2 % 2
        lanes = f"{near}|{near}|{200 + near * 60};{far}|{far}|{180 + far * 90}"
        yield f"second;{int(s % 5 < 3)};{s * 37 % 700};ok;{s // 60 % 10_080};{lanes}\n"


def plan_of(seconds, path):
    rows = 0
    with open(path, "w", encoding="ascii") as it:
        for row in rows_of(seconds):
            it.write(row)
            rows += row.count("\n")
    return rows


def peak_of(child):
    """The most memory, in MB, that a process has had so far."""
    try:
        with open(f"/proc/{child.pid}/status", encoding="ascii") as it:
            return next((int(line.split()[1]) / 1024 for line in it if line.startswith("VmHWM")), 0)
    except OSError:
        return 0


def timed(words, rows):
    peak, before = 0, time.monotonic()
    with subprocess.Popen(words, stdout=subprocess.DEVNULL) as child:
        while child.poll() is None:
            peak = max(peak, peak_of(child))
            time.sleep(0.01)
    took = time.monotonic() - before
    name = words[1] if len(words) > 2 else "log"
    print(f"{name}: {took:.2f} s, {rows / took:,.0f} rows a second, {peak:.1f} MB, status {child.returncode}")


def counted(room, plan, rows):
    out = f"{room}/counted"
    ran = subprocess.run(["valgrind", "--tool=callgrind", f"--callgrind-out-file={out}", TRIAL, plan], stdout=subprocess.DEVNULL, stderr=subprocess.PIPE, text=True, check=False)
    total = next((line.split(":")[1].strip() for line in ran.stderr.split("\n") if "Collected" in line), None)
    if total is None:
        print("no count: valgrind is not there")
        return
    print(f"{int(total):,} instructions, {int(total) / rows:,.0f} a row of the plan")
    told = subprocess.run(["callgrind_annotate", out], stdout=subprocess.PIPE, stderr=subprocess.DEVNULL, text=True, check=False).stdout
    for line in [it for it in told.split("\n") if "%)" in it and "PROGRAM" not in it][:14]:
        print("   ", line.strip()[:120])


def main():
    if len(sys.argv) == 3 and sys.argv[1] == "--plan":
        sys.stdout.writelines(rows_of(int(sys.argv[2])))
        return 0
    subprocess.run([f"{TOP}/trial", "--help"], stdout=subprocess.DEVNULL, check=True)  # builds it
    with tempfile.TemporaryDirectory() as room:
        week = f"{room}/week.csv"
        rows = plan_of(WEEK, week)
        print(f"a week: {WEEK:,} seconds, {rows:,} rows")
        timed([TRIAL, week], rows)
        log = f"{room}/week.log"
        with open(log, "wb") as it:
            subprocess.run([TRIAL, week], stdout=it, check=True)
        timed([TRIAL, "hold", week, log], rows)
        timed([TRIAL, "judge", week, log], rows)
        timed([TRIAL, "picture", week], rows)
        short = f"{room}/short.csv"
        rows = plan_of(COUNTED, short)
        print(f"{COUNTED:,} seconds, {rows:,} rows")
        counted(room, short, rows)
    return 0


if __name__ == "__main__":
    sys.exit(main())
