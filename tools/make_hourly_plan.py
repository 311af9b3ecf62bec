#!/usr/bin/env python3
"""Writes hourly-plan.csv: a one-lane motorway, Sunday 22:00 to Monday 01:00.

    python3 make_hourly_plan.py > hourly-plan.csv

Each minute becomes one or two rows: seconds with a vehicle, then seconds without.
The output is the same in every run.
"""

FIRST_MINUTE = 9_960  # Sunday 22:00
MINUTES = 180

SHEET = [7, 60, 5, 20, 4, 3, 3, 800, 20, 400, 30, 15, 1, 30, 10, 75, 200, 60, 180, 60, 900, 400]

# The cycle of each hour. 150, 3 and 2 lie outside 4 to 120.
CYCLES = [150, 120, 120, 120, 90, 30, 8, 2, 5, 10, 12, 12, 12, 12, 10, 8, 6, 5, 5, 8, 10, 12, 3, 20]

EMPTY = "0|0|0"

# Minutes of the plan whose rows are given: the comment, then pairs of seconds and lanes.
EVENTS = {
    17: ("one reading of 1200 ms", [(1, ["1|1|1200"]), (7, ["1|1|310"]), (52, [EMPTY])]),
    36: (
        "3 of 4 vehicles sound in the first interval, not above 75 percent",
        [(3, ["1|1|290"]), (1, ["1|0|290"]), (26, [EMPTY]), (5, ["1|1|290"]), (25, [EMPTY])],
    ),
    41: (
        "4 of 5 vehicles sound in the first interval, above 75 percent",
        [(4, ["1|1|290"]), (1, ["1|0|290"]), (25, [EMPTY]), (3, ["1|1|290"]), (27, [EMPTY])],
    ),
    83: ("one second without a reading", [(5, ["1|1|280"]), (1, []), (54, [EMPTY])]),
    95: (
        "two seconds with two readings",
        [(4, ["1|1|300"]), (2, ["1|1|300", EMPTY]), (54, [EMPTY])],
    ),
    108: ("180 vehicles in a minute: an overcount", [(60, ["3|3|500"])]),
    152: ("a motorcycle, the only vehicle in five minutes", [(1, ["1|1|90"]), (59, [EMPTY])]),
}
for quiet in [*range(65, 75), 150, 151, 153, 154]:
    note = "the road is closed for ten minutes" if quiet == 65 else ""
    EVENTS[quiet] = (note, [(60, [EMPTY])])
for stuck in range(160, 165):
    note = "the lane is stuck at 1000 ms for five minutes" if stuck == 160 else ""
    EVENTS[stuck] = (note, [(1, ["1|1|1000"]), (59, ["0|0|1000"])])


def traffic(minute):
    """A minute of unbroken readings: fewer vehicles, a little faster, as it gets later."""
    vehicles = 14 - minute // 15 + minute * 7 % 3
    return [(vehicles, [f"1|1|{330 - minute // 3 + minute * 11 % 17}"]), (60 - vehicles, [EMPTY])]


def row(count, minute, lanes):
    kind = "second" if count == 1 else f"seconds;{count}"
    present = int(lanes != [EMPTY] and minute < 120)
    fields = [kind, present, 120 - minute // 2, "ok", FIRST_MINUTE + minute, *lanes]
    return ";".join(map(str, fields))


def main():
    print("# Sunday 22:00 to Monday 01:00: one motorway lane, the hourly plan.")
    print("# Intervals of 30 seconds, periods of 10 intervals: a period closes every five minutes.")
    print("sheet;" + ";".join(map(str, SHEET)))
    print("strategy;plan;" + ";".join(map(str, CYCLES)))
    print("head;current")
    print("# the ramp is metered from 22:00 to midnight")
    print("calendar;9960..10080")
    for minute in range(MINUTES):
        note, stretches = EVENTS.get(minute, ("", traffic(minute)))
        if minute == 120:
            print("# Monday. Minutes are taken modulo 10080: 10080 is 00:00.")
        if note or minute % 5 == 0:
            hours, minutes = divmod(FIRST_MINUTE + minute, 60)
            print(f"# {hours % 24:02}:{minutes:02} {note}".rstrip())
        for count, lanes in stretches:
            print(row(count, minute, lanes))


main()
