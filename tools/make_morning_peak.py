#!/usr/bin/env python3
"""Writes morning-peak.csv: a two-lane motorway and its ramp, Monday 06:30 to 08:00.

    python3 make_morning_peak.py > morning-peak.csv

Each interval of 20 seconds becomes a few rows: seconds in which lane 1 counts a vehicle,
both lanes do, lane 2 does, or none does. Broken loops are laid over single minutes.
The output is the same in every run.
"""

FIRST_MINUTE = 390  # Monday 06:30
MINUTES = 90
INTERVAL = 20

SHEET = [12, 60, 10, 30, 4, 3, 4, 700, 15, 300, 20, 30, 2, 20, 3, 80, 60, 70, 200, 120, 900, 600]

# Lines through points (minute of the plan, value): occupancy of lane 1 per mille, vehicles
# of a lane in an interval, and busy milliseconds of the queue loop in a second.
OCCUPANCY = [(0, 95), (15, 140), (30, 190), (40, 215), (52, 240), (60, 205), (75, 165), (90, 110)]
VEHICLES = [(0, 5), (15, 7), (30, 10), (40, 11), (52, 9), (60, 10), (75, 8), (90, 6)]
QUEUE = [(0, 0), (10, 60), (30, 220), (49, 640), (52, 160), (62, 420), (75, 180), (90, 20)]

FULL = range(49, 52)  # minutes of the plan in which the ramp is full

EMPTY = (0, 0, 0)  # a lane's reading: vehicles seen, sound ones, busy milliseconds


class Noise:
    """Small numbers that look random and are the same in every run."""

    def __init__(self):
        self.state = 2024

    def upto(self, highest):
        self.state = (1_103_515_245 * self.state + 12_345) % 2_147_483_648
        return self.state // 65_536 % (highest + 1)


NOISE = Noise()


def value(line, minute):
    """The value of a line at MINUTE."""
    for (left, low), (right, high) in zip(line, line[1:]):
        if left <= minute < right:
            return low + (high - low) * (minute - left) // (right - left)
    return line[-1][1]


# An interval is a list of stretches: a count of seconds and the lanes' readings in each.


def traffic(minute):
    """An interval of unbroken loops."""
    vehicles, readings = [], []
    for lane in (0, 1):
        passing = value(VEHICLES, minute) + NOISE.upto(2) - lane
        occupancy = value(OCCUPANCY, minute) - 30 + NOISE.upto(60) - 15 * lane
        vehicles.append(passing)
        readings.append((1, 1, occupancy * INTERVAL // passing))
    first, second = vehicles
    both = max(first + second - INTERVAL, min(vehicles) // 3)
    stretches = [
        (first - both, [readings[0], EMPTY]),
        (both, readings),
        (second - both, [EMPTY, readings[1]]),
        (INTERVAL - first - second + both, [EMPTY, EMPTY]),
    ]
    return [(count, lanes) for count, lanes in stretches if count]


def one_second(change):
    """Changes the lanes of the first second of an interval."""

    def changed(stretches):
        (count, lanes), rest = stretches[0], stretches[1:]
        kept = [(count - 1, lanes)] if count > 1 else []
        return [(1, change(lanes))] + kept + rest

    return changed


def whole(number, change):
    """Changes lane NUMBER in every second of an interval."""

    def changed(stretches):
        return [
            (count, [change(lane) if at == number else lane for at, lane in enumerate(lanes, 1)])
            for count, lanes in stretches
        ]

    return changed


def ten_vehicles(sound):
    """An interval with ten vehicles on lane 1, SOUND of them sound."""
    return lambda _: [
        (sound, [(1, 1, 420), EMPTY]),
        (10 - sound, [(1, 0, 420), EMPTY]),
        (8, [EMPTY, (1, 1, 380)]),
        (2, [EMPTY, EMPTY]),
    ]


def chatter(_):
    """An interval in which lane 2 counts 20 vehicles."""
    return [(10, [(1, 1, 390), (2, 2, 440)]), (10, [EMPTY, EMPTY])]


def chatter_more(stretches):
    """An interval in which lane 2 counts 21 vehicles."""
    return one_second(lambda lanes: [lanes[0], (3, 3, 440)])(chatter(stretches))


def no_card(stretches):
    """An interval that begins with three seconds without readings."""
    return [(3, []), (INTERVAL - 3, stretches[0][1])]


def merged(stretches):
    """The same interval with equal neighbours in one stretch."""
    result = []
    for count, lanes in stretches:
        if result and result[-1][1] == lanes:
            count += result.pop()[0]
        result.append((count, lanes))
    return result


STICKS = whole(1, lambda lane: (lane[0], lane[1], 1_000))
SILENT = whole(2, lambda lane: EMPTY)
NO_BUSY = whole(2, lambda lane: (lane[0], lane[1], 0))
NO_VEHICLES = whole(1, lambda lane: (0, 0, 310))


def each(change):
    """The same change in all three intervals of a minute."""
    return {0: change, 1: change, 2: change}


# What happens to the loops: minute of the plan, what the comment says, changed intervals.
EVENTS = {
    8: (
        "lane 1: 9 of 10 vehicles sound in the second interval, above 80 percent",
        {1: ten_vehicles(9)},
    ),
    9: (
        "lane 1: 8 of 10 vehicles sound in the second interval, not above 80 percent",
        {1: ten_vehicles(8)},
    ),
    13: (
        "lane 2: one reading of 1001 ms",
        {2: one_second(lambda lanes: [lanes[0], (1, 1, 1_001)])},
    ),
    17: (
        "lane 1: one reading of 21 vehicles",
        {0: one_second(lambda lanes: [(21, 21, 900), lanes[1]])},
    ),
    18: (
        "lane 1: one reading of 20 vehicles and 1000 ms, which is in range",
        {0: one_second(lambda lanes: [(20, 20, 1_000), lanes[1]])},
    ),
    21: (
        "lane 2: one reading with more sound vehicles than vehicles",
        {1: one_second(lambda lanes: [lanes[0], (1, 2, 300)])},
    ),
    25: ("one second with one reading only", {0: one_second(lambda lanes: lanes[:1])}),
    28: ("one second with three readings", {2: one_second(lambda lanes: lanes + [EMPTY])}),
    33: ("lane 1 sticks at 1000 ms from the third interval on", {2: STICKS}),
    34: ("lane 1 stuck at 1000 ms", each(STICKS)),
    35: ("lane 1 stuck at 1000 ms", each(STICKS)),
    36: ("lane 1 works again", {}),
    43: ("lane 2 silent, neither vehicles nor busy time, while lane 1 counts", each(SILENT)),
    44: ("lane 2 silent", each(SILENT)),
    45: ("lane 2 works again", {}),
    56: ("lane 2: vehicles without busy time", each(NO_BUSY)),
    63: ("lane 1: busy time without vehicles", each(NO_VEHICLES)),
    69: ("lane 2 chatters: 60 vehicles, as many as the overcount allows", each(chatter)),
    70: (
        "lane 2 chatters: 61 vehicles, one more than the overcount allows",
        {0: chatter, 1: chatter, 2: chatter_more},
    ),
    78: ("three seconds without readings in the second interval", {1: no_card}),
}

# What happens on the ramp: minute of the plan, what the comment says.
RAMP = {
    0: "cars come to the line now and then",
    10: "mostly a car at the line",
    30: "always a car at the line",
    49: "the ramp is full",
    52: "the ramp has run off",
    75: "mostly a car at the line",
}


def presence(minute, stretch):
    """Whether a car is at the line in a stretch of seconds."""
    if 30 <= minute < 75:
        return 1
    if minute >= 10:
        return int(stretch % 3 != 2)
    return int(stretch % 3 == 1)


def queue(minute):
    """Busy milliseconds of the queue loop in a second."""
    noise = NOISE.upto(40) - 20
    return 900 + noise if minute in FULL else max(0, value(QUEUE, minute) + noise)


def row(count, present, queue_busy, minute, lanes):
    kind = "second" if count == 1 else f"seconds;{count}"
    fields = [kind, present, queue_busy, "ok", FIRST_MINUTE + minute]
    fields += ["|".join(map(str, lane)) for lane in lanes]
    return ";".join(map(str, fields))


def comment(minute, notes):
    hours, minutes = divmod(FIRST_MINUTE + minute, 60)
    return f"# {hours:02}:{minutes:02} {'; '.join(notes)}".rstrip()


def main():
    print("# Morning peak, Monday 06:30 to 08:00: two motorway lanes, ALINEA under a step limiter.")
    print("# Intervals of 20 seconds, periods of 3 intervals: a period closes with each minute.")
    print("sheet;" + ";".join(map(str, SHEET)))
    print("strategy;limiter;10;alinea")
    print("head;relay")
    print("# the ramp is metered from 06:30 to 09:00")
    print("calendar;390..540")
    for minute in range(MINUTES):
        note, changes = EVENTS.get(minute, ("", {}))
        print(comment(minute, [text for text in (RAMP.get(minute), note) if text]))
        for number in range(3):
            stretches = traffic(minute)
            if number in changes:
                stretches = changes[number](stretches)
            queue_busy = queue(minute)
            for stretch, (count, lanes) in enumerate(merged(stretches)):
                print(row(count, presence(minute, stretch), queue_busy, minute, lanes))


main()
