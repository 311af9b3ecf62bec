#!/usr/bin/env python3
"""Makes random plans in which much happens.

    random_plans.py SEED [ACTS]    write a plan of ACTS acts or some more (2000 if not said)

A plan has an accepted sheet with small figures, any strategy and head, and acts that
reach every phase: vehicles at the line, a queue that grows and clears, calendars, lines
good and bad, broken readings, failing lamps and breaker resets. The same seed gives the
same plan. The model is run along with it, so that the plan can go by what the light
shows.
"""

import io
import random
import sys

import model

GOOD_LINES = [
    b"PA, AM=PIL, AF=PF/0",
    b"PA, AM=PIL, AF=PF/1",
    b"PA, AM=F.1, CY=60",
    b"PM, EXTNORM",
    b"P",
    b"PE",
]

ODD_LINES = [
    b"",
    b" ",
    b"   ",
    b"p",
    b"PP",
    b"P E",
    b"P,",
    b"P;PE",
    b"PA",
    b"PM",
    b"PM,",
    b"PM, EXTNORM.",
    b"PM EXTNORM",
    b"PM, EXTNORM, P",
    b"PM,\tEXTNORM",
    b"PA, AM=PIL, AF=PF/",
    b"PA, AM=PIL, AF=PF/2",
    b"PA, AM=PIL, AF=PF/00",
    b"PA, AM=PIL, AF=PF/01",
    b"PA, AM=PIL, AF=PF/1 1",
    b"PA, AM=PIL, AF=PF/0 /",
    b"PA, AM=PIL, CY=60",
    b"PA, AM=F.1, AF=PF/0",
    b"PA, AM=F.1, CY=",
    b"PA, AM=F.1, CY=  ",
    b"PA, AM=F.1, CY=,",
    b"PA, AM=F.1, CY=6.0",
    b"PA, AM=F.1, CY=CY",
    b"PA, AM=F.1, CY=60 60",
    b"PA, AM=F 1, CY=60",
    b"PA, AM=F.1, CY=121 ,",
    b"PA, AM=F.1, CY=0!",
    b"PA, AM=F.1, CY=0",
    b"PA, AM=F.1, CY=3",
    b"PA, AM=F.1, CY=121",
    b"PA,  AM = F.1 , CY =  0000000000000121",
    b"PA, AM=F.1, CY=4294967356",
    b"PA, AM=F.1, CY=18446744073709551676",
    b"PA, AM=F.1, CY=" + b"9" * 65,
    b"PA, AM=F.1, CY=" + b"0" * 63 + b"60",
    b"PA, AM=F.1, CY=" + b"0" * 64 + b"60",
    b"PE" + b" " * 78,
    b"PE" + b" " * 79,
    b" " * 80,
    b" " * 81,
    b"!" * 81,
    b"P" * 200,
    b"PA, AM=PIL, AF=PF/0\x00",
    b"\xffP",
    b"P\xc3\x89",
    b"P\r",
    b"#P",
]


class RandomPlan:
    """A plan as it grows, with the model that is run along with it."""

    def __init__(self, seed):
        self.random = random.Random(seed)
        self.rows = []
        self.acts = 0
        self.trial = model.Trial(io.StringIO(), self.count)
        # Moods last for some rows.
        self.vehicles = "some"
        self.queue = "short"
        self.loops = "sound"
        self.centre = "quiet"
        self.minute = 0

    def count(self, act):
        self.acts += 1

    def chance(self, percent):
        return self.random.random() * 100 < percent

    def put(self, row):
        """Adds a row, now and then as a spreadsheet would save it, and runs the model on it."""
        if self.chance(2):
            row += b";" * self.between(1, 4)
        if self.chance(2):
            row += b"\r"
        if self.chance(0.3):
            self.rows.append(self.random.choice([b"", b";;", b"# a remark", b"#;1", b"\r"]))
        self.rows.append(row)
        self.trial.row(model.row_text(row + b"\n", first=False))

    def write(self, *fields):
        self.put(b";".join(f if isinstance(f, bytes) else str(f).encode() for f in fields))

    def between(self, lowest, highest):
        return self.random.randint(lowest, highest)

    # Rows before the first act

    def small_sheet(self):
        """Figures of an accepted sheet, small so that phases follow each other quickly."""
        full = self.random.choice([2, 999, self.between(2, 999), self.between(300, 900)])
        flows = sorted(self.between(30, 900) for _ in range(3))
        if self.chance(30):
            flows = sorted(self.random.choice([30, 60, 600, 900]) for _ in range(3))
        return [
            self.between(1, 9_999),
            self.between(30, 34),
            self.between(1, 6),
            self.between(5, 10),
            self.between(2, 4),
            self.between(3, 5),
            self.between(2, 6),
            full,
            self.between(1, 8),
            self.between(1, full - 1),
            self.between(1, 8),
            self.random.choice([0, 0, 1, 1, 2, 3]),
            self.random.choice([1, 1, 1, 2, 2, 3, 4]),
            self.between(10, 13),
            self.random.choice([1, 1, 2, 3]),
            self.random.choice([0, 50, 80, 99, self.between(0, 99)]),
            self.random.choice([1, 20, 2_000, 2_000, self.between(1, 2_000)]),
            self.between(1, 200),
            self.random.choice([self.between(1, 999), self.between(200, 400)]),
            flows[0],
            flows[2],
            flows[1],
        ]

    def sheet(self):
        """A small sheet, now and then with large figures among its times."""
        figures = self.small_sheet()
        for number in (2, 3, 4, 5, 6, 7, 9, 11, 12, 14, 15):
            if self.chance(3):
                _, lowest, highest = model.FIGURES[number - 1]
                figures[number - 1] = self.random.choice([lowest, highest])
        return figures

    def strategy(self, limiters=0):
        if limiters < 2 and self.chance(40):
            step = self.random.choice([0, 1, 5, 30, 31, self.between(1, 30)])
            return ["limiter", step] + self.strategy(limiters + 1)
        if self.chance(50):
            return ["alinea"]
        longest = self.random.choice([20, 60, 130])
        return ["plan"] + [self.between(0, longest) for _ in range(24)]

    def begin(self):
        figures = self.sheet()
        rows = [
            ["sheet"] + figures,
            ["strategy"] + self.strategy(),
            ["head", self.random.choice(["relay", "current"])],
        ]
        self.random.shuffle(rows)
        for row in rows:
            self.write(*row)
        self.minute = self.between(0, 10_079)
        self.calendar()

    # Acts, and the calendar

    def calendar(self):
        """A calendar that mostly holds the present minute for a while."""
        ranges = []
        if self.chance(40):
            ranges.append("0..10080")
        elif self.chance(70):
            start = max(0, self.minute - self.between(0, 3))
            ranges.append(f"{start}..{self.minute + self.between(1, 12)}")
        for _ in range(self.random.choice([0, 0, 0, 1, 2, 5, 63])):
            start = self.between(0, 12_000)
            ranges.append(f"{start}..{max(0, start + self.between(-50, 50))}")
        self.random.shuffle(ranges)
        self.write("calendar", *ranges)

    def seconds(self):
        """One second or some like it; vehicles, queue and loops follow their moods."""
        presence = {"none": 0, "always": 1}.get(self.vehicles, self.between(0, 1))
        count = self.random.choice([1, 1, 1, 2, 3, 5, 8, self.between(1, 20)])
        if self.chance(1):
            count = self.random.choice([0, 60, 130])
        word = "ok"
        if self.chance(8):
            word = self.fitting_word()
            count = 1
        row = ["seconds", count]
        if count == 1 and self.chance(70):
            row = ["second"]
        self.write(*row, presence, self.queue_reading(), word, self.minute_field(), *self.lanes())
        if self.chance(count * 100 / 60):
            self.minute += 1
        if self.chance(4):
            self.minute += self.between(0, 600)

    def minute_field(self):
        """Mostly the minute of the week, now and then weeks later."""
        minute = self.minute % 10_080
        return minute + 10_080 * self.random.choice([1, 3, 400_000]) if self.chance(3) else minute

    def queue_reading(self):
        sheet = self.trial.sheet
        full, cleared = sheet.queue_full, sheet.queue_cleared
        if self.queue == "long":
            return self.between(full + 1, 1_000)
        if self.queue == "short":
            return self.between(0, cleared - 1)
        if self.queue == "middle":
            return self.between(cleared, full)
        edges = [cleared - 1, cleared, full, full + 1, 1_000, 1_001, 4_294_967_295]
        return self.random.choice(edges)

    def lanes(self):
        """A reading for each lane, or something broken."""
        lanes = self.trial.sheet.lanes
        if self.loops == "broken" and self.chance(20):
            lanes = self.random.choice([0, lanes - 1, lanes + 1, 16])
        return [self.lane() for _ in range(lanes)]

    def lane(self):
        if self.loops == "empty":
            return "0|0|0"
        if self.loops == "broken" and self.chance(20):
            broken = ["21|21|300", "2|3|300", "2|2|1001", "4294967295|0|0", "0|0|400"]
            return self.random.choice(broken)
        if self.loops == "jammed":
            return f"1|1|{self.between(900, 1_000)}"
        seen = self.random.choice([0, 0, 1, 1, 2, 20])
        sound = seen if self.loops == "sound" else self.between(0, seen)
        return f"{seen}|{sound}|{self.between(0, 600)}"

    def fitting_word(self):
        """A number that stands for the lamps of the light's colour."""
        return self.word_for(model.LAMPS_OF[self.trial.station.head.colour])

    def word_for(self, lamps):
        """A random word that stands for a set of lamps."""
        if self.trial.head == "relay":
            return lamps + 8 * self.random.choice([0, 1, self.between(0, 2**29 - 1)])
        word = self.random.choice([0, 255, self.between(0, 255)])
        for lamp in (4, 2, 1):
            lit = [20, 21, 255, self.between(20, 255)]
            unlit = [0, 19, self.between(0, 19)]
            word = word * 256 + self.random.choice(lit if lamps & lamp else unlit)
        return word

    def failing_lamp(self):
        """A second whose lamp word stands for other lamps, or for any."""
        ordered = model.LAMPS_OF[self.trial.station.head.colour]
        lamps = self.random.choice([0, ordered | self.random.choice([1, 2, 4]), self.between(0, 7)])
        word = self.word_for(lamps)
        if self.chance(20):
            word = self.between(0, 4_294_967_295)
        row = ["second"] if self.chance(80) else ["seconds", self.between(1, 4)]
        presence = self.between(0, 1)
        self.write(*row, presence, self.queue_reading(), word, self.minute_field(), *self.lanes())

    def spaced(self, line):
        """A good line with other spaces."""
        tokens = [token.text for token in model.tokens_of(line)]
        parts = [b" " * self.random.choice([0, 0, 0, 1, 2]) for _ in range(len(tokens) + 1)]
        return parts[0] + b"".join(t + p for t, p in zip(tokens, parts[1:]))

    def cycle_line(self):
        cycle = self.random.choice([4, 5, 8, 10, 15, 20, 30, self.between(4, 120), 120])
        digits = str(cycle).encode().rjust(self.random.choice([1, 1, 1, 3, 6]), b"0")
        return b"PA, AM=F.1, CY=" + digits

    def spoilt(self, line):
        """A line with a byte or two changed."""
        spoilt = bytearray(line)
        for _ in range(self.between(1, 2)):
            place = self.between(0, len(spoilt))
            byte = self.random.choice(b"PAMEF01.,=/ ;!a\x00\xff")
            how = self.between(0, 2)
            if how == 0:
                spoilt.insert(place, byte)
            elif place < len(spoilt) and how == 1:
                spoilt[place] = byte
            elif place < len(spoilt):
                del spoilt[place]
        return bytes(spoilt)

    def line(self):
        """A command line: a good one, a spoilt one or an odd one."""
        text = self.random.choice(GOOD_LINES + [self.cycle_line() for _ in range(4)])
        if self.chance(20):
            text = self.spoilt(text)
        elif self.chance(20):
            text = self.random.choice(ODD_LINES)
        elif self.chance(40):
            text = self.spaced(text)
        self.send(text)

    def centre_line(self):
        """What the centre sends in its mood."""
        if self.centre == "quiet":
            self.line()
        elif self.centre == "busy":
            self.send(self.random.choice([self.cycle_line(), self.cycle_line(), b"P", b"PE"]))
        elif self.centre == "ending":
            self.send(self.random.choice([b"PM, EXTNORM", b"P"]))
        else:
            self.send(GOOD_LINES[0])
            self.centre = "busy"

    def send(self, text):
        kind = b"line"
        if self.chance(25):
            kind += b"/%d" % self.random.choice([0, 1, 15, 16, 17, 18, 19, 80, 1_000])
        self.put(kind + b";" + text if text or self.chance(50) else kind)

    def reset(self):
        self.write("reset")

    def moods(self):
        """Some moods change."""
        if self.chance(40):
            self.vehicles = self.random.choice(["none", "some", "always", "always"])
        if self.chance(50):
            self.queue = self.random.choice(["short"] * 5 + ["middle", "long", "edge"])
        if self.chance(30):
            self.loops = self.random.choice(["sound"] * 3 + ["poor", "broken", "empty", "jammed"])
        if self.chance(30):
            self.centre = self.random.choice(["quiet", "busy", "busy", "taking over", "ending"])

    def row(self):
        """A row or some, of what comes next."""
        if self.trial.station.phase == model.TRIPPED and self.chance(12):
            self.reset()
        kinds = {
            self.seconds: 100,
            self.centre_line: 30,
            self.line: 6,
            self.moods: 15,
            self.calendar: 2,
            self.reset: 0.7,
            self.failing_lamp: 1.2,
        }
        self.random.choices(list(kinds), kinds.values())[0]()

    def first_act(self):
        """The first act; a station is open from here on."""
        kind = self.between(1, 3)
        if kind == 1:
            self.reset()
        elif kind == 2:
            self.line()
        else:
            self.write("second", 0, self.queue_reading(), "ok", self.minute, *self.lanes())


def random_plan(seed, acts=2_000):
    """The bytes of the plan of a seed."""
    plan = RandomPlan(seed)
    plan.begin()
    plan.first_act()
    while plan.acts < acts:
        plan.row()
    # The last row may lack its LF, but then a CR would not be dropped.
    unended = plan.chance(10) and not plan.rows[-1].endswith(b"\r")
    return b"\n".join(plan.rows) + (b"" if unended else b"\n")


def main(arguments):
    if len(arguments) not in (1, 2):
        sys.stderr.write(__doc__)
        return 1
    sys.stdout.buffer.write(random_plan(*map(int, arguments)))
    return 0


if __name__ == "__main__":
    sys.exit(main(sys.argv[1:]))
