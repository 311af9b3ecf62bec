#!/usr/bin/env python3
"""Breaks the model of a station in one rule at a time, and holds it before the judge of runs and before the stored logs.

    broken_stations.py          all of them; status 1 if one is noticed by neither, and no reason for that is named
    broken_stations.py WORD     those whose name contains WORD

Each is an edit of model.py. The judge (runlaw.py) looks at random plans and says the first promise that is broken; it
knows the promises over runs and nothing of the rules by which a station comes to its colours. What it does not notice
breaks no promise over runs; then the plans of examples/ and of tests/plans are run, whose logs the rules decide.
The names are those of the misreadings in plant_rules.py, so that both tables can be laid side by side.
"""

import concurrent.futures
import os
import shutil
import subprocess
import sys
import tempfile

HERE = os.path.dirname(os.path.abspath(__file__))
TOP = os.path.dirname(HERE)

ARREARS = "            self.arrears = min(self.arrears + 1, MOST_ARREARS)\n        self.lasted += 1"
CLOCK = "        self.metering.reference_clock(self.cycle_to_begin())\n        return self.step_light(presence)"
OPENS = "if presence and metering.arrears > 0:"
WANTED_FIRST = """            if not self.wanted:
                return CLOSING
            if self.over_count == sheet.queue_full_seconds:
                self.under_count = 0
                return DRAINING
            if presence and metering.arrears > 0:
                metering.arrears -= 1
                metering.show(WINDOW_FLASH)
                self.openings = grow(self.openings)"""
FULL_FIRST = """            if self.over_count == sheet.queue_full_seconds:
                self.under_count = 0
                return DRAINING
            if not self.wanted:
                return CLOSING
            if presence and metering.arrears > 0:
                metering.arrears -= 1
                metering.show(WINDOW_FLASH)
                self.openings = grow(self.openings)"""
OPENING_FIRST = """            if not self.wanted:
                return CLOSING
            if presence and metering.arrears > 0:
                metering.arrears -= 1
                metering.show(WINDOW_FLASH)
                self.openings = grow(self.openings)
            elif self.over_count == sheet.queue_full_seconds:
                self.under_count = 0
                return DRAINING"""
TOLD = "self.state = self.strategy.next(self.state, minute, measure)"
RECORD = "        record = PeriodRecord(self.periods, minute, measure, cycle, self.openings)\n        self.openings = 0"
RESET = "        self.head.restore()\n        self.phase = STANDBY\n        self.shown = 0\n        self.service = 0\n        self.central = False\n        self.wanted = False\n        self.centre_cycle = None"
WHOLE = "if len(self.seconds) < self.sheet.interval_seconds * self.sheet.period_intervals:"
TRIP = "        self.head.cut()\n        self.phase = TRIPPED"

BROKEN = [
    ("a lane's occupancy is the sum of its intervals'", "occupancy=sum(interval.occupancy for interval in intervals) // len(intervals)", "occupancy=sum(interval.occupancy for interval in intervals)"),
    ("a period's occupancy is the sum of its lanes'", "occupancy=sum(lane.occupancy for lane in lanes) // len(lanes)", "occupancy=sum(lane.occupancy for lane in lanes)"),
    ("a period's flow is the mean of its lanes'", "flow=sum(lane.flow for lane in lanes)", "flow=sum(lane.flow for lane in lanes) // len(lanes)"),
    ("a period's flow counts its lanes and not its vehicles", "flow=sum(lane.flow for lane in lanes)", "flow=len(lanes)"),
    ("an interval's busy milliseconds are its occupancy", "occupancy=busy // sheet.interval_seconds", "occupancy=busy"),
    ("as many sound as the availability are enough", "100 * sound > sheet.availability * seen", "100 * sound >= sheet.availability * seen"),
    ("a lane always busy is sound", "        and lane.occupancy != 1_000\n", ""),
    ("an empty lane beside an occupancy is sound", "        and (lane.flow == 0) == (lane.occupancy == 0)\n", ""),
    ("a lane of unsound intervals is sound", "        lane.valid\n        and lane.flow", "        lane.flow"),
    ("a period has a measure whatever its lanes are", "    if not all(lane_is_sound(lane, sheet) for lane in lanes):\n        return None\n", ""),
    ("arrears grow by two", ARREARS, ARREARS.replace("+ 1, MOST", "+ 2, MOST")),
    ("arrears grow in every second", ARREARS, "        self.arrears = min(self.arrears + 1, MOST_ARREARS)\n        self.lasted += 1"),
    ("more arrears are kept", "MOST_ARREARS = 60_000", "MOST_ARREARS = 60_001"),
    ("arrears are cleared at entry", "                self.phase = self.metering_second(presence)\n        self.shown", "                self.phase = self.metering_second(presence)\n                self.metering.arrears = 0\n        self.shown"),
    ("metering starts with one in arrears", "self.arrears = 0  # reference", "self.arrears = 1  # reference"),
    ("opening red counts for the red age", "self.shown = 0  # seconds already shown of this light", "self.shown = 1  # seconds already shown of this light"),
    ("a reference cycle is a second longer", "if self.lasted == self.length:", "if self.lasted == self.length + (self.length > 0):"),
    ("a reference cycle starts at 0 seconds", ARREARS, ARREARS.replace("        self.lasted += 1", "        else:\n            self.lasted += 1")),
    ("a new cycle is taken at once", CLOCK, "        if self.metering.length:\n            self.metering.length = max(self.cycle_to_begin(), self.metering.lasted)\n" + CLOCK),
    ("a new cycle restarts the running reference cycle", "            self.centre_cycle = value\n            self.wanted = True", "            self.centre_cycle = value\n            self.wanted = True\n            if self.metering:\n                self.metering.length = value\n                self.metering.lasted = 0"),
    ("an opening keeps its arrears", "                metering.arrears -= 1\n", ""),
    ("an opening needs no arrears", OPENS, "if presence:"),
    ("an opening needs no presence", OPENS, "if metering.arrears > 0:"),
    ("a window flash is a second longer", "metering.shown == sheet.window_flash:", "metering.shown == sheet.window_flash + 1:"),
    ("a window amber is a second longer", "metering.shown == sheet.window_amber:", "metering.shown == sheet.window_amber + 1:"),
    ("the minimum red is a second longer", "metering.shown >= sheet.minimum_red:", "metering.shown > sheet.minimum_red:"),
    ("the minimum red is a second shorter", "metering.shown >= sheet.minimum_red:", "metering.shown + 1 >= sheet.minimum_red:"),
    ("window flash and window amber are exchanged", "metering.shown == sheet.window_flash:", "metering.shown == sheet.window_amber:"),
    ("a full queue comes before not wanted", WANTED_FIRST, FULL_FIRST),
    ("an opening comes before a full queue", WANTED_FIRST, OPENING_FIRST),
    ("the light comes before the clock", CLOCK, "        phase = self.step_light(presence)\n        self.metering.reference_clock(self.cycle_to_begin())\n        return phase"),
    ("opening amber of 4 seconds", "OPENING_AMBER_SECONDS = 5", "OPENING_AMBER_SECONDS = 4"),
    ("opening amber of 6 seconds", "OPENING_AMBER_SECONDS = 5", "OPENING_AMBER_SECONDS = 6"),
    ("opening flash as long as closing flash", "self.shown == sheet.opening_flash:", "self.shown == sheet.closing_flash:"),
    ("opening red a second shorter", "self.shown == sheet.opening_red:", "self.shown >= sheet.opening_red - 1:"),
    ("closing flash a second longer", "self.shown == sheet.closing_flash:", "self.shown == sheet.closing_flash + 1:"),
    ("closing is broken off when wanted", "        if self.phase == CLOSING and self.shown == sheet.closing_flash:", "        if self.phase == CLOSING and self.wanted:\n            return OPENING_FLASH\n        if self.phase == CLOSING and self.shown == sheet.closing_flash:"),
    ("draining goes back to metering", "self.under_count == sheet.queue_cleared_seconds:\n            return OPENING_AMBER", "self.under_count == sheet.queue_cleared_seconds:\n            return OPENING_RED"),
    ("a tripped station goes on by itself", "        if self.phase != TRIPPED:\n            self.settle_wanted", "        if self.phase == TRIPPED and self.number % 9 == 0:\n            self.head.restore()\n            self.phase = STANDBY\n        if self.phase != TRIPPED:\n            self.settle_wanted"),
    ("closing shows red", "    CLOSING: FLASHING,", "    CLOSING: RED,"),
    ("a tripped station flashes", TRIP, TRIP.replace("self.head.cut()", "self.head.order(FLASHING)")),
    ("a tripped station can trip again", "if self.phase == TRIPPED or trip is None:", "if trip is None:"),
    ("a trip leaves the phase as it is", "        self.phase = TRIPPED\n        self.metering = None\n", ""),
    ("the strategy is never told", TOLD, "pass"),
    ("the strategy is told minute 0", TOLD, TOLD.replace("minute", "0")),
    ("the strategy is told no measure", TOLD, TOLD.replace("measure", "None")),
    ("the strategy is told in every second", "        if not closes:\n            return None", "        if not closes:\n            self.state = self.strategy.next(self.state, minute, None)\n            return None"),
    ("the strategy is asked before it is told", "        record = self.loops_and_strategy(given.readings, minute)", "        self.asked = self.strategy.cycle(self.state)\n        record = self.loops_and_strategy(given.readings, minute)"),
    ("the minute is not taken modulo a week", "minute = given.minute % WEEK_MINUTES", "minute = given.minute"),
    ("a close one second late", WHOLE, WHOLE.replace("<", "<=")),
    ("a period of one interval less", WHOLE, WHOLE.replace("self.sheet.period_intervals", "(self.sheet.period_intervals - 1)")),
    ("the second of a close begins the next period", "        self.seconds = []\n        return True, measure", "        self.seconds = self.seconds[-1:]\n        return True, measure"),
    ("the strategy's cycle comes before the centre's", "        if self.centre_cycle is not None:\n            return self.centre_cycle\n", ""),
    ("no centre's cycle gives a cycle of 60", "        return self.strategy.cycle(self.state)\n\n    def step_light", "        return 60\n\n    def step_light"),
    ("draining keeps the under-count", "                self.under_count = 0\n", ""),
    ("a full queue from TO1 on", "self.sheet.queue_full < queue <= 1_000", "self.sheet.queue_full <= queue <= 1_000"),
    ("a cleared queue up to TO2", "queue < self.sheet.queue_cleared", "queue <= self.sheet.queue_cleared"),
    ("a queue reading of 1,001 counts", "queue <= 1_000", "queue <= 1_001"),
    ("a full queue a second early", "self.over_count == sheet.queue_full_seconds:", "self.over_count + 1 >= sheet.queue_full_seconds:"),
    ("the last minute of a range counts", "start <= minute < end", "start <= minute <= end"),
    ("local mode is wanted in standby", "self.phase != STANDBY and self.service", "self.phase == STANDBY and self.service"),
    ("central mode looks at the calendar", "        if self.central:\n            return\n", ""),
    ("a shortest service of one second more", "self.service < 60 * self.sheet.service_minutes", "self.service <= 60 * self.sheet.service_minutes"),
    ("the second of a trip settles wanted", "        if self.phase != TRIPPED:\n            self.settle_wanted(minute, calendar)\n", "        self.settle_wanted(minute, calendar)\n        if self.phase != TRIPPED:\n"),
    ("an opening is counted in every second of a window flash", "        metering.shown += 1\n        return METERING", "        metering.shown += 1\n        if metering.light == WINDOW_FLASH and metering.shown > 1:\n            self.openings = grow(self.openings)\n        return METERING"),
    ("the seconds shown go on in standby", "self.service = 0 if self.phase == STANDBY else self.service + 1", "self.service = self.service + (self.phase != STANDBY)"),
    ("a period record has the cycle of before", "        " + TOLD + "\n        self.periods = grow(self.periods)\n        cycle = self.strategy.cycle(self.state)", "        cycle = self.strategy.cycle(self.state)\n        " + TOLD + "\n        self.periods = grow(self.periods)"),
    ("an alarm record has the phase after the trip", "alarm = AlarmRecord(self.number, trip, self.phase)", "alarm = AlarmRecord(self.number, trip, TRIPPED)"),
    ("an alarm record has the second number of before", "alarm = AlarmRecord(self.number, trip, self.phase)", "alarm = AlarmRecord(self.number - 1, trip, self.phase)"),
    ("a further lamp trips nothing", "        if self.phase == TRIPPED or trip is None:", "        if self.phase == TRIPPED or trip is None or self.head.lit(word) == 5:"),
    ("a centre's cycle outlives a reset", RESET, RESET.replace("\n        self.centre_cycle = None", "")),
    ("a reset keeps the mode", RESET, RESET.replace("\n        self.central = False", "")),
    ("a reset leaves the head cut", RESET, RESET.replace("self.head.restore()", "self.head.cut()")),
    ("a reset opens", RESET, RESET.replace("self.phase = STANDBY\n        self.shown = 0", "self.phase = OPENING_FLASH\n        self.shown = 1")),
    ("a reset is taken by any station", "        if self.phase != TRIPPED:\n            raise ActRefused(10)\n", ""),
    ("a reset loses the readings of the running period", RESET, RESET + "\n        self.loops = Loops(self.sheet)"),
    ("the local-mode line keeps the centre's cycle", "            self.central = False\n            self.centre_cycle = None\n", "            self.central = False\n"),
    ("the off line clears the centre's cycle", '        elif name == "off":\n            self.wanted = False', '        elif name == "off":\n            self.wanted = False\n            self.centre_cycle = None'),
    ("the central-mode line clears the centre's cycle", "            self.central = True\n", "            self.central = True\n            self.centre_cycle = None\n"),
    ("the cycle line sets no wanted", "            self.centre_cycle = value\n            self.wanted = True", "            self.centre_cycle = value"),
    ("a refused line is obeyed", '        if name in ("cycle", "off") and not self.central:\n            raise ActRefused(9)\n', '        if name in ("cycle", "off") and not self.central:\n            self.order(name, value)\n            raise ActRefused(9)\n'),
    ("the cycle line is taken in local mode", 'if name in ("cycle", "off") and not self.central:', 'if name == "off" and not self.central:'),
    ("a tripped station takes lines", "        if self.phase == TRIPPED:\n            raise ActRefused(8)\n", ""),
    ("a status letter of another phase", '{STANDBY: b"V", TRIPPED: b"H"}', '{STANDBY: b"V", DRAINING: b"V", TRIPPED: b"H"}'),
    ("the cycles reading has the window amber", "self.sheet.window_flash)\n        if len(reply)", "self.sheet.window_amber)\n        if len(reply)"),
    ("a reply needs a byte to spare", "if len(reply) > buffer:", "if len(reply) >= buffer:"),
    ("an alarm tells the ordered lamp", "    return Trip(2, min(lamp for lamp in LAMPS if lit & lamp and not ordered & lamp))", "    return Trip(2, ordered or min(lamp for lamp in LAMPS if lit & lamp))"),
    ("an alarm tells the highest lamp", "return Trip(2, min(", "return Trip(2, max("),
    ("the trip codes are exchanged", "        return Trip(1, ordered)  # a colour orders one lamp, or none\n    return Trip(2,", "        return Trip(2, ordered)\n    return Trip(1,"),
    ("a queue count of one too many", "self.over_count = min(self.over_count + 1, self.sheet.queue_full_seconds) if full else 0", "self.over_count = self.over_count + 1 if full else 0"),
    ("draining holds the under-count at 0", "        if self.phase == DRAINING and self.under_count == sheet.queue_cleared_seconds:", "        self.under_count = 0 if self.phase == DRAINING else self.under_count\n        if self.phase == DRAINING and self.under_count == sheet.queue_cleared_seconds:"),
    ("the count of before is looked at", "        self.count_queue(given.queue)\n", "        before = self.over_count\n        self.count_queue(given.queue)\n        now, self.over_count = self.over_count, before\n"),
    ("an opening of the second of a close is the closing record's", RECORD, RECORD.replace("self.openings)", "self.openings + 1)")),
    ("an opening at a close is the old record's", "                self.openings = grow(self.openings)\n        metering", "                self.openings = grow(self.openings) if self.loops.seconds else 0\n        metering"),
    ("local mode comes before tripped", "        if self.phase == TRIPPED:\n            raise ActRefused(8)\n", "        if self.phase == TRIPPED:\n            raise ActRefused(9 if name == \"off\" else 8)\n"),
    ("a trip leaves the head uncut", TRIP, "        self.head.cut()\n        self.head.is_cut = False\n        self.phase = TRIPPED"),
    ("a fresh station is wanted", "        self.wanted = False\n        self.centre_cycle = None\n        self.phase = STANDBY", "        self.wanted = True\n        self.centre_cycle = None\n        self.phase = STANDBY"),
    ("a fresh head is cut", "        self.head = head\n        self.loops", "        self.head = head\n        self.head.cut()\n        self.loops"),
]

# edits with a second place
ALSO = {
    "the count of before is looked at": [("            self.step_phase(given.presence)\n", "            self.step_phase(given.presence)\n        self.over_count = now\n")],
    "the strategy is asked before it is told": [("        return self.strategy.cycle(self.state)\n\n    def step_light", "        return self.asked\n\n    def step_light")],
}

# misreadings that no log of a plan that a test can hold shows
UNSEEN = {
    "a trip leaves the head uncut": "without effect: a tripped station orders nothing, so the light stays dark",
    "more arrears are kept": "60,000 reference cycles without a vehicle would have to come first; a worked figure has it",
    "draining keeps the under-count": "without effect: draining begins in a second in which the queue is full, so its under-count is 0 already",
    "the second of a trip settles wanted": "a log does not show wanted, and the breaker reset that ends the trip clears it; a look at a station shows it",
}

JUDGED = """
import io, sys
import runlaw, random_plans
try:
    for seed in range(1, 41):
        runlaw.judge_model(io.BytesIO(random_plans.random_plan(seed)))
except runlaw.Breach as breach:
    print(breach)
"""


def edited(name, old, new):
    with open(f"{HERE}/model.py", encoding="utf-8") as it:
        text = it.read()
    for was, then in [(old, new)] + ALSO.get(name, []):
        if text.count(was) != 1:
            raise SystemExit(f"{name}: its text stands in model.py {text.count(was)} times")
        text = text.replace(was, then)
    return text


def run(words, room, given=None):
    return subprocess.run(words, cwd=room, env={**os.environ, "PYTHONPATH": room}, input=given, stdout=subprocess.PIPE, stderr=subprocess.PIPE, check=False)


def differs(room):
    """The first stored log that the model in this folder does not write."""
    for folder in ("examples", "tests/plans"):
        for name in sorted(os.listdir(f"{TOP}/{folder}")):
            if name.endswith(".csv"):
                wrote = run([sys.executable, f"{room}/model.py", f"{TOP}/{folder}/{name}"], room).stdout
                with open(f"{TOP}/{folder}/{name[:-4]}.log", "rb") as it:
                    if wrote != it.read():
                        return f"{folder}/{name[:-4]}.log"
    return None


def noticed(broken):
    """How a broken station is noticed: by the judge, by a stored log, or not at all."""
    name, old, new = broken
    with tempfile.TemporaryDirectory(prefix="broken-") as room:
        for it in ("runlaw.py", "random_plans.py"):
            shutil.copy(f"{HERE}/{it}", room)
        with open(f"{room}/model.py", "w", encoding="utf-8") as it:
            it.write(edited(name, old, new))
        judged = run([sys.executable, "-c", JUDGED], room)
        said = judged.stdout.decode().strip().split("\n")[-1]
        if judged.returncode:
            said = "it does not run: " + judged.stderr.decode().strip().split("\n")[-1]
        if said:
            return "promise", said
        log = differs(room)
        if log:
            return "log", f"{log} differs"
        return ("unseen", UNSEEN[name]) if name in UNSEEN else (None, "NOT NOTICED")


def main():
    word = sys.argv[1] if len(sys.argv) > 1 else ""
    chosen = [it for it in BROKEN if word in it[0]]
    missed = 0
    with concurrent.futures.ThreadPoolExecutor(2) as pool:
        for (name, _, _), (how, said) in zip(chosen, pool.map(noticed, chosen)):
            missed += how is None
            print(f"{name}\t{how}\t{said}", flush=True)
    return 1 if missed else 0


if __name__ == "__main__":
    sys.exit(main())
