#!/usr/bin/env python3
"""Plants bugs in the definitions of specs/, one at a time, and reports which theorem notices each.

    plant_rules.py [CRATE..] [--bugs N] [--only WORD] [--jobs N] [--seed N] [--named] [--list] [--out FILE] [--tree FOLDER]

CRATE       whose definitions get bugs (those that the theorems of `orders` and `runlaw` stand on, if none is named)
--bugs N    how many bugs a crate gets that still read as definitions (24); with more definitions one for each
--only WORD plants only in definitions whose file, line and name contain WORD; with --named, only misreadings whose name has this pattern
--jobs N    how many copies of the tree to work in side by side (1)
--seed N    another choice of bugs (1)
--named     plants the misreadings that this file names, and no others
--list      prints the bugs that there are to choose from, and tries none
--out FILE  adds a line for each bug that was tried: crate, place, kind, what was changed, outcome, what the check said first
--tree FOLDER  the repository (the one that this file stands in)

The bugs are planted in a copy whose crates below `runlaw` have their types and definitions, and no functions. So no
program is there to differ from its definition, and what notices a bug is a theorem over definitions alone:
    run law      the run law is no longer proved
    figures      a worked figure no longer holds
    laws         the laws of command lines are no longer proved
    records      what a second's records have to do with the station behind it is no longer proved
    none         all of them are still proved
    no text      the copy does not read the definition, so the bug does not count
"""

import concurrent.futures
import os
import queue
import random
import re
import shutil
import subprocess
import sys
import tempfile

import plant

BELOW = "decimals sheet strategy loops lamps records orders reply control".split()
STEPS = "strategy loops lamps orders control runlaw".split()
THEOREM = re.compile(r"\bfn (laws_hold|run_law_stands|record_laws_hold|worked_\w+)\b")
NOTICED = {"laws_hold": "laws", "run_law_stands": "run law", "record_laws_hold": "records", "worked_figures_hold": "figures", "worked_steps_hold": "figures"}

# Misreadings of a step: what is misread, and the edit of a definition.
NAMED = [
    ("a lane's occupancy is the sum of its intervals'", "loops", "Rules", "lane_occupancy seconds ts = mean_of (λ", "lane_occupancy seconds ts = sum_by (λ"),
    ("a period's occupancy is the sum of its lanes'", "loops", "Rules", "occupancy_permille = mean_of (lane_occupancy f.interval_seconds) lanes }", "occupancy_permille = sum_by (lane_occupancy f.interval_seconds) lanes }"),
    ("a period's flow is the mean of its lanes'", "loops", "Rules", "(record { flow = sum_by lane_flow lanes;", "(record { flow = mean_of lane_flow lanes;"),
    ("a period's flow counts its lanes and not its vehicles", "loops", "Rules", "(record { flow = sum_by lane_flow lanes;", "(record { flow = length lanes;"),
    ("an interval's busy milliseconds are its occupancy", "loops", "Rules", "interval_occupancy seconds busy = busy / seconds", "interval_occupancy seconds busy = busy"),
    ("as many sound as the availability are enough", "loops", "Rules", "nat_lt (availability * t.seen) (100 * t.sound)", "nat_le (availability * t.seen) (100 * t.sound)"),
    ("a lane always busy is sound", "loops", "Rules", "nat_le flow overcount && not (occupancy == 1000) && agree", "nat_le flow overcount && agree"),
    ("an empty lane beside an occupancy is sound", "loops", "Rules", "not (occupancy == 1000) && agree flow occupancy", "not (occupancy == 1000)"),
    ("a lane of unsound intervals is sound", "loops", "Rules", "is_sound f ts = list_all (is_valid f.availability) ts && is_plausible", "is_sound f ts = is_plausible"),
    ("a period has a measure whatever its lanes are", "loops", "Rules", "cond (list_all (is_sound f) lanes)", "cond true"),
    ("arrears grow by two", "control", "Metering", "min (m.arrears + 1) most_arrears", "min (m.arrears + 2) most_arrears"),
    ("arrears grow in every second", "control", "Metering", "arrears = cond goes_on m.arrears (min", "arrears = cond goes_on (m.arrears + 1) (min"),
    ("more arrears are kept", "control", "Metering", "most_arrears = 60000", "most_arrears = 60001"),
    ("arrears are cleared at entry", "control", "Steps", "(metered f c started)", "(light_step f c Red (lit Red 0 0 (clocked c.length started)))"),
    ("metering starts with one in arrears", "control", "Metering", "lasted = 0; arrears = 0 }", "lasted = 0; arrears = 1 }"),
    ("opening red counts for the red age", "control", "Metering", "started = record { light = Red; age = 0;", "started = record { light = Red; age = 1;"),
    ("a reference cycle is a second longer", "control", "Metering", "runs m = nat_lt m.lasted m.length", "runs m = nat_le m.lasted m.length"),
    ("a reference cycle starts at 0 seconds", "control", "Metering", "lasted = cond goes_on (m.lasted + 1) 1", "lasted = cond goes_on (m.lasted + 1) 0"),
    ("a new cycle is taken at once", "control", "Metering", "length = cond goes_on m.length length", "length = length"),
    ("an opening keeps its arrears", "control", "Metering", "opening m = Metering (lit Flash 1 (m.arrears - 1) m)", "opening m = Metering (lit Flash 1 m.arrears m)"),
    ("an opening needs no arrears", "control", "Metering", "(c.presence && nat_lt 0 m.arrears)", "c.presence"),
    ("an opening needs no presence", "control", "Metering", "(c.presence && nat_lt 0 m.arrears)", "(nat_lt 0 m.arrears)"),
    ("a window flash is a second longer", "control", "Metering", "flash_step (nat_lt m.age (JC f))", "flash_step (nat_le m.age (JC f))"),
    ("a window amber is a second longer", "control", "Metering", "amber_step (nat_lt m.age (JF f))", "amber_step (nat_le m.age (JF f))"),
    ("the minimum red is a second longer", "control", "Metering", "red_step (nat_lt m.age (RM f))", "red_step (nat_le m.age (RM f))"),
    ("the minimum red is a second shorter", "control", "Metering", "red_step (nat_lt m.age (RM f))", "red_step (nat_lt (m.age + 1) (RM f))"),
    ("window flash and window amber are exchanged", "control", "Metering", "flash_step (nat_lt m.age (JC f))", "flash_step (nat_lt m.age (JF f))"),
    ("a full queue comes before not wanted", "control", "Metering", "cond wanted (cond full Draining (cond opens (opening m) (red_stays m))) (Closing 1)", "cond full Draining (cond wanted (cond opens (opening m) (red_stays m)) (Closing 1))"),
    ("an opening comes before a full queue", "control", "Metering", "cond full Draining (cond opens (opening m) (red_stays m))", "cond opens (opening m) (cond full Draining (red_stays m))"),
    ("the light comes before the clock", "control", "Metering", "c.wanted c.full (c.presence && nat_lt 0 m.arrears) m", "c.wanted c.full (c.presence && nat_lt 1 m.arrears) m"),
    ("opening amber of 4 seconds", "control", "Steps", "(nat_lt t 5)", "(nat_lt t 4)"),
    ("opening amber of 6 seconds", "control", "Steps", "(nat_lt t 5)", "(nat_lt t 6)"),
    ("opening flash as long as closing flash", "control", "Steps", "(nat_lt t (T1 f)) (OpeningFlash", "(nat_lt t (T3 f)) (OpeningFlash"),
    ("opening red a second shorter", "control", "Steps", "stepped f c (OpeningRed t) = cond (nat_lt t (T2 f))", "stepped f c (OpeningRed t) = cond (nat_lt (t + 1) (T2 f))"),
    ("closing flash a second longer", "control", "Steps", "stepped f c (Closing t) = cond (nat_lt t (T3 f))", "stepped f c (Closing t) = cond (nat_le t (T3 f))"),
    ("closing is broken off when wanted", "control", "Steps", "(Closing (t + 1)) Standby", "(cond c.wanted (OpeningFlash 1) (Closing (t + 1))) Standby"),
    ("draining goes back to metering", "control", "Steps", "stepped f c Draining = cond c.wanted (cond c.cleared (OpeningAmber 1) Draining)", "stepped f c Draining = cond c.wanted (cond c.cleared (OpeningRed 1) Draining)"),
    ("a tripped station goes on by itself", "control", "Steps", "stepped f c Tripped = Tripped", "stepped f c Tripped = Standby"),
    ("closing shows red", "control", "Phases", "colour_of (stage.Closing t) = FlashingAmber", "colour_of (stage.Closing t) = Red"),
    ("a tripped station flashes", "control", "Seconds", "head_by trips = cond trips colour.Dark", "head_by trips = cond trips colour.FlashingAmber"),
    ("a tripped station can trip again", "control", "Seconds", "trip_now = cond (is_tripped m.stage) None (trip_of (m.shows g.word) m.colour)", "trip_now = trip_of (m.shows g.word) m.colour"),
    ("a trip leaves the phase as it is", "control", "Seconds", "stage_by trips = cond trips stage.Tripped (stepped f conditions m.stage)", "stage_by trips = stepped f conditions m.stage"),
    ("the strategy is never told", "control", "Seconds", "told_at st s minute (Some m) = st.next s minute m", "told_at st s minute (Some m) = s"),
    ("the strategy is told minute 0", "control", "Seconds", "told_at st s minute (Some m) = st.next s minute m", "told_at st s minute (Some m) = st.next s 0 m"),
    ("the strategy is told no measure", "control", "Seconds", "told_at st s minute (Some m) = st.next s minute m", "told_at st s minute (Some m) = st.next s minute None"),
    ("the strategy is told in every second", "control", "Seconds", "told_at st s minute None = s", "told_at st s minute None = st.next s minute None"),
    ("the strategy is asked before it is told", "control", "Seconds", "length = length_fixed m.command.centre_cycle (st.cycle strategy_now)", "length = length_fixed m.command.centre_cycle (st.cycle m.strategy)"),
    ("the minute is not taken modulo a week", "control", "Seconds", "minute_of g = g.minute % 10080", "minute_of g = g.minute"),
    ("a close one second late", "control", "Seconds", "is_whole f ss = nat_le (period_seconds f) (length ss)", "is_whole f ss = nat_lt (period_seconds f) (length ss)"),
    ("a period of one interval less", "control", "Seconds", "period_seconds f = f.draft.period_intervals * f.draft.interval_seconds", "period_seconds f = (f.draft.period_intervals - 1) * f.draft.interval_seconds"),
    ("the second of a close begins the next period", "control", "Seconds", "readings_after f ss rs = cond (is_whole f (ss ++ rs ∷ [])) [] (ss ++ rs ∷ [])", "readings_after f ss rs = cond (is_whole f (ss ++ rs ∷ [])) (rs ∷ []) (ss ++ rs ∷ [])"),
    ("the strategy's cycle comes before the centre's", "control", "Seconds", "length_fixed (Some n) cycle = n", "length_fixed (Some n) cycle = cycle"),
    ("no centre's cycle gives a cycle of 60", "control", "Seconds", "length_fixed None cycle = cycle", "length_fixed None cycle = 60"),
    ("a trip leaves the head uncut", "control", "Seconds", "is_cut = trips || m.is_cut", "is_cut = m.is_cut"),
    ("draining keeps the under-count", "control", "Seconds", "under_at before stage.Draining under = cond (is_draining before) under 0", "under_at before stage.Draining under = under"),
    ("draining holds the under-count at 0", "control", "Seconds", "under_at before stage.Draining under = cond (is_draining before) under 0", "under_at before stage.Draining under = 0"),
    ("a queue reading of 1,001 counts", "control", "Seconds", "under = counted_to (t2 f) (nat_le reading 1000 &&", "under = counted_to (t2 f) (nat_le reading 1001 &&"),
    ("a full queue from TO1 on", "control", "Seconds", "nat_lt (TO1 f) reading", "nat_le (TO1 f) reading"),
    ("a cleared queue up to TO2", "control", "Seconds", "nat_lt reading (TO2 f)", "nat_le reading (TO2 f)"),
    ("a queue count of one too many", "control", "Seconds", "counted_to most holds n = cond holds (min (n + 1) most) 0", "counted_to most holds n = cond holds (n + 1) 0"),
    ("a full queue a second early", "control", "Seconds", "full = nat_le (t1 f) queue_now.over", "full = nat_lt (t1 f) (queue_now.over + 2)"),
    ("the count of before is looked at", "control", "Seconds", "full = nat_le (t1 f) queue_now.over", "full = nat_le (t1 f) m.queue.over"),
    ("the last minute of a range counts", "control", "Seconds", "nat_le r.from minute && nat_lt minute r.to", "nat_le r.from minute && nat_le minute r.to"),
    ("local mode is wanted in standby", "control", "Seconds", "inside || (not standby && nat_lt shown", "inside || (standby && nat_lt shown"),
    ("central mode looks at the calendar", "control", "Seconds", "wanted_after f Central wanted standby inside shown = wanted", "wanted_after f Central wanted standby inside shown = wanted || inside"),
    ("a shortest service of one second more", "control", "Seconds", "nat_lt shown (service_seconds f)", "nat_le shown (service_seconds f)"),
    ("the second of a trip settles wanted", "control", "Seconds", "wanted = cond (is_tripped (stage_by trips)) m.command.wanted wanted_now", "wanted = wanted_now"),
    ("an opening is counted in every second of a window flash", "control", "Seconds", "opening_by light.Flash age = cond (age == 1) 1 0", "opening_by light.Flash age = 1"),
    ("an opening at a close is the old record's", "control", "Seconds", "openings = capped (cond closed 0 c.openings + openings_in stage)", "openings = cond closed 0 (capped (c.openings + openings_in stage))"),
    ("the seconds shown go on in standby", "control", "Seconds", "shown_after stage.Standby shown = 0", "shown_after stage.Standby shown = shown"),
    ("a period record has the cycle of before", "control", "Seconds", "(period_record_of (minute_of g) (st.cycle strategy_now)", "(period_record_of (minute_of g) (st.cycle m.strategy)"),
    ("an opening of the second of a close is the closing record's", "control", "Seconds", "minute = minute; measure = measure; cycle = cycle; openings = c.openings }", "minute = minute; measure = measure; cycle = cycle; openings = c.openings + 1 }"),
    ("an alarm record has the phase after the trip", "control", "Seconds", "(alarm_record_of m.counts (phase_of m.stage))", "(alarm_record_of m.counts (phase_of (stage_by true)))"),
    ("an alarm record has the second number of before", "control", "Seconds", "record { second = count_after c.seconds;", "record { second = c.seconds;"),
    ("an alarm tells the ordered lamp", "control", "Trips", "cond (is_in lamp lit) (record { code = Unwanted; lamp = unwanted })", "cond (is_in lamp lit) (record { code = Unwanted; lamp = lamp })"),
    ("an alarm tells the highest lamp", "control", "Trips", "lowest_unwanted lit c = cond (is_unwanted lit c Red) Red (cond (is_unwanted lit c FixedAmber) FixedAmber FlashingAmber)", "lowest_unwanted lit c = cond (is_unwanted lit c FlashingAmber) FlashingAmber (cond (is_unwanted lit c FixedAmber) FixedAmber Red)"),
    ("the trip codes are exchanged", "control", "Trips", "(record { code = Unwanted; lamp = unwanted }) (record { code = NotLit; lamp = lamp })", "(record { code = NotLit; lamp = unwanted }) (record { code = Unwanted; lamp = lamp })"),
    ("a further lamp trips nothing", "control", "Trips", "cond (lit == lamps_of c) None", "cond (lit == lamps_of c || (lit == 5)) None"),
    ("a centre's cycle outlives a reset", "control", "Lines", "      command = record { mode = Local; wanted = false; centre_cycle = None };", "      command = record { mode = Local; wanted = false; centre_cycle = m.command.centre_cycle };"),
    ("a reset keeps the mode", "control", "Lines", "      command = record { mode = Local; wanted = false; centre_cycle = None };", "      command = record { mode = m.command.mode; wanted = false; centre_cycle = None };"),
    ("a reset leaves the head cut", "control", "Lines", "      is_cut = false;", "      is_cut = m.is_cut;"),
    ("a reset opens", "control", "Lines", "      stage = stage.Standby;", "      stage = stage.OpeningFlash 1;"),
    ("a reset is taken by any station", "control", "Lines", "after_reset m = cond (is_tripped m.stage) (reset_taken m) m", "after_reset m = reset_taken m"),
    ("a reset loses the readings of the running period", "control", "Lines", "reset_taken m =\n    record {\n      strategy = m.strategy;\n      readings = m.readings;", "reset_taken m =\n    record {\n      strategy = m.strategy;\n      readings = [];"),
    ("the local-mode line keeps the centre's cycle", "control", "Lines", "commanded order.Local c = record { mode = Local; wanted = c.wanted; centre_cycle = None }", "commanded order.Local c = record { mode = Local; wanted = c.wanted; centre_cycle = c.centre_cycle }"),
    ("the off line clears the centre's cycle", "control", "Lines", "commanded order.Off c = record { mode = c.mode; wanted = false; centre_cycle = c.centre_cycle }", "commanded order.Off c = record { mode = c.mode; wanted = false; centre_cycle = None }"),
    ("the central-mode line clears the centre's cycle", "control", "Lines", "commanded order.Central c = record { mode = Central; wanted = c.wanted; centre_cycle = c.centre_cycle }", "commanded order.Central c = record { mode = Central; wanted = c.wanted; centre_cycle = None }"),
    ("the cycle line sets no wanted", "control", "Lines", "commanded (order.Cycle n) c = record { mode = c.mode; wanted = true; centre_cycle = Some n }", "commanded (order.Cycle n) c = record { mode = c.mode; wanted = c.wanted; centre_cycle = Some n }"),
    ("a refused line is obeyed", "control", "Lines", "obeyed (Ok o) (Err e) c = c", "obeyed (Ok o) (Err e) c = commanded o c"),
    ("the cycle line is taken in local mode", "control", "Lines", "in_mode Local = Some refused.LocalMode", "in_mode Local = None"),
    ("a tripped station takes lines", "control", "Lines", "refused_by tripped mode (order.Cycle n) = cond tripped (Some refused.Tripped) (in_mode mode)", "refused_by tripped mode (order.Cycle n) = in_mode mode"),
    ("local mode comes before tripped", "control", "Lines", "refused_by tripped mode order.Off = cond tripped (Some refused.Tripped) (in_mode mode)", "refused_by tripped mode order.Off = cond tripped (Some refused.LocalMode) (in_mode mode)"),
    ("a status letter of another phase", "control", "Lines", "status_letter stage.Tripped = 72", "status_letter stage.Tripped = 86"),
    ("the cycles reading has the window amber", "control", "Lines", "cycles_text (running_cycle s) (JC f)", "cycles_text (running_cycle s) (JF f)"),
    ("a reply needs a byte to spare", "control", "Lines", "cond (nat_lt room (length reply))", "cond (nat_le room (length reply))"),
    ("a fresh station is wanted", "control", "Fresh", "command = record { mode = Local; wanted = false;", "command = record { mode = Local; wanted = true;"),
    ("a fresh head is cut", "control", "Fresh", "is_cut = false;", "is_cut = true;"),
]


def without_functions(lines):
    """The lines of a source file without functions and impls; traits, types and theorems stay."""
    kept, n = [], 0
    while n < len(lines):
        line = lines[n]
        head = re.match(r"(\s*)(?:pub(?:\([a-z]+\))? )?(?:(trait)|(impl)|(?:const )?(fn))\b", line)
        if not head:
            kept.append(line)
            n += 1
            continue
        end = n
        while not re.match(head[1] + r"\}$|" + head[1] + r".*\{\}$", lines[end]):
            end += 1
        if head[2] or THEOREM.search(line) or "impl Model for" in line:
            kept.extend(lines[n : end + 1])
        else:
            while kept and re.match(r"\s*(//|#\[)", kept[-1]):
                kept.pop()
        n = end + 1
    return kept


def without_names(text):
    """The text without imports of functions, whose names begin with a small letter, but for the theorems'."""

    def stays(name):
        return name and (name[0].isupper() or name in ("self", "fmt") or name in NOTICED)

    def shorter(it):
        several = re.match(r"((?:pub )?use [\w:]+)::\{([^}]*)\};", it[0], re.S)
        if several:
            names = [name for name in map(str.strip, several[2].split(",")) if stays(name)]
            return f"{several[1]}::{{{', '.join(names)}}};" if names else ""
        one = re.match(r"(?:pub )?use [\w:]+::(\w+);", it[0])
        return it[0] if not one or stays(one[1]) else ""

    return re.sub(r"^(?:pub )?use [^;]*;", shorter, text, flags=re.M)


def laws_alone(folder):
    """Takes the functions out of the crates below `runlaw`, with what is proved of them."""
    for crate in BELOW:
        for file in plant.sources(f"{folder}/crates/{crate}/src"):
            text = without_names("\n".join(without_functions(open(file, encoding="utf-8").read().split("\n"))))
            with open(file, "w", encoding="utf-8") as it:
                it.write(text)
        proofs = f"{folder}/crates/{crate}/proofs"
        if crate != "orders":  # the laws of command lines are the only theorem below `runlaw`
            shutil.rmtree(proofs, ignore_errors=True)
        for place, folders, _ in list(os.walk(proofs, topdown=False)):
            for name in folders:
                if os.path.isdir(f"{place}/{name}") and name not in NOTICED and not any(os.path.isdir(f"{place}/{name}/{it}") for it in NOTICED):
                    shutil.rmtree(f"{place}/{name}")
        shutil.rmtree(f"{folder}/crates/{crate}/must-fail", ignore_errors=True)


def parts(text, start, many):
    """The ends of so many arguments that stand in a text from a place on, or None."""
    ends, n = [], start
    for _ in range(many):
        while n < len(text) and text[n] == " ":
            n += 1
        begin, depth = n, 0
        while n < len(text) and (depth or text[n] not in " )};"):
            depth += (text[n] in "({") - (text[n] in ")}")
            n += 1
        if n == begin or depth:
            return None
        ends.append((begin, n))
    return ends


SAME_KIND = ["T1 T2 T3 JC JF RM t1 t2 TO1 TO2".split(), "JC JF RM".split(), "over under".split(), "seconds periods openings shown".split(), "age length lasted arrears".split(), "seen sound busy_ms".split(), "flow occupancy".split()]
FIGURES = set(SAME_KIND[0])


def changes(lines, n, variants):
    """The bugs of one line of a definition: kind, and the line or lines that stand in its place."""
    line = lines[n]
    start = line.index(" = ") + 3 if " = " in line else 0

    def put(kind, begin, end, new):
        return kind, 1, line[:begin] + new + line[end:]

    def found(pattern):
        return (it for it in re.finditer(pattern, line) if it.start() >= start)

    for it in found(r"(?<![\w.])\d+\b"):
        yield put("constant", it.start(), it.end(), str(int(it[0]) + 1))
        if int(it[0]):
            yield put("constant", it.start(), it.end(), str(int(it[0]) - 1))
    for old, new in (("nat_lt", "nat_le"), ("nat_le", "nat_lt")):
        for it in found(rf"\b{old}\b"):
            yield put("comparison", it.start(), it.end(), new)
    for old, new in ((" && ", " || "), (" || ", " && "), (" + ", " - "), (" - ", " + "), (" * ", " + "), (" / ", " % "), (" % ", " / ")):
        for it in found(re.escape(old)):
            yield put("operator", it.start(), it.end(), new)
    for old, new in (("min", "max"), ("max", "min"), ("true", "false"), ("false", "true"), ("take", "drop"), ("drop", "take")):
        for it in found(rf"(?<![\w.]){old}(?![\w.])"):
            yield put("operator" if old not in ("true", "false") else "condition", it.start(), it.end(), new)
    for it in found(r"\bnot "):
        yield put("condition", it.start(), it.end(), "")
    for it in found(r"\bcond "):
        three = parts(line, it.end(), 3)
        if three:
            (_, _), (a, b), (c, d) = three
            yield put("swapped cases", a, d, f"{line[c:d]} {line[a:b]}")
    for it in found(r"\b(?:(\w+)\.)?([A-Z]\w*)\b"):
        for other in variants.get(it[2], []):
            yield put("another case", it.start(2), it.end(2), other)
    for it in found(r"(?<=\.)(\w+)\b|\b(T1|T2|T3|JC|JF|RM|t1|t2|TO1|TO2)\b"):
        for alike in SAME_KIND:
            if it[0] in alike and (it[0] in FIGURES) == (it[2] is not None):
                for other in alike:
                    if other != it[0]:
                        yield put("another value", it.start(), it.end(), other)
    here, behind = (re.match(r"(\s+)(\w+) = (.+);$", it) for it in (line, lines[n + 1] if n + 1 < len(lines) else ""))
    if here and behind and here[3] != behind[3]:
        yield "swapped write", 2, f"{here[1]}{here[2]} = {behind[3]};\n{behind[1]}{behind[2]} = {here[3]};"


def edits_of(tree, crate, variants, only):
    """The bugs that can be planted in a crate's definitions, by definition."""
    found = {}
    folder = f"{tree}/crates/{crate}"
    for name in sorted(os.listdir(f"{folder}/specs")):
        if not name.endswith(".antt") or name in ("Bounds.antt", "Worked.antt", "Steps.antt" if crate == "runlaw" else "", "RunLaw.antt", "Laws.antt", "History.antt"):
            continue
        lines = open(f"{folder}/specs/{name}", encoding="utf-8").read().split("\n")
        definition = None
        for n, line in enumerate(lines):
            head = re.match(r"\s*(?:abbrev |unfoldable )?pub (\w+) : ", line)
            if head or re.match(r"\s*pub record ", line):
                definition = head[1] if head else None
            if head or not definition or not line.strip() or line.strip().startswith(("--", "use ", "module ")):
                continue
            if only and only not in f"specs/{name}:{n + 1} {definition}":
                continue
            for kind, many, new in changes(lines, n, variants):
                text = "\n".join(lines[:n] + [new] + lines[n + many :])
                edit = plant.Bug(crate, f"specs/{name}", definition, n, kind, "\n".join(lines[n : n + many]), new, text)
                found.setdefault((name, definition), []).append(edit)
    return found


# names that an edit may bring in, and where they come from
IMPORTS = {
    "nat_le": "Rattle.std.specs.Prelude",
    "true": "Rattle.std.specs.Prelude",
    " - ": "Rattle.std.specs.Prelude",
    " || ": "Rattle.std.specs.Prelude",
    "lit": "Rattle.control.specs.Metering",
    "light_step": "Rattle.control.specs.Metering",
    "clocked": "Rattle.control.specs.Metering",
    "JF": "Rattle.control.specs.Figures",
    "Red": "Rattle.control.specs.declared.stage.Light.TheVariants",
}


def imported(text, new):
    """The text with imports of the names that the edit brings in."""
    for name, module in IMPORTS.items():
        if not re.search(rf"(?<![\w.]){re.escape(name)}(?![\w])" if name.strip() == name else re.escape(name), new):
            continue
        word = {" - ": "◌-◌", " || ": "◌||◌"}.get(name, name)
        own = re.search(rf"^use {re.escape(module)}\.\{{([^}}]*)\}}", text, re.M)
        if re.search(rf"^(?:abbrev |unfoldable )?pub {re.escape(word)} :", text, re.M) or re.search(rf"^use [^\n]*[{{ ,]{re.escape(word)}[,}}]", text, re.M):
            continue
        if own:
            text = text[: own.end() - 1] + f", {word}" + text[own.end() - 1 :]
        else:
            text = re.sub(r"^use ", f"use {module}.{{{word}}}\nuse ", text, count=1, flags=re.M)
    return text


def named(tree, only):
    found = {}
    for what, crate, file, old, new in NAMED:
        if not re.search(only, what):
            continue
        path = f"specs/{file}.antt"
        text = open(f"{tree}/crates/{crate}/{path}", encoding="utf-8").read()
        if text.count(old) != 1:
            print(f"{what}: its text stands in {path} {text.count(old)} times", file=sys.stderr)
            continue
        after = imported(text.replace(old, new), new)
        line = text[: text.index(old)].count("\n")
        found[what] = [plant.Bug(crate, path, what, line, "named", old, new, after)]
    return found


def outcome_of(ran, others):
    said = (ran.stdout + others).split("\n")
    theorems = sorted({NOTICED[it] for it in re.findall(r"fn \w+::(?:\w+::)*(\w+): (?:not proved|no proof)", ran.stdout + others) if it in NOTICED})
    first = next((it for it in said if re.match(r"(\./)?\S+:\d+:\d+: error", it) or "error[" in it), "")
    if theorems:
        return " and ".join(theorems), first
    if ran.returncode == 0 and "not-proved" not in others:
        return "none", ""
    return "no text", first or said[-1]


def tried(edit, copies):
    copy = copies.get()
    try:
        file = f"{copy}/crates/{edit.crate}/{edit.file}"
        was = open(file, encoding="utf-8").read()
        with open(file, "w", encoding="utf-8") as it:
            it.write(edit.lines)
        try:
            # the laws of command lines stand in `orders`, below the run law
            if edit.crate in ("orders", "decimals"):
                ran = plant.run(["rt", "check"], f"{copy}/crates/orders")
                if ran.returncode:
                    return outcome_of(ran, "")
            return outcome_of(plant.run(["rt", "check"], f"{copy}/crates/runlaw"), "")
        finally:
            with open(file, "w", encoding="utf-8") as it:
                it.write(was)
    finally:
        copies.put(copy)


def main():
    words = plant.arguments(__doc__, 1)
    words.add_argument("--named", action="store_true")
    given = words.parse_args()

    variants = {}
    for case, others in plant.Shapes(f"{given.tree}/crates").variants.items():
        variants.setdefault(case.split("::")[1], []).extend(it.split("::")[1] for it in others)
    if given.named:
        chosen = {"named": named(given.tree, given.only)}
    else:
        chosen = {crate: edits_of(given.tree, crate, variants, given.only) for crate in given.crates or STEPS}
    if given.list:
        for edit in (it for found in chosen.values() for some in found.values() for it in some):
            print(plant.row_of(edit))
        return 0

    room = tempfile.mkdtemp(prefix="misread-")
    out = open(given.out, "a", encoding="utf-8") if given.out else None
    copies = queue.Queue()
    try:
        for k in range(given.jobs):
            shutil.copytree(given.tree, f"{room}/{k}", ignore=shutil.ignore_patterns(".git", "target", "out"), symlinks=True)
            laws_alone(f"{room}/{k}")
            before = plant.run(["rt", "check"], f"{room}/{k}/crates/runlaw")
            if before.returncode:
                print(before.stdout[-2000:], file=sys.stderr)
                sys.exit("the theorems are not proved without bugs")
            copies.put(f"{room}/{k}")
        with concurrent.futures.ThreadPoolExecutor(given.jobs) as pool:
            for name, found in chosen.items():
                chance = random.Random(f"{given.seed} {name}")
                wanted = 0 if given.named else given.bugs
                counts = plant.try_in_turn(found, wanted, pool, given.jobs, chance, lambda edit: tried(edit, copies), out)
                print(plant.told(name, found, counts), flush=True)
    finally:
        shutil.rmtree(room, ignore_errors=True)
    return 0


if __name__ == "__main__":
    sys.exit(main())
