#!/usr/bin/env python3
"""Writes the plan examples/april.csv to standard output.

    make_april.py > examples/april.csv
"""

HEAD = """\
# Monday 07:00: the centre sends its cycle every three seconds and reads the status in
# between, while a car stands at red. A new cycle must not restart the running reference
# cycle, or the car would never be let go.
# One motorway lane, periods of a minute. Window flash 4, window amber 3, minimum red 4.
sheet;4;30;4;20;4;3;4;800;20;400;30;15;1;20;3;80;60;70;200;30;900;600
strategy;alinea
head;relay
calendar
# A cycle line in local mode is refused. The centre takes over and orders 40 seconds.
line;PA, AM=F.1, CY=40
line;PA, AM=PIL, AF=PF/0
line;PA, AM=F.1, CY=40
# Seconds 1 to 39: opening flash, opening amber, opening red. A car comes to the line.
seconds;30;0;200;ok;420;1|1|230
line;P
seconds;5;0;200;ok;420;1|1|230
seconds;4;1;200;ok;420;1|1|230
line;PE
# Second 40: metering, and the first reference cycle of 40 seconds begins. The first car
# is let go in second 44, after minimum red. The next one draws up behind it; it is let
# go in second 80, when the next reference cycle begins.
"""

# What happens in a second, told before the group of three seconds that it lies in.
STORY = {
    79: "# Second 80: the second reference cycle, and the second car.",
    118: "# Second 120: the third car. It has waited 33 seconds, 40 less 4 and 3. A period\n"
    "# closes in this second; the opening counts in the next one.",
    160: "# Second 160: the fourth car. From here on the centre sends 50, 20 and 30 in turn.\n"
    "# A reference cycle keeps the length that it had when it began: now 50.",
    208: "# Second 210: the fifth car, after 43 seconds. The last value sent was 20.",
    229: "# Second 230: the sixth car, after 13 seconds. The last value sent was 30.",
    259: "# Second 260: the seventh car, after 23 seconds. The last value sent was 50.",
    310: "# Second 310: the eighth car, after 43 seconds.",
}

TAIL = """\
# The centre ends the service. The window runs out, red lasts its 4 seconds, and closing
# begins in second 321: 20 seconds, then standby.
line;PM, EXTNORM
seconds;8;1;200;ok;425;1|1|230
line;PE
seconds;20;0;200;ok;425;1|1|230
line;P
line;PE
second;0;200;ok;425;1|1|230
line;P
line;PA, AM=PIL, AF=PF/1
seconds;4;0;200;ok;425;1|1|230
"""


def cycle_sent(second):
    """What the centre sends before a second: 40 at first, then three values in turn."""
    return 40 if second < 160 else (50, 20, 30)[(second - 160) // 3 % 3]


def main():
    print(HEAD, end="")
    for second in range(40, 313, 3):
        if second in STORY:
            print(STORY[second])
        minute = 420 + (second - 1) // 60
        reading = "PE" if second % 2 == 0 else "P"
        print(f"line;PA, AM=F.1, CY={cycle_sent(second)}")
        print(f"seconds;2;1;200;ok;{minute};1|1|230")
        print(f"line;{reading}")
        print(f"second;1;200;ok;{minute};1|1|230")
    print(TAIL, end="")


if __name__ == "__main__":
    main()
