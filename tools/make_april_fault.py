#!/usr/bin/env python3
"""Writes what a recorder would have seen in April: the plan examples/april.csv on a station in which every cycle that the
centre sends begins the running red anew.

    make_april_fault.py > examples/april-fault.log

The station is the model with that one rule broken. trial judge examples/april.csv examples/april-fault.log finds it.
"""

import os
import sys

import model
from model import METERED_RED, METERING, Station

order = Station.order


def restart_red(self, name, value):
    order(self, name, value)
    if name == "cycle" and self.phase == METERING and self.metering.light == METERED_RED:
        self.metering.shown = 0


Station.order = restart_red
top = os.path.dirname(os.path.dirname(os.path.abspath(__file__)))
with open(f"{top}/examples/april.csv", "rb") as plan:
    sys.exit(model.run(plan, model.Trial(sys.stdout), sys.stderr))
