#!/usr/bin/env python3
"""dpkg_driver.py, for trials: STATE/carried-out has a line for each request that was carried out, and with
`--fail LANE:NUMBER[:TIMES]` that one fails, the first TIMES times or always."""

import os
import sys

import common  # noqa: F401  (the drivers' folder)
from dpkg_driver import Rehearsal
from driver import Worker, drive, parser
from system import Failed


class Logged(Worker):
    def __init__(self, options):
        self.rehearsal = Rehearsal(options.dir, options.state)
        self.begin = self.rehearsal.begin
        self.log = os.open(os.path.join(options.state, "carried-out"), os.O_WRONLY | os.O_CREAT | os.O_APPEND)
        self.fails = {}
        for word in options.fail:
            lane, number, *times = word.split(":")
            self.fails[lane, int(number)] = int(times[0]) if times else float("inf")

    def work(self, request):
        thing = (request.lane, request.number)
        if self.fails.get(thing, 0) > 0:
            self.fails[thing] -= 1
            raise Failed("by --fail")
        self.rehearsal.work(request)
        words = [request.lane, str(request.number), request.kind] + ["again"] * request.again
        os.write(self.log, (" ".join(words) + "\n").encode("utf-8", "surrogateescape"))


options = parser(__doc__)
options.add_argument("--state", default="state")
options.add_argument("--fail", action="append", default=[])
options = options.parse_args()
sys.exit(drive(options, Logged(options)))
