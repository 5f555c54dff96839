"""The figures of one run, as bench writes them."""

import csv
from pathlib import Path

SYSTEMS = (1, 2, 3, 4)
SYSTEM_NAMES = {1: "BT.709, 8 bits", 2: "BT.709, 10 bits", 3: "BT.2020, 10 bits", 4: "BT.2020, 12 bits"}


class Figures:
    def __init__(self, path):
        self.values, self.versions = {}, {}
        with open(path, newline="") as lines:
            for line in csv.DictReader(lines):
                self.add(line)

    def add(self, line):
        if line["table"] == "version":
            self.versions[line["name"]] = line["value"]
            return
        key = line["table"], int(line["width"]), line["set"], int(line["system"]), line["way"], line["name"]
        self.values[key] = float(line["value"])

    def time(self, width, rows_from, system, way, name):
        return self.values["time", width, rows_from, system, way, name]

    def off(self, system, way, name):
        """How many in a hundred are not exact, and the worst distance."""
        at = 7680, "compared", system, way, name
        return self.values[("off", *at)], int(self.values[("worst", *at)])

    def call(self, system, name):
        return self.values["call", 1, "call", system, "call", name]

    def call_names(self):
        return [key[-1] for key in self.values if key[0] == "call" and key[3] == 1]

    def constant(self, system, name):
        return self.values["constant", 1, "call", system, "call", name]

    def read(self, width, system, name):
        return self.values["read", width, "in turn", system, "read", name]

    def depth(self, system, name):
        return self.values["depth", 7680, "cache", system, "other depth", name]

    def move(self, row_bytes, name):
        return self.values["move", row_bytes, "memory", 0, "move", name]


def counts(path):
    """Instructions a sample by system, way and name; nothing where they were not counted."""
    if not Path(path).exists():
        return {}
    with open(path, newline="") as lines:
        return {(int(c["system"]), c["way"], c["name"]): float(c["instructions"]) for c in csv.DictReader(lines)}
