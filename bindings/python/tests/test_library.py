"""Reads the runs of literals of Python's own library, and compares what comes out with Python's own reading.

Each run is compared with what `ast` gives for it, as the oracle's survey does: a disagreement must belong to a class of
docs/DIFFERENCES.md. One script in ten is taken; the variable STUMPGARRET_SHARE names another share, 1 for all of them.
"""

import collections
import os
import tokenize
import unittest

from by_python import encoded, runs
from support import load, stumpgarret
from stumpgarret import Bytes, Refusal, Text, Undecodable, read, text_of

readings = load("oracle/readings.py")
survey = load("oracle/survey")

SHARE = int(os.environ.get("STUMPGARRET_SHARE", "10"))
# Refusals that the port adds to the Rust's (RULES 1.1), of which the survey does not know.
ADDED = (3, 5, 28)


def part_of(record, first):
    """A record as the oracle has it, in a run whose first literal has the place `first`."""
    span = record.start - first, record.end - first
    if isinstance(record, Text):
        return readings.Literal(record.text, record.u_mark, span)
    if isinstance(record, Bytes):
        return readings.Literal(record.value, False, span)
    spec = None if record.spec is None else [part_of(part, first) for part in record.spec]
    return readings.Field(record.expression, ord(record.conversion or "\0"), spec, span)


class Library(unittest.TestCase):
    def test_runs(self):
        self.count = collections.Counter()
        for path in survey.library_paths()[::SHARE]:
            with self.subTest(script=str(path)):
                self.compare_script(path.read_bytes())
        print("library:", ", ".join(f"{count} {name}" for name, count in self.count.most_common()))
        self.assertGreater(self.count["runs"], 100)

    def compare_script(self, content):
        try:
            text = text_of(content)
            for run in runs(text):
                self.compare_run(encoded(text), run)
        except (Undecodable, tokenize.TokenError, IndentationError):
            self.count["scripts that Python does not cut into tokens"] += 1

    def compare_run(self, script, run):
        self.count["runs"] += 1
        source = script[run[0].start : run[-1].end].decode()
        try:
            ours = [part_of(record, run[0].start) for record in read(script, run).records]
        except Refusal as refusal:
            if refusal.number in ADDED:
                self.count[f"runs of the class: {refusal.name}"] += 1
                return
            ours = readings.Refused(f"{refusal.number} at {refusal.place}")
        python = readings.python_reading(source)
        found = survey.classes(source, python, ours)
        shown = f"{source:.500}\n  Python {readings.shown(python):.500}\n  read   {readings.shown(ours):.500}"
        self.assertIsNotNone(found, shown)
        self.count.update(f"runs of the class: {name}" for name in found)


if __name__ == "__main__":
    unittest.main()
