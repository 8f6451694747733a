"""What is told while long work goes on, by ./fields while it builds and by ./test, and what it took."""

import os
import pathlib
import pty
import subprocess
import tempfile
import time
import unittest
import unittest.mock

from support import CLONE, TESTS

LINES = ["logic=proved functions=1", "crate definition: modules loaded=0 checked=7", "logic=proved functions=0"]
LINES += ["fn utf8::class: proved", "crate utf8: modules loaded=4 checked=3", "axioms std: none reached", "logic=proved functions=2"]
LINES += ["library utf8: modules loaded=7 checked=0", "logic=proved functions=2", "crate x: modules loaded=0 checked=1", "logic=not-proved"]
TOLD = ["1 of 9 crates proved: definition", "2 of 9 crates proved: utf8"]
PROGRESS = [TESTS.parent / "progress", "9", "1"]


class Progress(unittest.TestCase):
    def test_log(self):
        """A line for each crate, however long it takes."""
        script = "printf '%s\\n' \"$@\"; sleep 2.5"
        with subprocess.Popen(["sh", "-c", script, "sh", *LINES], stdout=subprocess.PIPE) as lines:
            ran = subprocess.run(PROGRESS, stdin=lines.stdout, capture_output=True, text=True)
        self.assertEqual((ran.returncode, ran.stdout, ran.stderr.splitlines()), (0, "", TOLD))

    def test_terminal(self):
        """There a line after each time without one, too."""
        ours, terminal = pty.openpty()
        with subprocess.Popen(["sh", "-c", f"printf '%s\\n' '{LINES[1]}' '{LINES[2]}'; sleep 4"], stdout=subprocess.PIPE) as lines:
            subprocess.run(PROGRESS, stdin=lines.stdout, stderr=terminal, check=True)
        os.close(terminal)
        told = os.read(ours, 10_000).decode().splitlines()
        os.close(ours)
        self.assertEqual(told[0], TOLD[0])
        self.assertGreaterEqual(len(told), 2)
        for line in told[1:]:
            self.assertRegex(line, r"^\.\.\. crate 2 of 9 is being proved, 0 min \d s in all so far$")


class InMemory(unittest.TestCase):
    """bindings/in-memory."""

    def run_with(self, script, **variables):
        environment = {name: value for name, value in os.environ.items() if name != "TMPDIR"}
        words = [CLONE / "bindings/in-memory", "sh", "-c", script]
        ran = subprocess.run(words, env={**environment, **variables}, capture_output=True, text=True)
        self.assertEqual(ran.stderr, "")
        return ran.returncode, ran.stdout.strip()

    def test_status(self):
        self.assertEqual(self.run_with("exit 3"), (3, ""))

    def test_told(self):
        """A folder that is named already stays."""
        self.assertEqual(self.run_with("echo $TMPDIR", TMPDIR="/tmp"), (0, "/tmp"))

    def test_own(self):
        """Else it is one in memory, which others can reach into and which is gone afterwards; or none, where memory has no room."""
        status, told = self.run_with('echo $TMPDIR; test -z "$TMPDIR" || stat -c %a "$TMPDIR"')
        folder, *mode = told.split()[:2] or [""]
        self.assertEqual((status, mode), (0, ["711"] if folder else []))
        self.assertFalse(folder and pathlib.Path(folder).exists())
        self.assertTrue(not folder or folder.startswith("/dev/shm/"))


# What ./test calls beside rt, bindings/in-memory and .ci/times, in the order of its lines.
LIBRARY = "bindings/library"
PYTHON = [f"crates/{one}.py" for one in ("definition/blanks", "definition/rows", "try_leaves/expected", "try_readings/expected")]
TESTED = ["oracle/test", "bindings/c/test", "bindings/rust/test", "bindings/python/test"]
BESIDE = [LIBRARY, *PYTHON, *(f"{one} target/staticlib/libstumpgarret.a" for one in TESTED), "bench/run --short"]
TIMES = "What it took, in seconds:"
EXPECTED = ["expected of try_leaves", "expected of try_readings"]
PARTS = ["library", "blanks", "rows", *EXPECTED, "oracle", "bindings/c", "bindings/rust", "bindings/python", "bench"]


class Test(unittest.TestCase):
    """./test, where all that it calls is a stand-in that says its words, but for what says the times."""

    def setUp(self):
        self.clone = pathlib.Path(self.enterContext(tempfile.TemporaryDirectory()))
        for name in "test", "bindings/in-memory", ".ci/times":
            self.write(name, (CLONE / name).read_text())
        for name in "prepare", LIBRARY, *TESTED, "bench/run":
            self.write(name, f'#!/bin/sh\necho "$(echo {name} "$@")"\n')
        for name in PYTHON:
            self.write(name, f"print('{name}')\n")

    def write(self, name, content):
        path = self.clone / name
        path.parent.mkdir(parents=True, exist_ok=True)
        path.write_text(content)
        path.chmod(0o755)

    def run_with(self, rt, *words):
        """Exit status, and each line with the seconds since the first."""
        self.write("bin/rt", f"#!/bin/sh\n{rt}")
        variables = {**os.environ, "PATH": f"{self.clone}/bin:{os.environ['PATH']}"}
        streams = {"stdout": subprocess.PIPE, "stderr": subprocess.STDOUT, "text": True}
        with subprocess.Popen([self.clone / "test", *words], env=variables, **streams) as ran:
            lines = [(line.rstrip("\n"), time.monotonic()) for line in ran.stdout]
        return ran.returncode, [(line, told - lines[0][1]) for line, told in lines]

    def lines_with(self, rt, *words):
        status, lines = self.run_with(rt, *words)
        return status, [line for line, _ in lines]

    def test_as_they_come(self):
        status, lines = self.run_with("echo one $*; sleep 4; echo two >&2; echo '7 passed, 0 failed'")
        told = [line for line, _ in lines]
        before = ["prepare", "one ci", "two", *BESIDE, TIMES]
        self.assertEqual((status, told[: len(before)], told[-1]), (0, before, "7 passed, 0 failed"))
        self.assertGreater(lines[2][1] - lines[1][1], 1)
        parts = [line.rsplit(None, 1) for line in told[len(before) + 3 : -1]]
        self.assertEqual([name for name, _ in parts], ["prepare", "rt ci", *PARTS, "whole"])
        self.assertGreaterEqual(int(parts[1][1]), 4)
        self.assertEqual([line for line in told if "passed" in line], told[-1:])

    def test_quick(self):
        status, told = self.lines_with("echo rt $*; echo 'logic=proved functions=2'", "quick")
        self.assertEqual((status, told[:2], told[3 : 4 + len(BESIDE)]), (0, ["prepare", "rt all check"], [*BESIDE, TIMES]))
        self.assertRegex(told[-1], "^quick: passed; the wrong edits were left out")
        self.assertEqual(self.lines_with("echo one; exit 1", "quick"), (1, ["prepare", "one"]))

    def test_unknown_word(self):
        for words in ["quik"], ["quick", "quick"], ["--quick"]:
            status, told = self.lines_with("echo one", *words)
            self.assertEqual((status, told), (2, [f"usage: {self.clone}/test [quick]"]))

    def test_count_only_if_all_passed(self):
        for name in LIBRARY, *TESTED, "bench/run":
            at = [line.split()[0] for line in BESIDE].index(name)
            stands = (self.clone / name).read_text()
            self.write(name, stands + "exit 1\n")
            for word in [], ["quick"]:
                status, told = self.lines_with("echo one; echo '7 passed, 0 failed'", *word)
                self.assertEqual((status, told), (1, ["prepare", "one", *BESIDE[: at + 1]]))
            self.write(name, stands)

    def test_two_at_a_time(self):
        """The bindings run beside the oracle, one after the other; the bench when all are done."""
        for name in *TESTED, "bench/run":
            self.write(name, f'#!/bin/sh\necho begins {name} >> met\nsleep 0.5\necho ends {name} >> met\necho {name} "$@"\n')
        status, told = self.lines_with("echo one; echo '7 passed, 0 failed'")
        self.assertEqual((status, told[: 3 + len(BESIDE)]), (0, ["prepare", "one", *BESIDE, TIMES]))
        met = (self.clone / "met").read_text().splitlines()
        first = TESTED[:2]
        self.assertEqual(set(met[:2]), {f"begins {name}" for name in first})
        alone = [*TESTED[1:], "bench/run"]
        self.assertEqual([line for line in met if "oracle" not in line], [f"{does} {name}" for name in alone for does in ("begins", "ends")])

    def test_jobs(self):
        """rt chooses how many checks it does at a time, unless RT_JOBS says it."""
        told_jobs = "echo jobs $RT_JOBS; echo '7 passed, 0 failed'"
        with unittest.mock.patch.dict(os.environ):
            os.environ.pop("RT_JOBS", None)
            self.assertEqual(self.lines_with(told_jobs)[1][1], "jobs")
            os.environ["RT_JOBS"] = "3"
            self.assertEqual(self.lines_with(told_jobs)[1][1], "jobs 3")

    def test_temporary_files(self):
        """Those of rt ci stay where it puts them; those of the quick check are in memory, where that has room."""
        told_place = "echo place $TMPDIR; echo '7 passed, 0 failed'"
        with unittest.mock.patch.dict(os.environ):
            os.environ.pop("TMPDIR", None)
            self.assertEqual(self.lines_with(told_place)[1][1], "place")
            self.assertRegex(self.lines_with(told_place, "quick")[1][1], "^place(?: /dev/shm/.*)?$")

    def test_failed(self):
        status, told = self.lines_with("echo one; echo '6 passed, 1 failed'; exit 1")
        self.assertEqual((status, told), (1, ["prepare", "one", "6 passed, 1 failed"]))

    def test_bad_edits(self):
        """rt ci passes over an edit that it cannot try, and ./test does not."""
        for said, passes in (("must-fail edits: 3 refused; every proof", True), ("must-fail edits: 3 refused, 1 of them only by a limit; every", True),
                             ("must-fail edits: 3 refused, 12 bad; every proof", False), ("must-fail edits: 0 refused, 1 bad; done", False)):
            status, told = self.lines_with(f"echo 'rt: ok; handles allowed: none; {said}'; echo '7 passed, 0 failed'")
            last = "7 passed, 0 failed" if passes else "rt ci could not try every wrong edit: its lines BAD EDIT say which"
            self.assertEqual((status, told[-1], len(told) > 3), (not passes, last, passes))

    def test_no_count(self):
        self.assertEqual(self.lines_with("echo one; exit 1"), (1, ["prepare", "one"]))
        status, told = self.lines_with("echo one")
        self.assertEqual((status, told[-1]), (1, "rt ci did not end with its count: one"))


LOG = """\
library std: modules loaded=0 checked=0
rt: definition proved
rt: utf8 is kept: an earlier run on this machine proved the same files over the same libraries
rt: utf8: its tests are proved
rt: why proved
rt: must-fail definition/a_b.edit: refused, as it must be: specs/Chars.antt:10:5: error: no
rt: must-fail definition/c.edit: refused, as it must be
rt: utf8: 1 of its 1 must-fail edits were tried by an earlier run on this machine, and nothing that they stand on has changed
rt: must-fail utf8/d.edit: refused, as it must be (only by a limit of the prover): src/lib.rt:3:1: error: long
rt: must-fail utf8/e.edit: BAD EDIT: no such file
rt: why ran, and wrote what its file stdout has
rt: why ran (built by Rattle's own compiler), and wrote what its file stdout has
rt: ok; handles allowed: none; must-fail edits: 3 refused, 1 bad; every proof and must-fail edit was done in this run
6 passed, 0 failed
test: rt ci (215 s)
test: bindings/c (12 s)
"""
TABLE = """\
What it took, in seconds:
crate                        proof       run     edits
definition                  proved         -         2
utf8                          kept         -         1
why                         proved         2         -
together                         3         2         3
part                          time
rt ci                          215
bindings/c                      12
whole                          230
"""


class Times(unittest.TestCase):
    def test_table(self):
        ran = subprocess.run([CLONE / ".ci/times", "/dev/stdin", "230"], input=LOG, capture_output=True, text=True)
        self.assertEqual((ran.returncode, ran.stdout, ran.stderr), (0, TABLE, ""))


if __name__ == "__main__":
    unittest.main()
