"""Lists the literals of Python's own library, and compares them with what Python's tokenize finds.

At the first literal of every run of adjacent ones, the same literals must be listed, and the run must stop where
nothing more is passed over; and the cut of the whole script must have all literals and go to its end. Where the two differ on purpose, the class has a row in docs/DIFFERENCES.md, which is
checked too. A script in ten is taken; the variable STUMPGARRET_SHARE names another share, 1 for all of them.
"""

import collections
import itertools
import os
import re
import tokenize
import unittest

from by_python import strings
from support import CLONE, load, stumpgarret

differences = load("oracle/differences")
survey = load("oracle/survey")

SHARE = int(os.environ.get("STUMPGARRET_SHARE", "10"))
BLANKS = re.compile(rb"(?:[ \t\n]|#[^\n]*)*")
ENDS_A_LINE = {tokenize.NEWLINE, tokenize.INDENT, tokenize.DEDENT}
STATEMENT = "newline that ends a statement"
BACKSLASH = "backslash-newline between literals"
FORM_FEED = "form feed between literals"
CARRIAGE_RETURN = "carriage return between literals"
TOO_LONG = "49: script over 1,048,576 bytes"
CLASSES = {b"\\": BACKSLASH, b"\f": FORM_FEED, b"\r": CARRIAGE_RETURN}

# What differs, the smallest script that shows it, the offset, the literals by tokenize, and those listed.
ROWS = [
    (STATEMENT, "'a'\n'b'", 0, "'a'", "'a', 'b'"),
    (BACKSLASH, "'a' \\\n'b'", 0, "'a', 'b'", "'a'"),
    (FORM_FEED, "'a' \f'b'", 0, "'a', 'b'", "'a'"),
    (CARRIAGE_RETURN, "('a'\r'b')", 1, "'a', 'b'", "'a'"),
    (TOO_LONG, "'" + 1_048_575 * "a" + "'", 0, "'" + 1_048_575 * "a" + "'", "refused: 49 at 0"),
]


def chains(text):
    """Runs of adjacent literals by tokenize, those in one list that only line ends and comments part."""
    chain, run = [], []
    for token in itertools.chain(strings(text), [None]):
        if isinstance(token, stumpgarret.Literal):
            run.append(token)
            continue
        if run:
            chain.append(run)
            run = []
        if token not in ENDS_A_LINE and chain:
            yield chain
            chain = []


def expected(source, run, later):
    """The literals that are listed at the first of a run which others follow, where they stop, and why they differ."""
    listed = []
    for literal in [*run, *later]:
        if listed and BLANKS.match(source, listed[-1].end).end() != literal.start:
            break
        listed.append(literal)
    stop = BLANKS.match(source, listed[-1].end).end()
    if len(listed) < len(run):
        return listed, stop, CLASSES[source[stop : stop + 1]]
    return listed, stop, STATEMENT if len(listed) > len(run) else None


def shown(source, offset):
    """The literals that are listed there, for a table."""
    try:
        found = stumpgarret.literals(source, offset).literals
    except stumpgarret.Refusal as refusal:
        return f"refused: {refusal.number} at {refusal.place}"
    return texts(source, found)


def texts(source, found):
    return ", ".join(source[literal.start : literal.end] for literal in found)


class Rows(unittest.TestCase):
    def test_every_class_has_its_row(self):
        document = (CLONE / "docs/DIFFERENCES.md").read_text(encoding="utf-8").splitlines()
        table = differences.Table(document)
        for title, script, offset, python, ours in ROWS:
            text = stumpgarret.text_of(script)
            first = next(chain[0] for chain in chains(text))
            table.row(title, script, (python, texts(text, first)), (ours, shown(script, offset)))
        self.assertEqual((table.rows, table.wrong), (len(ROWS), 0))


class Library(unittest.TestCase):
    def test_scripts(self):
        self.count = collections.Counter()
        for path in survey.library_paths()[::SHARE]:
            with self.subTest(script=str(path)):
                self.compare_script(path.read_bytes())
        print("tokenize:", ", ".join(f"{count} {name}" for name, count in self.count.most_common()))
        self.assertGreater(self.count["runs"], 100)

    def compare_script(self, content):
        self.count["scripts"] += 1
        try:
            text = stumpgarret.text_of(content)
        except stumpgarret.Undecodable:
            self.count["scripts that Python cannot decode"] += 1
            return
        source = text.encode("utf-8", "surrogatepass")
        found = []
        try:
            for chain in chains(text):
                found += itertools.chain(*chain)
                for index, run in enumerate(chain):
                    self.compare_run(source, run, [*itertools.chain(*chain[index + 1 :])])
        except (tokenize.TokenError, IndentationError):
            self.count["scripts that tokenize refuses"] += 1
            return
        if len(source) <= 1_048_576:
            self.assertEqual(stumpgarret.cut(source), stumpgarret.Cut(tuple(found), len(source), None))
            self.count["scripts cut whole"] += 1

    def compare_run(self, source, run, later):
        self.count["runs"] += 1
        self.count["literals"] += len(run)
        listed, stop, difference = expected(source, run, later)
        if len(source) > 1_048_576:
            difference = TOO_LONG
            with self.assertRaisesRegex(stumpgarret.Refusal, "49 script"):
                stumpgarret.literals(source, run[0].start)
        else:
            listing = stumpgarret.literals(source, run[0].start)
            self.assertEqual((listing.literals, listing.stop), (tuple(listed), stop))
        if difference:
            self.count[f"runs of the class: {difference}"] += 1


if __name__ == "__main__":
    unittest.main()
