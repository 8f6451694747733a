"""Recorded readings against what nobody here wrote: Python's own `format()` and its csv module.

    python3 test_format.py [--all]

A sample is tried as a test of the project; with --all, more than two million pairs of a spec and a number, and some
900,000 traces. Where Python answers otherwise the class of the difference is named, and docs/DIFFERENCES.md has each.
"""

import collections
import csv
import io
import itertools
import random
import re
import sys
import unittest

from support import CLONE, stumpgarret

from stumpgarret import Kind, Literal, Refusal

LEAST, MOST = -(2**31), 2**31 - 1
# The ends of the range, of the digits and groups in each base, and what lies beside them.
EDGES = sorted(
    {
        sign * (power + off)
        for power in (0, 2, 8, 10, 16, 64, 100, 512, 1000, 4096, 10_000, 65_536, 10**6, 2**20, 10**9, 2**24, 2**28, 2**31)
        for off in (-1, 0, 1)
        for sign in (-1, 1)
        if LEAST <= sign * (power + off) <= MOST
    }
)
ALPHABET = "<>=^+- z#0159_,.bcdefnosxX%q*é"
FILLS = "", "<", ">", "=", "^", "0>", "0=", "*<", " ^", "_=", "é>", "☃^", "😀=", "\0<", "\n>", "\\=", "'^", ">>", "<=", "^<"
SIGNS = "", "+", "-", " "
TYPES = "", "d", "b", "o", "x", "X"
OTHER_TYPES = "c", "e", "E", "f", "F", "g", "G", "n", "s", "%"


def ours(spec, numbers):
    """The lines of numbers through a field with that spec, each with its byte 10; or the number of the refusal. The body is
    lent, so that no quote and no backslash needs an escape."""
    body = f"{{x:{spec}}}".encode()
    literal = Literal(Kind.FSTRING, False, 0, len(body), 0, len(body) + 3)
    trace = "\r\n".join(map(str, numbers)).encode()
    try:
        return stumpgarret.replay(body, [literal], trace).output.decode()
    except Refusal as refusal:
        return refusal.number


def pythons(spec, numbers):
    """The same by Python; or None if it refuses the spec for integers."""
    try:
        return "".join(format(number, spec) + "\n" for number in numbers)
    except (ValueError, OverflowError):
        return None


def in_grammar(spec):
    try:
        return stumpgarret.Spec.parse(spec)
    except Refusal:
        return None


def difference(spec, our, python):
    """The class of a difference; None for what is none, and what the library may not do is an AssertionError."""
    if our == python:
        return None
    if our == 68:
        if python is None:
            return None
        assert re.search(r"[^\x00-\x7f]", spec) and any(one.isdecimal() and not one.isascii() for one in spec), spec
        return "digits of another script in a spec"
    assert our == 69, (spec, our, python)
    parts = in_grammar(spec)
    if python is None:
        return None
    if (parts.width or 0) > 64:
        return "width above 64"
    if parts.type == "n":
        return "the type n"
    if parts.type == "c":
        return "the type c"
    assert parts.type in ("e", "E", "f", "F", "g", "G", "%"), (spec, our, python)
    return "a float's type"


class Tally:
    def __init__(self):
        self.counts = collections.Counter()
        self.least = {}

    def spec(self, spec, numbers):
        our, python = ours(spec, numbers), pythons(spec, numbers)
        self.counts["pairs of a spec and a number"] += len(numbers)
        self.counts["specs"] += 1
        if isinstance(our, str):
            self.counts["lines equal to Python's"] += len(numbers)
            assert our == python, (spec, our, python)
        else:
            self.counts[f"specs refused as {our}"] += 1
        self.differs(difference(spec, our, python), spec)

    def differs(self, named, shown):
        if named:
            self.counts[f"of the class: {named}"] += 1
            before = self.least.get(named)
            if before is None or (len(shown), shown) < (len(before), before):
                self.least[named] = shown

    def __str__(self):
        return ", ".join(f"{count} {what}" for what, count in self.counts.items())


def short_specs(length):
    """Every text of the grammar's characters up to a length; braces cannot stand in a spec's text."""
    for size in range(length + 1):
        yield from map("".join, itertools.product(ALPHABET, repeat=size))


def whole_specs(widths):
    """Every fill, sign, #, 0, width, grouping and type; those that Python refuses among them."""
    for fill, sign, alternate, zero, grouping, kind in itertools.product(FILLS, SIGNS, ("", "#"), ("", "0"), ("", "_", ","), TYPES):
        for width in widths:
            yield f"{fill}{sign}{alternate}{zero}{width}{grouping}{kind}"


def other_specs(chance, count):
    """With the parts that are refused, or of other types."""
    for _ in range(count):
        parts = (FILLS, SIGNS, ("", "z"), ("", "#"), ("", "0"), ("", "3", "64", "65", "0064", "70", "٥"), ("", "_", ","))
        tail = ("", ".0", ".3", ".", ".٣"), (*TYPES, *OTHER_TYPES, "q")
        yield "".join(chance.choice(part) for part in (*parts, *tail))


def try_specs(tally, chance, length, widths_at_once, others, numbers_each):
    for spec in short_specs(length):
        tally.spec(spec, chance.sample(EDGES, 2))
    for specs in whole_specs(["{}"]):
        for width in chance.sample(["", *map(str, range(1, 65))], widths_at_once):
            own = [chance.randrange(LEAST, MOST + 1) >> chance.randrange(32) for _ in range(numbers_each)]
            tally.spec(specs.replace("{}", width), [*own, *chance.sample(EDGES, numbers_each)])
    for spec in other_specs(chance, others):
        tally.spec(spec, chance.sample(EDGES, 2))
    for kind in TYPES:
        for spec in ("", "#", "0", "+", "_") if kind not in ("", "d") else ("", "#", "0", "+", "_", ","):
            tally.spec(spec + kind, EDGES)


# Traces

CHARACTERS = b'0123456789-,"\r\n'
OTHERS = b" +_a\t\0\x0b\xff;'.e"
PLAIN_ROW = re.compile(rb'(?:-?[0-9]+|"-?[0-9]+")(?:,(?:-?[0-9]+|"-?[0-9]+"))*')


def replayed(trace, fields):
    """The rows of numbers that the library reads of a trace, or the number and row of its refusal."""
    body = b",".join(b"{x}" for _ in range(fields))
    literal = Literal(Kind.FSTRING, False, 0, len(body), 0, len(body) + 3)
    try:
        lines = stumpgarret.replay(body, [literal], trace).output.decode()
    except Refusal as refusal:
        return refusal.number, refusal.told
    return [[int(column) for column in line.split(",")] for line in lines.splitlines()]


def by_csv(trace):
    """The rows of numbers that Python's csv module and `int` read; None if one of them refuses."""
    try:
        rows = list(csv.reader(io.StringIO(trace.decode("utf-8", "surrogateescape"), newline="")))
        return [[int(column) for column in row] for row in rows]
    except (csv.Error, ValueError):
        return None


def trace_difference(trace, our, row):
    """The class of a trace that is refused as 70 and that Python takes."""
    at = 0
    for _ in range(row):
        at = trace.index(b"\r\n", at) + 2
    rest = trace[at:]
    line = re.match(rb"[^\r\n]*", rest)[0]
    end = rest[len(line) : len(line) + 2]
    if not line:
        return "empty row"
    if PLAIN_ROW.fullmatch(line):
        assert end and end != b"\r\n", trace
        return "row that ends with LF or CR alone"
    if line.count(b'"') % 2:
        return "quote that is not closed in its row"
    for column in line.split(b","):
        if re.fullmatch(rb'-?[0-9]+|"-?[0-9]+"', column):
            continue
        if b'"' in column.strip(b'"') or not re.fullmatch(rb'"[^"]*"|[^"]*', column):
            return "something beside a column's quotes"
        inner = column.strip(b'"')
        if b"_" in inner:
            return "underscore in a number"
        if b"+" in inner:
            return "plus sign"
        text = inner.decode("utf-8", "surrogateescape")
        if text.strip() != text:
            return "space around a number"
        assert any(one.isdecimal() and not one.isascii() for one in text), trace
        return "digits of another script in a number"
    raise AssertionError(trace)


def try_trace(tally, trace, fields):
    tally.counts["traces"] += 1
    our, python = replayed(trace, fields), by_csv(trace)
    if isinstance(our, list):
        tally.counts["traces equal to csv's"] += 1
        assert our == python, (trace, our, python)
        return
    number, row = our
    tally.counts[f"traces refused as {number}"] += 1
    if number == 70:
        if python is not None:
            tally.differs(trace_difference(trace, our, row), trace)
        return
    # A row that has another count or number is one for Python too, unless it refuses another row.
    start = 0
    for _ in range(row):
        start = trace.index(b"\r\n", start) + 2
    own = by_csv(trace[start:].split(b"\r\n")[0])
    assert own is not None and len(own) == 1, trace
    if number == 71:
        assert len(own[0]) != fields, trace
    else:
        assert len(own[0]) == fields and not all(LEAST <= one <= MOST for one in own[0]), trace
        tally.differs("number beyond 32 bits", trace)
    if len(own[0]) != fields:
        tally.differs("another count of columns", trace)


def written_traces(chance, count):
    """Rows of integers, as the csv module writes them."""
    for _ in range(count):
        fields = chance.randrange(1, 5)
        rows = [
            [chance.randrange(LEAST, MOST + 1) >> chance.randrange(32) for _ in range(fields)]
            for _ in range(chance.randrange(6))
        ]
        if chance.random() < 0.1 and rows:
            rows[-1][-1] = chance.choice([LEAST - 1, MOST + 1, 10**30])
        text = io.StringIO(newline="")
        csv.writer(text, quoting=chance.choice([csv.QUOTE_MINIMAL, csv.QUOTE_ALL])).writerows(rows)
        yield text.getvalue().encode(), fields


def random_traces(chance, count):
    for _ in range(count):
        fields = chance.randrange(1, 3)
        if chance.random() < 0.5:
            characters = CHARACTERS if chance.random() < 0.5 else CHARACTERS + OTHERS
            yield bytes(chance.choices(characters, k=chance.randrange(9))), fields
        else:
            columns = [b"1", b"-2", b'"3"', b"007", b"2147483648", b"", b"x", b" 4", b'"5', b'6"', b"+7", b"8_8", b'""9', b"\xc2\xa01", "٥".encode()]
            tokens = columns[:4] + [chance.choice(columns)] + [b",", b"\r\n", b",", b"\r\n", b"\n", b"\r"]
            yield b"".join(chance.choices(tokens, k=chance.randrange(9))), fields


def short_traces(length):
    for size in range(length + 1):
        for trace in itertools.product(b'01-,"\r\n ', repeat=size):
            yield bytes(trace), 1


def try_traces(tally, chance, length, count):
    for trace, fields in itertools.chain(short_traces(length), written_traces(chance, count), random_traces(chance, count)):
        try_trace(tally, trace, fields)


class Sample(unittest.TestCase):
    def test_specs(self):
        tally = Tally()
        try_specs(tally, random.Random(34), 2, 1, 2000, 2)
        print(f"format: {tally}")
        self.same_classes(tally, "Spec")

    def test_traces(self):
        tally = Tally()
        try_traces(tally, random.Random(70), 3, 1500)
        print(f"csv: {tally}")
        self.same_classes(tally, "Trace")

    def same_classes(self, tally, heading):
        """Each class that is met has its row in docs/DIFFERENCES.md, and each row's input is of its class."""
        rows = differences(heading)
        self.assertLessEqual(set(tally.least), set(rows))
        for named, shown in rows.items():
            found = Tally()
            if heading == "Spec":
                found.differs(difference(shown, ours(shown, [5]), pythons(shown, [5])), shown)
            else:
                try_trace(found, plain(shown), 1)
            self.assertEqual([*found.least], [named], shown)


def differences(heading):
    """The rows of the table with that heading: each class, with its input."""
    page = (CLONE / "docs" / "DIFFERENCES.md").read_text(encoding="utf-8")
    table = re.search(rf"^\| Class \| {heading} \|.*\n\|---.*\n((?:\|.*\n)+)", page, re.MULTILINE)[1]
    return dict(re.findall(r"^\| ([^|]+) \| `([^`]*)` \|", table, re.MULTILINE))


def plain(shown):
    return shown.replace("<LF>", "\n").replace("<CR>", "\r").encode()


def main():
    chance = random.Random(12)
    tally = Tally()
    try_specs(tally, chance, 3, 64, 200_000, 3)
    print(f"format: {tally}", tally.least, sep="\n")
    tally = Tally()
    try_traces(tally, chance, 6, 300_000)
    print(f"csv: {tally}", tally.least, sep="\n")


if __name__ == "__main__":
    if sys.argv[1:] == ["--all"]:
        main()
    else:
        unittest.main()
