"""The command `stumpgarret compare`: two revisions of a script line, or of a whole script, by what their strings hold.

Each comparison comes from the proved library, by `stumpgarret.compare`. What this file does is not proved: it finds the runs
of literals, pairs those of two scripts, and prints what lies between.
"""

from __future__ import annotations

import argparse
import difflib
import functools
import itertools
from collections.abc import Iterator
from dataclasses import dataclass
from typing import Optional, Tuple

import stumpgarret
from stumpgarret import Answer, Bytes, Comparison, Field, Literal, Names, Refusal, Sort, Text
from stumpgarret_command import _content, names_for
from stumpgarret_replay import runs, template_at
from stumpgarret_words import DONE, FAILED, PLACE, Told, Unusable, complain, parsed, parser, put, status_of

EQUAL, DIFFERENT = DONE, 1
# Pairs of runs that are held against each other at most, where two scripts differ.
MOST_TRIED = 2500
NOTHING = Answer(Sort.JOINED, False, 0, 0, (), 0)
DESCRIPTION = """
Compares two revisions of an f-string, or of a whole script: how many items are equal in front, how many of the others are
equal behind, and what lies between. A text is an item, and a field with its spec is one.
"""
EPILOG = r"""
OLD:LINE[:COLUMN] is the run of literals at that place of a script, such as `stumpgarret fields` tells; - is standard input.
Items between are printed a line each, with - in front for OLD and + for NEW, fields as they are written and texts as Python
shows them, and around them the counts of equal ones. Kinds, texts, conversions and specs count; how a text is spelled,
where it stands and how it is cut into literals do not.

Without lines two scripts are compared: their runs of literals are paired in order, by Python's difflib over what they hold,
and each pair that differs is shown with its places, and so is a run that has no partner. That pairing is not proved, nor is
how the runs are found; each comparison is.

A name of a character, as in \N{DEGREE SIGN}, is looked for as `stumpgarret fields` does.

Exit status: 0 if nothing differs, 1 if something does, 2 for anything else: a wrong use, what cannot be read or is refused,
and without the shared library. A refusal is one line on standard error with its number, which chapter 11 of docs/RULES.md
explains.
"""


@dataclass(frozen=True)
class Revision:
    """A script under a name that is shown, with the names of characters that it asks for."""

    name: str
    script: bytes
    names: Names | None

    def at(self, place: int) -> str:
        """The name with line and column of a place."""
        return "{}:{}:{}".format(self.name, *stumpgarret.positions(self.script, [place])[place])

    def shown(self, record: Text | Field | Bytes) -> str:
        """An item on one line: a field as it is written, a text as Python shows it."""
        if isinstance(record, Text):
            return repr(record.text)
        if isinstance(record, Bytes):
            return repr(record.value)
        close = record.signs.close if record.signs else _closes(self.script, self.names).get(record.place)
        written = f"{{{record.expression}}}" if close is None else self.script[record.place - 1 : close].decode()
        return stumpgarret._one_line(written)


@functools.lru_cache(maxsize=2)
def _closes(script: bytes, names: Names) -> dict[int, int]:
    """Where the fields of a script end, by their places: a reading with names does not tell."""
    rows = stumpgarret.rows(script, names).rows
    return {row.place: row.signs.close for row in rows if isinstance(row, stumpgarret.FieldRow)}


@dataclass(frozen=True)
class Part:
    """A run of literals of a revision, and what it reads as."""

    revision: Revision
    literals: tuple[Literal, ...]
    answer: Answer

    @classmethod
    def read(cls, revision: Revision, literals: tuple[Literal, ...]) -> Part:
        try:
            return cls(revision, literals, stumpgarret.read(revision.script, literals, revision.names))
        except Refusal as refusal:
            raise Told(f"{revision.at(refusal.place or literals[0].start)}: {refusal.meaning}") from refusal

    @property
    def place(self) -> str:
        return self.revision.at(self.literals[0].start)

    def lines(self, sign: str, numbers: range) -> Iterator[str]:
        return (f"{sign} {self.revision.shown(self.answer.records[number])}" for number in numbers)


# What is printed


def compared(old: Part | None, new: Part | None) -> Comparison:
    """Two runs, or one that has no partner and nothing."""
    return stumpgarret.compare(old.answer if old else NOTHING, new.answer if new else NOTHING)


def told(found: Comparison, old: Part | None, new: Part | None) -> Iterator[str]:
    """A comparison by lines."""
    yield from (f"{sign} {part.place}" for sign, part in (("---", old), ("+++", new)) if part)
    if found.front:
        yield _equal(found.front, "" if found.equal else " in front")
    yield from old.lines("-", found.first) if old else ()
    yield from new.lines("+", found.second) if new else ()
    if found.back:
        yield _equal(found.back, " behind")


def _equal(count: int, where: str) -> str:
    return f"  {count} equal {'item' if count == 1 else 'items'}{where}"


# Two scripts


def parts(revision: Revision) -> tuple[list[Part], list[str]]:
    """The runs of a script that are read, in order, and what is refused of it, in words."""
    read, refused = [], []
    try:
        for run in runs(revision.script, len(revision.script)):
            try:
                read.append(Part.read(revision, run.literals))
            except Told as refusal:
                refused.append(str(refusal))
    except Refusal as refusal:
        refused.append(f"{revision.at(refusal.place)}: {refusal.meaning}")
    return read, refused


Pairs = Iterator[Tuple[Optional[Part], Optional[Part]]]


def paired(old: list[Part], new: list[Part]) -> Pairs:
    """Runs of two scripts in order: those that difflib finds equal, and between these the others."""
    keys = [[_key(part.answer.records) for part in side] for side in (old, new)]
    for kind, a, b, c, d in difflib.SequenceMatcher(None, *keys, autojunk=False).get_opcodes():
        yield from zip(old[a:b], new[c:d]) if kind == "equal" else _others(old[a:b], new[c:d])


def _others(old: list[Part], new: list[Part]) -> Pairs:
    """Runs of which none is equal to another: the two that have most in common are a pair, and so on before and behind them;
    where none have anything in common, each with what stands in its place, and the rest alone."""
    if not old or not new or len(old) * len(new) > MOST_TRIED:
        yield from itertools.zip_longest(old, new)
        return
    tried = {(i, j): _common(a, b) for i, a in enumerate(old) for j, b in enumerate(new)}
    i, j = max(tried, key=tried.get)
    if not tried[i, j]:
        yield from itertools.zip_longest(old, new)
        return
    yield from _others(old[:i], new[:j])
    yield old[i], new[j]
    yield from _others(old[i + 1 :], new[j + 1 :])


def _common(a: Part, b: Part) -> float:
    keys = (_key(part.answer.records) for part in (a, b))
    return difflib.SequenceMatcher(None, *keys, autojunk=False).ratio()


def _key(records: tuple[Text | Field | Bytes, ...]) -> tuple[object, ...]:
    """What counts of some records."""
    return tuple(
        (record.expression, record.conversion, None if record.spec is None else _key(record.spec))
        if isinstance(record, Field)
        else (record.value if isinstance(record, Bytes) else record.text,)
        for record in records
    )


# The command


def main(arguments: list[str]) -> int:
    """The command; gives its exit status."""
    given = _arguments(arguments)
    return status_of(lambda: _compare_places(given) if given.old.line else _compare_scripts(given), refused=FAILED)


def _compare_places(given: argparse.Namespace) -> int:
    sides = []
    for side in (given.old, given.new):
        revision = _revision(side.script, given.names)
        run = template_at(revision.script, revision.name, side.line, side.column)
        sides.append(Part.read(revision, run.literals))
    return _tell(*sides)


def _compare_scripts(given: argparse.Namespace) -> int:
    status = EQUAL
    sides, refused = zip(*(parts(_revision(side.script, given.names)) for side in (given.old, given.new)))
    for old, new in paired(*sides):
        if not compared(old, new).equal:
            status = _tell(old, new)
    for said in (said for side in refused for said in side):
        status = complain(said, FAILED)
    return status


def _tell(old: Part | None, new: Part | None) -> int:
    """Prints a comparison; gives the exit status for it."""
    found = compared(old, new)
    lines = "".join(f"{line}\n" for line in told(found, old, new))
    put(lines.encode("utf-8", "backslashreplace"))
    return EQUAL if found.equal else DIFFERENT


def _revision(path: str, named: str | None) -> Revision:
    name = "<stdin>" if path == stumpgarret.STANDARD_INPUT else stumpgarret._one_line(path)
    try:
        script = stumpgarret._bytes(stumpgarret.text_of(_content(path)))
    except OSError as error:
        raise Unusable(f"{name}: {error.strerror}") from error
    except stumpgarret.Undecodable as error:
        raise Unusable(f"{name}: {error}") from error
    return Revision(name, script, names_for(script, named))


def _arguments(arguments: list[str]) -> argparse.Namespace:
    usage = "%(prog)s [--names FILE] OLD:LINE[:COLUMN] NEW:LINE[:COLUMN]\n       %(prog)s [--names FILE] OLD NEW"
    options = parser("stumpgarret compare", usage, DESCRIPTION, EPILOG)
    options.add_argument("--names", metavar="FILE", help="take names of characters from a UnicodeData.txt")
    given = parsed(options, arguments)
    if len(given.given) != 2:
        options.error("OLD and NEW are wanted, both with a line, as in bench.py:3, or both without")
    given.old, given.new = map(_side, given.given)
    if bool(given.old.line) != bool(given.new.line):
        options.error("a line is wanted of both OLD and NEW, or of neither")
    if given.old.script == given.new.script == stumpgarret.STANDARD_INPUT:
        options.error("OLD and NEW cannot both be standard input")
    return given


@dataclass(frozen=True)
class _Side:
    script: str
    line: int | None
    column: int | None


def _side(given: str) -> _Side:
    place = PLACE.fullmatch(given)
    if not place:
        return _Side(given, None, None)
    return _Side(place["script"], int(place["line"]), int(place["column"]) if place["column"] else None)
