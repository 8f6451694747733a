"""The command `stumpgarret wrap`: a long template of a script as adjacent literals, one a line.

Where it is cut comes from the proved library, by `stumpgarret_cuts_plan`, and with --check whether cuts keep its reading, by
`stumpgarret_cuts_check`. What this file does is not proved: it finds the run, counts what stands around a piece, and writes
the lines. What it writes is read again and compared before it is printed.
"""

from __future__ import annotations

import argparse
import itertools

import stumpgarret
from stumpgarret import Bytes, Field, Kind, Literal, Refusal
from stumpgarret_replay import Template, template_in
from stumpgarret_words import Told, Unusable, parsed, parser, place, put, status_of

STYLE_BYTES = 79
STEP = b"    "
DESCRIPTION = """
Prints the run of literals at a place as adjacent literals, one a line, none of which is longer than style allows. What
stands there reads the same.
"""
EPILOG = """
SCRIPT:LINE[:COLUMN] is the run of literals at that place of a script, such as `stumpgarret fields` tells. An f'..' that is
too long is cut, each time as late as may be; what is short enough stays as it is. In a line count the bytes of the
indentation, the prefix, the quotes and the piece; what follows the last literal is not counted. The lines are indented as
the first literal is. Where the run stands in no brackets they are put around it, and what is in them is indented by four more.

--check says whether the literals that stand at SCRIPT:LINE[:COLUMN] end within the limit of their lines and read as the one
f'..' at OLD:LINE[:COLUMN] does. Nothing is printed if they do.

A name of a character, as in \\N{DEGREE SIGN}, is one of the fourteen that the library has.

Exit status: 0 if the lines are printed or the check passes, 1 if the run cannot be broken so or the check fails, 2 for a
wrong use, for what cannot be read, and without the shared library.
"""


def _parts(script: bytes, literal: Literal) -> tuple[bytes, bytes, bytes]:
    """Prefix and opening quotes, body, closing quotes."""
    body = literal.offset, literal.offset + literal.length
    return script[literal.start : body[0]], script[slice(*body)], script[body[1] : literal.end]


def _indentation(template: Template) -> bytes:
    """What stands before the first literal in its line, as blanks; before brackets, that of the line and a step more."""
    start = template.literals[0].start
    line = template.script[template.script.rfind(b"\n", 0, start) + 1 : start]
    blanks = line[: len(line) - len(line.lstrip(b" \t"))]
    return blanks + b" " * (len(line) - len(blanks)) if template.within else blanks + STEP


def _pieces(template: Template, literal: Literal, room: int) -> list[bytes]:
    """The body of a literal in pieces of at most so many bytes."""
    _, body, _ = _parts(template.script, literal)
    where = template.at(literal.start)
    if b"\n" in body:
        raise Told(f"{where}: this literal stands over several lines")
    if len(body) <= room:
        return [body]
    if literal.kind != Kind.FSTRING:
        raise Told(f"{where}: this literal is too long, and only an f'..' is broken, not one with another prefix")
    cuts = stumpgarret.plan_cuts(body, room) if room > 0 else None
    if cuts is None:
        raise Told(f"{where}: {_longest(body, room)}")
    return [body[begin:end] for begin, end in zip([0, *cuts], [*cuts, len(body)])]


def _longest(body: bytes, room: int) -> str:
    """Why no cuts pass."""
    if room <= 0:
        return "the indentation, the prefix and the quotes alone leave no room in a line"
    # With room for one byte more at a time, the first that is enough is the longest thing that cannot be cut.
    low, high = room, len(body)
    while low + 1 < high:
        middle = (low + high) // 2
        low, high = (low, middle) if stumpgarret.plan_cuts(body, middle) is not None else (middle, high)
    return f"{high} bytes that cannot be cut, such as a field, stand in it, and there is room for {room}"


def wrap(template: Template, limit: int) -> bytes:
    """The lines of a run, each of at most so many bytes."""
    records = _read(template)
    indentation = _indentation(template)
    lines = []
    for literal in template.literals:
        before, _, behind = _parts(template.script, literal)
        room = limit - len(indentation) - len(before) - len(behind)
        lines += [indentation + before + piece + behind for piece in _pieces(template, literal, room)]
    text = b"\n".join(lines)
    _see_again(template, text, records)
    if template.within:
        return text + b"\n"
    return b"(\n" + text + b"\n" + indentation[: -len(STEP)] + b")\n"


def _read(template: Template) -> list:
    try:
        return _shapes(stumpgarret.read(template.script, template.literals).records)
    except Refusal as refusal:
        raise Told(f"{template.at(refusal.place)}: {refusal.meaning}") from refusal


def _see_again(template: Template, text: bytes, records: list) -> None:
    """What is printed reads as what was there."""
    try:
        listed = stumpgarret.literals(text, len(text) - len(text.lstrip(b" \t")))
        same = listed.stop == len(text) and _shapes(stumpgarret.read(text, listed.literals).records) == records
    except Refusal:
        same = False
    if not same:
        raise Told(f"{template.at(template.literals[0].start)}: cut so, a piece ends with the quotes that close it; nothing is printed")


def _shapes(records) -> list:
    """Kinds, texts, conversions and specs, without places."""
    shapes = []
    for record in records:
        if isinstance(record, Field):
            spec = None if record.spec is None else _shapes(record.spec)
            shapes.append((record.expression, record.conversion, spec))
        else:
            shapes.append(record.value if isinstance(record, Bytes) else record.text)
    return shapes


def check(template: Template, old: Template, limit: int) -> None:
    """That the literals keep the limit of their lines and read as the one body does."""
    if len(old.literals) != 1 or old.literals[0].kind != Kind.FSTRING:
        raise Unusable(f"{old.at(old.literals[0].start)}: one f'..' is wanted here, and nothing beside it")
    script = template.script
    for literal in template.literals:
        end = literal.end - (script.rfind(b"\n", 0, literal.end) + 1)
        if end > limit:
            raise Told(f"{template.at(literal.start)}: this literal ends at byte {end} of its line, behind {limit}")
        if literal.kind != Kind.FSTRING:
            raise Told(f"{template.at(literal.start)}: this literal is no f'..'")
    pieces = [_parts(script, literal)[1] for literal in template.literals]
    body = _parts(old.script, old.literals[0])[1]
    if b"".join(pieces) != body:
        at = next(at for at, (mine, other) in enumerate(itertools.zip_longest(b"".join(pieces), body)) if mine != other)
        raise Told(f"{template.at(template.literals[0].start)}: the pieces are not the body of {old.name}: byte {at} differs")
    cuts = list(itertools.accumulate(map(len, pieces)))[:-1]
    try:
        stumpgarret.check_cuts(body, len(body), cuts)
    except Refusal as refusal:
        raise Told(f"{template.at(template.literals[0].start)}: {refusal.meaning}") from refusal


def main(arguments: list[str]) -> int:
    """The command; gives its exit status."""
    given = _arguments(arguments)
    return status_of(lambda: _wrap(given))


def _wrap(given: argparse.Namespace) -> None:
    template = template_in(given.place)
    if given.check is not None:
        check(template, template_in(given.check), given.limit)
    else:
        put(wrap(template, given.limit))


def _arguments(arguments: list[str]) -> argparse.Namespace:
    whole = "%(prog)s [--limit N] SCRIPT:LINE[:COLUMN]\n       %(prog)s [--limit N] --check OLD:LINE[:COLUMN] SCRIPT:LINE[:COLUMN]"
    options = parser("stumpgarret wrap", whole, DESCRIPTION, EPILOG)
    options.add_argument("--limit", type=int, default=STYLE_BYTES, metavar="N", help="bytes of a line (79)")
    options.add_argument("--check", metavar="PLACE", help="compare with the one f'..' at a place of a script")
    given = parsed(options, arguments)
    if len(given.given) != 1:
        options.error("one SCRIPT:LINE[:COLUMN] is wanted")
    if given.limit < 0:
        options.error(f"--limit wants a number of bytes, and this is {given.limit}")
    given.place = place(options, given.given[0])
    given.check = None if given.check is None else place(options, given.check)
    return given
