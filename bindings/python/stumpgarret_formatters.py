"""The other ways to format: `%` behind a literal, `%=`, `.format()`, `.format_map()`, `format()` and `round()`.

This is a search, not a proof. Where the literals of a script stand, and the sources of its fields, comes from the proved
library; between the literals it looks for what is spelled as one of these. It does not know what a name stands for: a template
in a variable and `%` is not found, and a `%=` of numbers is.
"""

from __future__ import annotations

import re
from collections.abc import Iterable, Iterator
from dataclasses import dataclass

import stumpgarret
from stumpgarret import FieldRow, RefusalRow

# What is found, and what is said of it.
KINDS = {
    "%": "formats with %",
    "%=": "may format with %=",
    ".format()": "formats with .format()",
    ".format_map()": "formats with .format_map()",
    "format()": "formats with format()",
    "round()": "rounds with round()",
    ".round()": "may round with .round()",
}
WORD = rb"[A-Za-z0-9_\x80-\xff]"
MET = re.compile(rb"#[^\n]*|%%=?|(?<!%b)(?:format_map|format|round)(?!%b)" % (WORD, WORD))
CALLED = re.compile(rb"(?:[ \t\f\n]|\\\n|#[^\n]*)*\(")
DEFINED = re.compile(rb"(?:^|[^A-Za-z0-9_\x80-\xff])(?:def|class)$")
LONGEST_BEFORE = 6
BLANKS = b" \t\f\\"
TOKEN = re.compile(rb"(?P<blank>[ \t\f\n]+|\\\n|#[^\n]*)|(?P<name>[A-Za-z_\x80-\xff]%b*)|(?P<number>[0-9](?:%b|\.)*)|(?P<sign>.)" % (WORD, WORD))
LITERAL, OPERAND, TEXT, OTHER = range(4)
# Words behind which a bracket is no call; match is one where a statement begins with it.
KEYWORDS = set(
    b"and as assert async await case del elif else except for from global if import in is lambda match nonlocal not or raise "
    b"return while with yield".split()
)


@dataclass(frozen=True)
class Formatter:
    """One of `KINDS`, where its sign or its name stands: line and column from 1, columns by characters; and the text of the
    line, without its comment."""

    line: int
    column: int
    what: str
    text: str

    @property
    def meaning(self) -> str:
        return f"{KINDS[self.what]}, which is not listed"


def formatters(script: bytes, rows: Iterable[FieldRow | RefusalRow]) -> list[Formatter]:
    """What a script has of them, in the order of their places: between its literals, and in the sources of its fields."""
    if not MET.search(script):
        return []
    whole = Source(script)
    sources = (_source(row) for row in rows if isinstance(row, FieldRow))
    inner = (one for begin, end in sources if MET.search(script, begin, end) for one in Source(script[begin:end]).found(begin))
    found = sorted([*whole.found(0), *inner])
    where = stumpgarret.positions(script, (place for place, _ in found))
    return [Formatter(*where[place], what, whole.line(place)) for place, what in found]


def _source(row: FieldRow) -> tuple[int, int]:
    signs = row.signs
    return row.place, (signs.bang or signs.colon or signs.close) - 1


class Source:
    """A script, or the source of a field: its text, and what lies between its literals, as far as it was cut."""

    def __init__(self, text: bytes):
        cut = stumpgarret.cut(text)
        self.text = text
        self.gaps = [*zip((0, *(one.end for one in cut.literals)), (*(one.start for one in cut.literals), cut.to))]
        self.known = None

    def found(self, offset: int) -> Iterator[tuple[int, str]]:
        """The place and the kind of each that is found, in what the source stands in at an offset."""
        for begin, end in self.gaps:
            for met in MET.finditer(self.text, begin, end):
                what = self.kind(met, begin)
                if what:
                    yield offset + met.start(), what

    def line(self, at: int) -> str:
        """The line that a place stands in, without its comment and the blanks around."""
        begin, end = self.text.rfind(b"\n", 0, at) + 1, self.text.find(b"\n", at)
        end = end if end >= 0 else len(self.text)
        signs = (self.text.find(b"#", max(begin, one), min(end, other)) for one, other in self.gaps if one < end and other > begin)
        return self.text[begin : min((sign for sign in signs if sign >= 0), default=end)].decode("utf-8", "replace").strip()

    def kind(self, met: re.Match, begin: int) -> str | None:
        """The kind of what was met in the gap that begins there. A name counts where it is called; `.format` and `.format_map` of
        a literal also where they are not, since they may be later."""
        if met[0] == b"%=":
            return "%="
        if met[0] == b"%":
            return "%" if self.behind_text(met.start(), begin) else None
        if met[0].startswith(b"#"):
            return None
        name, before = met[0].decode(), self.before(met.start(), begin)
        is_called = CALLED.match(self.text, met.end())
        if before is not None and self.text[before : before + 1] == b".":
            return f".{name}()" if is_called or name != "round" and self.behind_text(before, begin) else None
        if not is_called or f"{name}()" not in KINDS or before is not None and self.is_defined(before, begin):
            return None
        return f"{name}()"

    def before(self, at: int, begin: int) -> int | None:
        """Where the last byte before a place stands that is no blank and of no comment; None if none does since the gap began."""
        while at > begin:
            line = max(begin, self.text.rfind(b"\n", begin, at) + 1)
            own = self.text[line:at].partition(b"#")[0].rstrip(BLANKS)
            if own:
                return line + len(own) - 1
            at = line - 1
        return None

    def is_defined(self, before: int, begin: int) -> bool:
        """Whether `def` or `class` ends there."""
        return bool(DEFINED.search(self.text[max(begin, before - LONGEST_BEFORE + 1) : before + 1]))

    def behind_text(self, at: int, begin: int) -> bool:
        """Whether a literal, or a bracket that has one for its value, or may, stands directly before a place."""
        before = self.before(at, begin)
        if before is None:
            return begin > 0
        if self.text[before : before + 1] != b")":
            return False
        self.known = self.known or closed_texts(self.text, self.gaps)
        return before in self.known


def closed_texts(text: bytes, gaps: list[tuple[int, int]]) -> set[int]:
    """Where the brackets close that are no call, and in which a literal stands by itself and no comma."""
    found, side, brackets = {-1}, OTHER, []
    for place, sort, own in _tokens(text, gaps):
        if own in (b"(", b"[", b"{"):
            brackets.append(Bracket(own == b"(" and side == OTHER))
            side = OTHER
        elif own in (b")", b"]", b"}"):
            side = TEXT if brackets and brackets.pop().is_text else OPERAND
        else:
            is_operand = sort == "number" or sort == "name" and own not in KEYWORDS
            side = LITERAL if sort is None else OPERAND if is_operand else OTHER
        if side == TEXT:
            found.add(place)
        if brackets:
            brackets[-1].has_text |= side in (LITERAL, TEXT)
            brackets[-1].has_comma |= own == b","
    return found


def _tokens(text: bytes, gaps: list[tuple[int, int]]) -> Iterator[tuple[int, str | None, bytes]]:
    """Names, numbers and signs with their places, and a literal, which is of no sort, behind each gap but the last."""
    for begin, end in gaps:
        for token in TOKEN.finditer(text, begin, end):
            if token.lastgroup != "blank":
                yield token.start(), token.lastgroup, token[0]
        if end != gaps[-1][1]:
            yield end, None, b""


@dataclass
class Bracket:
    """One that is open: whether it is round and no call, and what stands in it, but not in others there."""

    is_plain: bool
    has_text: bool = False
    has_comma: bool = False

    @property
    def is_text(self) -> bool:
        return self.is_plain and self.has_text and not self.has_comma
