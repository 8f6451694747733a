#!/usr/bin/env python3
"""Lists every formatted field in the f-strings of Python 3.11 scripts, by the proved library stumpgarret.

    >>> import stumpgarret
    >>> for field in stumpgarret.fields("print(f'{mv / 12.5:.0f} {n!r}')", "bench.py"):
    ...     print(field.line, field.column, field.expression, field.conversion, field.spec)
    1 10 mv / 12.5 None .0f
    1 26 n r None

What people call:

    fields(source)                  every field of a script, in the order of their places; raises `Incomplete` if anything is
                                    refused, so that what it returns is complete
    list_script(source)             the same with what is refused in its place, and whether it is complete
    differences(source, found)      where Python's own `ast` reads otherwise (Python 3.11 only)
    Names.build(file)               a file of the names of characters, for those in `\\N{..}`; without one fourteen are known
    Spec.parse(spec)                the parts of a format spec, and whether it rounds
    replay(script, literals, trace) the rows of a recorded trace in the fields of a template, a line for each
    compare(first, second)          where two answers of `read` differ: what is equal in front and behind, and what lies between
    Template.of(answer)             the parts of an f-string, to be changed and written back
    plan_cuts(body, limit)          where a long template may be broken over lines; check_cuts(body, limit, cuts) checks it

The library's calls behind them: `rows`, every row of a whole script by places; `read`, one run of literals; `literals`, the
adjacent literals of a script from an offset on; `cut`, every literal of a whole script.

At a shell: `python3 stumpgarret.py --help`, and `--help` behind the words replay, compare, wrap and set-spec, say what is printed, and
what the exit status means. Any Python from 3.7 on will do.

The shared library is the one that the variable STUMPGARRET_LIBRARY names, else libstumpgarret.so beside this file,
else the one under target/python of the clone, where `bindings/python/build` puts it. On a machine that is not x86-64 the
program stumpgarret-pipe stands there in its place, which STUMPGARRET_PROGRAM may name, and an emulator runs it.
"""

from __future__ import annotations

import array
import ast
import codecs
import collections
import ctypes
import enum
import functools
import importlib
import itertools
import operator
import os
import re
import signal
import sys
import warnings
from collections.abc import Callable, Iterable, Iterator
from dataclasses import dataclass

__all__ = [
    "fields",
    "list_script",
    "differences",
    "rows",
    "read",
    "literals",
    "cut",
    "replay",
    "compare",
    "plan_cuts",
    "check_cuts",
    "text_of",
    "positions",
    "Names",
    "Spec",
    "Comparison",
    "Template",
    "TemplateField",
    "ScriptList",
    "ScriptField",
    "Refused",
    "Incomplete",
    "Undecodable",
    "Refusal",
    "Unavailable",
    "Kind",
    "Sort",
    "Reason",
    "FieldClass",
    "Literal",
    "Listing",
    "Cut",
    "Text",
    "Field",
    "Bytes",
    "Signs",
    "FieldRow",
    "RefusalRow",
    "Rows",
    "Answer",
    "Replay",
    "REASONS",
    "REFUSALS",
    "UNCLOSED",
]
__version__ = "0.1.0"


# What is lent and what comes back


class Kind(enum.IntEnum):
    """What a literal's prefix says."""

    STRING = 0
    FSTRING = 1
    BYTES = 2
    RAW_STRING = 3
    RAW_FSTRING = 4
    RAW_BYTES = 5
    UNICODE = 6


class Sort(enum.IntEnum):
    """What a run of literals is: text, text with an f-string in it, or bytes."""

    PLAIN = 0
    JOINED = 1
    BYTES = 2


@dataclass(frozen=True)
class Literal:
    """A string literal. `offset` and `length` say where its body lies in the bytes that are read; `start` and `end`
    are the literal's own, prefix and quotes included, and places are counted from `start`."""

    kind: int
    triple: bool
    offset: int
    length: int
    start: int
    end: int


@dataclass(frozen=True)
class Listing:
    """The adjacent literals of a script from an offset on; all their numbers count from the script's beginning. `stop`
    is where the first thing stands that is no literal, after what was passed over."""

    literals: tuple[Literal, ...]
    stop: int


@dataclass(frozen=True)
class Cut:
    """Every literal of a whole script, in order. `to` is how far it was cut: its length, or where a literal starts that never
    closes; `ended` is then that refusal's number, 50 or 51."""

    literals: tuple[Literal, ...]
    to: int
    ended: int | None


@dataclass(frozen=True)
class Text:
    """Literal text. At the top level it has the whole run's range and u mark, in a spec its own literal's range."""

    text: str
    start: int
    end: int
    u_mark: bool


class Reason(enum.IntEnum):
    """The reason of a field's conversion: written after `!`; none, and no self-documenting `=`; repr, because `=` stands
    with neither conversion nor spec; none, because `=` stands with a spec."""

    WRITTEN = 1
    NONE = 2
    REPR = 3
    SPEC = 4


# What each reason means, for people.
REASONS = {
    Reason.WRITTEN: "written after `!`",
    Reason.NONE: "none: no `!` and no `=`",
    Reason.REPR: "repr: `=` with no spec",
    Reason.SPEC: "none: `=` with a spec",
}


class FieldClass(enum.Enum):
    """Whether a field rounds a number, by its conversion and its spec alone: it rounds, by a type of e E f F g G n % or a
    precision without a type; its spec has a field, so that its digits are decided when it runs; its spec is not of the
    mini-language but a type's own, as dates have; a conversion is written or implied, so that text is formatted; it is none
    of these. A type with a `__format__` of its own may round by any spec."""

    ROUNDS = "rounds"
    COMPUTED = "computed"
    OWN = "own"
    TEXT = "text"
    EXACT = "exact"

    @property
    def may_round(self) -> bool:
        return self in (FieldClass.ROUNDS, FieldClass.COMPUTED, FieldClass.OWN)


@dataclass(frozen=True)
class Signs:
    """The places just after a field's first self-documenting `=`, its `!` and its `:`, None where it has none, and just
    after its `}`."""

    equals: int | None
    bang: int | None
    colon: int | None
    close: int


@dataclass(frozen=True)
class Field:
    """A formatted field, with its literal's range. `conversion` is "s", "r", "a" or None; a self-documenting field
    that has neither conversion nor spec has "r", and `reason` says why. `spec` has the parts of the format spec, and is
    None if there is no `:`. `place` is just after the field's `{`, and `signs` are its other places. Read with `Names`
    it has neither reason nor signs, both None: the library has no call for them."""

    expression: str
    conversion: str | None
    spec: tuple[Text | Field, ...] | None
    start: int
    end: int
    place: int
    reason: Reason | None
    signs: Signs | None


@dataclass(frozen=True)
class FieldRow:
    """A field of a whole script. All places count the script's bytes: its literal's `start`, its own `place` just after
    its `{`, its `signs`. `length` is that of its expression as read, and `within` the number, from 1, of the row in
    whose expression its literal stands, 0 for a literal of the script."""

    reason: Reason
    start: int
    place: int
    length: int
    conversion: str | None
    signs: Signs
    within: int


@dataclass(frozen=True)
class RefusalRow:
    """Something of a script that is refused, by a number of `REFUSALS`. `start`, `place` and `within` are as a field's;
    of 75 `within` is the field's own row, and of 76 `place` is where the word begins. `opened` is just after the bracket
    that is closed by another, else None."""

    start: int
    place: int
    number: int
    details: tuple[int, int]
    opened: int | None
    within: int


@dataclass(frozen=True)
class Rows:
    """Every row of a script, level by level: those of its literals, then those in their fields' expressions, and so on.
    How many literals the script has, and how far it was cut into them: to its end, or to a 50 or 51."""

    rows: tuple[FieldRow | RefusalRow, ...]
    literals: int
    cut_to: int


@dataclass(frozen=True)
class Bytes:
    """The value of a run of bytes literals, with the whole run's range."""

    value: bytes
    start: int
    end: int


@dataclass(frozen=True)
class Replay:
    """A trace replayed through a template: how many rows it has, and the bytes of their lines, each ended by byte 10."""

    rows: int
    output: bytes


@dataclass(frozen=True)
class Answer:
    """What a run of literals reads as. `records` has one `Text` or one `Bytes`, or the parts of a joined string; `chars`
    is how many characters the bodies have."""

    sort: Sort
    u_mark: bool
    start: int
    end: int
    records: tuple[Text | Field | Bytes, ...]
    chars: int


@dataclass(frozen=True)
class Comparison:
    """How two answers differ: so many items are equal in front, of the others so many behind, and `first` and `second` are the
    numbers, from 0, of the items between on each side. An item is what stands in `records` of an `Answer`."""

    front: int
    back: int
    first: range
    second: range

    @property
    def equal(self) -> bool:
        return not (self.first or self.second)


# Each refusal's number, its name, and what it means where the name does not say so; {0} and {1} are the details, and
# {unclosed} is what `UNCLOSED` says of the first. What is known of a script stands in the place of the others.
REFUSALS = {
    1: ("empty list", ""),
    2: ("number list not a multiple of six", ""),
    3: ("more than 1,024 literals", ""),
    4: ("bad descriptor", ""),
    5: ("bodies over 1,048,576 bytes together", ""),
    6: ("body not UTF-8", ""),
    7: ("bytes mixed with others", ""),
    10: ("StringError", "an escape is not finished"),
    11: ("UnicodeError", "an escape lacks a digit, has a code above 10FFFF, or a name over 88 bytes"),
    12: ("non-ASCII in bytes", ""),
    13: ("name not held", "{searched} does not have {name}"),
    20: ("UnclosedLbrace", "{unclosed}"),
    21: ("InvalidConversionFlag", "a conversion is not s, r or a"),
    22: ("EmptyExpression", "a field's expression is empty or blank"),
    23: ("MismatchedDelimiter", "{0:c} is closed by {1:c}"),
    24: ("ExpressionNestedTooDeeply", "a field stands in the spec of a field in a spec"),
    25: ("SingleRbrace", "a single }} stands in an f-string"),
    26: ("Unmatched", "{0:c} closes nothing"),
    27: ("UnterminatedString", "a quoted run in a field does not end, or a backslash stands outside of one"),
    28: ("65th bracket open at once in a field", ""),
    30: ("too few record places", "{0} records and {1} text bytes are needed"),
    31: ("too little text room", "{0} records and {1} text bytes are needed"),
    49: ("script over 1,048,576 bytes", ""),
    50: ("quote never closed", ""),
    51: ("newline in a literal of one quote", ""),
    52: ("no literal at the offset", ""),
    53: ("list buffer too short", ""),
    54: ("not to be written", "the records break the record rules, a text is not UTF-8, or the sort is not joined"),
    55: (
        "not read back",
        "the spelling would be read otherwise, by a {{ that begins a top-level expression, a brace in a spec before its first "
        "nested field, an expression that is blank or would end elsewhere, a field three deep, or over 1,048,576 bytes",
    ),
    56: ("body buffer too short", "the body needs {told} bytes"),
    57: ("first answer not well formed", "its sort, kinds, conversions, parts or texts are none that a reading gives"),
    58: ("second answer not well formed", "its sort, kinds, conversions, parts or texts are none that a reading gives"),
    59: ("middle buffer too short", "the list needs {told} numbers"),
    60: ("line malformed", "a line of the file of names is malformed or not ended, or a name's code is no scalar value"),
    61: ("name twice", "a name stands twice in the file of names"),
    62: ("index buffer too short", "the index has no room, or the file of names has 2^32 bytes or more"),
    63: ("wrong index", "the index is not that of the file of names, or the file has 2^32 bytes or more"),
    64: ("wrong offsets", "the cuts do not rise strictly inside the body"),
    65: ("piece too long", "a piece between cuts is longer than the limit"),
    66: ("piece refused", "a piece between cuts is refused by itself"),
    67: ("readings differ", "the pieces joined do not read as the body does, or the body is refused"),
    68: ("spec not of the grammar", "the spec is not of the format specification mini-language"),
    69: (
        "spec or field outside the set",
        "the field has a conversion, a nested field, a width above 64, a type other than d, b, o, x and X, or what Python "
        "refuses for integers",
    ),
    70: ("row malformed", "the row is not of RFC 4180, or a column is not digits after at most one -"),
    71: ("column count", "the row has not as many columns as the template has fields"),
    72: ("number out of range", "a number is below -2,147,483,648 or above 2,147,483,647"),
    73: ("output buffer too short", "the lines need {told} bytes"),
    74: ("cut list too short", "the plan has {told} cuts"),
    75: (
        "read otherwise by Python",
        "Python reads this field otherwise or not at all, by {cause}",
    ),
    76: (
        "unknown prefix",
        "the word before this string is no prefix of Python 3.11 and no keyword that may stand there; from Python 3.14 on t "
        "begins a template string, whose fields are not listed",
    ),
}
NO_LIST_ROOM = 53
IN_A_BODY = range(10, 29)
NEVER_CLOSED = 50, 51
NAME_NOT_HELD = 13
READ_OTHERWISE = 75
UNKNOWN_PREFIX = 76
OF_A_LIST = *range(49, 54), READ_OTHERWISE, UNKNOWN_PREFIX
OF_A_COMPARISON = range(57, 60)
OF_NAMES = range(60, 64)
OF_A_WRITING = range(54, 57)
NO_LINE_ROOM = 73
OF_CUTS = *range(64, 68), 74
OF_A_REPLAY = range(68, 74)
# What a refusal of a replay tells beside its number.
TELLS = {68: "field", 69: "field", 70: "row", 71: "row", 72: "row"}

# What is said of any refusal where nothing more is known of it.
ANY = {
    "searched": "the file of names, or without one the library,",
    "name": "this name of a character",
    "cause": "a #, a backslash, a triple-quoted literal with its own quote inside, or something after a self-documenting =",
}
# Why a brace counts as unclosed, by the first detail of 20.
UNCLOSED = {
    1: "the literal ends right after a !",
    2: "neither } nor : follows a conversion",
    3: "something not allowed follows a self-documenting =",
    4: "the literal ends inside a field",
    5: "a { in no field is the last character",
}


class Refusal(Exception):
    """The library refused a run, a file of names, a trace, cuts, or a comparison: a number of `REFUSALS` and its name, the index of the literal
    from 0, the place, two details, the place's line and column in the literal's body, both from 0, the place just after
    the bracket that is closed by another, how many characters were read, and what is told of a replay: the field or the
    row, from 0, or the bytes that are needed. What has no literal, place, details, line, column, bracket, characters or
    anything told has 0 there."""

    def __init__(
        self,
        number: int,
        literal: int,
        place: int,
        details: tuple[int, int],
        line: int = 0,
        column: int = 0,
        opened: int = 0,
        chars: int = 0,
        told: int = 0,
    ):
        super().__init__(number, literal, place, details, line, column, opened, chars, told)
        self.number = number
        self.literal = literal
        self.place = place
        self.details = details
        self.line = line
        self.column = column
        self.opened = opened
        self.chars = chars
        self.told = told

        self.name = _name(number)

    @property
    def meaning(self) -> str:
        """Number and name, and what they mean."""
        return _meaning(self.number, self.details, self.told)

    def position(self, line: int, column: int) -> tuple[int, int]:
        """Line and column in a script where the literal's body begins at these, from 1."""
        return line + self.line, self.column + (1 if self.line else column)

    def __str__(self) -> str:
        if any(self.number in numbers for numbers in (OF_NAMES, OF_A_COMPARISON, OF_A_WRITING, OF_CUTS)):
            return f"refused: {self.meaning}"
        if self.number in OF_A_REPLAY:
            at = f" at {TELLS[self.number]} {self.told}" if self.number in TELLS else ""
            return f"refused{at}: {self.meaning}"
        at = f"refused in literal {self.literal} at {self.place}"
        if self.number in IN_A_BODY:
            at += ", line {} and column {} of its body".format(*self.position(1, 1))
        opened = f", opened at {self.opened}" if self.opened else ""
        return f"{at}: {self.meaning}{opened}"


def _name(number: int) -> str:
    return REFUSALS.get(number, ("unknown to this module", ""))[0]


def _meaning(number: int, details: tuple[int, int], told: int = 0, **known: str) -> str:
    unclosed = UNCLOSED.get(details[0], "a field does not end as it should")
    said = REFUSALS.get(number, ("", ""))[1].format(*details, unclosed=unclosed, told=told, **{**ANY, **known})
    return f"{number} {_name(number)}" + (f": {said}" if said else "")


class Unavailable(Exception):
    """The library is not there, or cannot be used, or gave no answer."""


# The calls

WORDS_OF_A_RECORD = 8
NUMBERS_OF_A_ROW = 10
REFUSAL_ROW = 5
NUMBERS_OF_A_LITERAL = 6
MOST_BODY_BYTES = 1_048_576
FIRST_LITERALS = 16
FIRST_ROWS = 256
LEAST_LINE_OF_A_NAME = 20
LINE_ROOM_PER_BYTE = 4
BODY_ROOM = 4
QUOTES = "'", '"', "'''", '"""'
CONVERSIONS = None, "s", "r", "a"


class Names:
    """A file of the names of characters, as Unicode publishes it by the name UnicodeData.txt, with its index: the offset
    of each line that has a name, ordered by name. Only `build` and `check` make one, so that file and index have passed
    the check; nothing changes them afterwards.

    Names compare byte for byte, so small letters are others. A script asks for one of at most 88 bytes."""

    __slots__ = "_file", "_index"

    def __init__(self):
        raise TypeError("Names are made by Names.build or Names.check")

    @classmethod
    def build(cls, file: bytes) -> Names:
        """Builds the index of a file. Raises `Refusal`: 60 for a malformed line, 61 for a name that stands twice, 62 for
        a file of 2**32 bytes or more."""
        file = _file(file)
        index = (ctypes.c_uint32 * (len(file) // LEAST_LINE_OF_A_NAME if len(file) < 2**32 else 0))()
        entries = _names_call("names_build", file, index)
        return cls._made(file, (ctypes.c_uint32 * entries).from_buffer_copy(index))

    @classmethod
    def check(cls, file: bytes, index: Iterable[int]) -> Names:
        """Checks an index that was kept. Raises `Refusal`: 60 and 61 as `build` does, 63 for any index but the file's;
        and ValueError for an offset that does not fit into 32 bits."""
        file = _file(file)
        offsets = _offsets(index)
        lent = (ctypes.c_uint32 * len(offsets)).from_buffer_copy(offsets)
        _names_call("names_check", file, lent)
        return cls._made(file, lent)

    @classmethod
    def _made(cls, file: bytes, index: ctypes.Array) -> Names:
        names = cls.__new__(cls)
        names._file, names._index = file, index
        return names

    @property
    def file(self) -> bytes:
        return self._file

    @property
    def index(self) -> tuple[int, ...]:
        """The offsets, to be kept for `check`."""
        return tuple(self._index)


@dataclass(frozen=True)
class Spec:
    """The parts of a format spec by the mini-language of Python 3.11, None for one that is not there. `zero` is the `0`
    before the width; width and precision are at most 4,294,967,294. `rounds` says whether it rounds a number: by a type of
    e E f F g G n %, or by a precision without a type."""

    fill: str | None
    align: str | None
    sign: str | None
    z: bool
    alternate: bool
    zero: bool
    width: int | None
    grouping: str | None
    precision: int | None
    type: str | None
    rounds: bool

    @classmethod
    def parse(cls, spec: bytes | str) -> Spec:
        """The parts of a spec; a str stands for its UTF-8 bytes. Raises `Refusal` 68 if it is not of the grammar.

        >>> Spec.parse(">8,.3f").rounds
        True
        """
        spec = _bytes(spec, "a format spec")
        answer = (ctypes.c_uint32 * 12)()
        _function("spec")(spec, len(spec), answer)
        if answer[0]:
            raise _refusal(list(answer))
        _, fill, align, sign, z, alternate, zero, width, grouping, precision, type_, rounds = answer
        align, sign, grouping, type_ = (chr(one) if one else None for one in (align, sign, grouping, type_))
        # A fill of code 0 is told as none; nothing else begins with it.
        own_fill = chr(fill) if fill or spec.startswith(b"\0") else None
        width, precision = (told - 1 if told else None for told in (width, precision))
        return cls(
            own_fill, align, sign, bool(z), bool(alternate), bool(zero), width, grouping, precision, type_, bool(rounds)
        )


@dataclass
class TemplateField:
    """A field of a `Template`: its expression, its conversion, "s", "r", "a" or None, and the parts of its format spec, None
    without one."""

    expression: str
    conversion: str | None = None
    spec: list[str | TemplateField] | None = None


@dataclass
class Template:
    """The parts of an f-string, texts and fields, which may be changed and written back.

    >>> script = "print(f'{mv / 12.5:.0f} mV')"
    >>> template = Template.of(read(script, literals(script, 6).literals))
    >>> for field in template.fields():
    ...     if field.spec == [".0f"]:
    ...         field.spec = [".2f"]
    >>> template.literal()
    "f'{mv / 12.5:.2f} mV'"
    """

    parts: list[str | TemplateField]

    @classmethod
    def of(cls, answer: Answer) -> Template:
        """What a run of literals with an f-string holds; ValueError for any other run. A self-documenting field is a text
        and a field, as it reads."""
        if answer.sort != Sort.JOINED:
            raise ValueError("an answer with an f-string is wanted")
        return cls(_owned(answer.records))

    def fields(self) -> Iterator[TemplateField]:
        """Every field in order, those within specs too."""
        return _fields_in(self.parts)

    def write(self) -> str:
        """The body of an f-string that reads so, in one fixed spelling: reading it gives the same texts, expressions,
        conversions and specs, once empty texts are dropped and touching ones joined. Line ends and quotes stand as they are.

        Raises `Refusal` 55 if the spelling would be read otherwise, 54 for a text that is not UTF-8, ValueError for a
        conversion that there is none of, and TypeError for a part that is no str and no TemplateField."""
        words, text = array.array("I"), bytearray()
        _put(self.parts, _shape_of_part, words, text)
        count = len(words) // WORDS_OF_A_RECORD
        reading = [0, Sort.JOINED, 0, 0, 0, _number("the count", count), _number("the text", len(text)), *[0] * 5]
        lent = (ctypes.c_uint32 * len(words)).from_buffer_copy(words)
        body = (ctypes.c_char * (BODY_ROOM * (len(text) + count)))()
        answer = (ctypes.c_uint32 * 12)()
        _function("write")(lent, len(lent), bytes(text), len(text), (ctypes.c_uint32 * 12)(*reading), body, len(body), answer)
        if answer[0]:
            raise _refusal(list(answer))
        return body[: answer[1]].decode()

    def literal(self) -> str | None:
        """A whole f-string literal with this body, in the first quotes that fit: one or three, single ones before double
        ones. None if none does: a body may have quotes of both kinds, and with a carriage return or a NUL none fits, since
        Python reads the one as a line end and refuses the other. Raises what `write` does."""
        body = self.write()
        fitting = (f"f{quotes}{body}{quotes}" for quotes in QUOTES if _fits(quotes, body))
        return None if "\r" in body or "\0" in body else next(fitting, None)


def read(script: bytes | str, literals: Iterable[Literal], names: Names | None = None) -> Answer:
    """Reads a run of literals, whose bodies lie in `script`; a str stands for its UTF-8 bytes. With names they are looked
    for in their file, which is not checked again.

    Raises `Refusal` if the library refuses them, and ValueError for a number that does not fit into 32 bits."""
    script = _bytes(script)
    numbers = _numbers(literals)
    lent_names = _lent(names)
    answer, words, text = _call(script, numbers, lent_names)
    if answer[0]:
        raise _refusal(answer)
    _, sort, u_mark, start, end, _, _, _, chars, *_ = answer
    records = (words[at : at + WORDS_OF_A_RECORD] for at in range(0, len(words), WORDS_OF_A_RECORD))
    if lent_names:
        signs = itertools.repeat((None, None))
    else:
        signs = iter(_signs(script, numbers, sum(kind == 2 for kind in words[::WORDS_OF_A_RECORD])))
    parts = tuple(_record(own, records, text, signs) for own in records)
    return Answer(Sort(sort), bool(u_mark), start, end, parts, chars)


def literals(script: bytes | str, offset: int) -> Listing:
    """The literals that stand side by side in a script from an offset on; a str stands for its UTF-8 bytes, and the
    offset counts bytes. Between literals spaces, tabs, newlines and comments are passed over, as inside parentheses.
    `read` takes the script and what is listed.

    Raises `Refusal` if the library refuses it, and ValueError for an offset that does not fit into 32 bits."""
    script = _bytes(script)
    offset = _number("the offset", offset)
    found, (_, stop) = _literals("literals", [script, len(script), offset])
    return Listing(found, stop)


def cut(script: bytes | str) -> Cut:
    """Every literal of a whole script, of any kind, without those in expressions; a str stands for its UTF-8 bytes. Line ends are
    taken as they stand, as for `rows`. What lies between the literals has nothing of one, but in comments.

    Raises `Refusal` 49 if the script has more bytes than the library takes.

    >>> cut("x = f'{mv}' + '").to, cut("x = f'{mv}' + '").ended
    (14, 50)
    """
    script = _bytes(script)
    found, (to, ended) = _literals("cut", [script, len(script)])
    return Cut(found, to, ended or None)


def rows(script: bytes | str, names: Names | None = None) -> Rows:
    """Every row of a whole script; a str stands for its UTF-8 bytes. Line ends are taken as they stand: where Python
    would read a carriage return as a newline, so must the caller (`list_script` does). With names the library checks
    file and index at each call; of a script that has no `\\N` the rows are the same without them.

    Raises `Refusal` 49 if the script has more bytes than the library takes."""
    script = _bytes(script)
    room = FIRST_ROWS * NUMBERS_OF_A_ROW
    lent_names = _lent(names)
    call = "fields_named" if lent_names else "fields"
    answer, numbers = _list_call(call, [script, len(script), *lent_names], room, NUMBERS_OF_A_ROW)
    _, count, _, literals, cut_to, *_ = answer
    return Rows(tuple(_row(*own) for own in _cut(numbers, NUMBERS_OF_A_ROW, count)), literals, cut_to)


def replay(script: bytes | str, literals: Iterable[Literal], trace: bytes | str) -> Replay:
    """For each row of a trace the line that Python would write, column k in the k-th top-level field of the template: a run
    of literals, as `read` takes it. A str stands for its UTF-8 bytes.

    A trace is a file of RFC 4180 without a header, whose rows end with CR LF and whose columns are decimal integers of 32
    bits. Each line depends on its row and the template alone.

    Raises `Refusal`: as `read` does for the template, then 68 or 69 for its first field that has no integer's spec, then
    70 to 72 for the first row that is none, 73 for lines of more than 4,294,967,295 bytes; `told` is the field or the row,
    from 0, or the bytes. ValueError for a number that does not fit into 32 bits."""
    script, numbers, trace = _bytes(script), _numbers(literals), _bytes(trace, "a trace's content")
    room = LINE_ROOM_PER_BYTE * len(trace)
    answer, output = _replay_call(script, numbers, trace, room)
    if answer[0] == NO_LINE_ROOM and room < answer[9] < 2**32 - 1:
        answer, output = _replay_call(script, numbers, trace, answer[9])
    if answer[0]:
        raise _refusal(answer)
    return Replay(answer[9], output[: answer[10]])


def compare(first: Answer, second: Answer) -> Comparison:
    """Where two answers differ: the longest equal run of items in front, then the longest behind it at the end, and what lies
    between. Items are equal if their kinds, texts, conversions and specs are, whatever their places, ranges and u marks.

    Raises `Refusal` 57 or 58 for an answer that is none of `read`'s and breaks the rules of records.

    >>> old, new = (read(line, literals(line, 0).literals) for line in ("f'{mv:>6,} mV'", "f'{mv:>8,} mV'"))
    >>> compare(old, new)
    Comparison(front=0, back=1, first=range(0, 1), second=range(0, 1))
    """
    sides = [_lent_answer(first), _lent_answer(second)]
    lent = [part for words, text, reading in sides for part in (words, len(words), text, len(text), reading)]
    numbers = (ctypes.c_uint32 * sum(len(words) // WORDS_OF_A_RECORD for words, _, _ in sides))()
    answer = (ctypes.c_uint32 * 12)()
    _function("compare")(*lent, numbers, len(numbers), answer)
    if answer[0]:
        raise _refusal(list(answer))
    _, front, back, of_first, of_second, *_ = answer
    return Comparison(front, back, range(front, of_first - back), range(front, of_second - back))


def _lent_answer(answer: Answer) -> tuple[ctypes.Array, bytes, ctypes.Array]:
    """Words, text and numbers of an answer, as they are lent to be compared; what does not count is 0."""
    if not isinstance(answer, Answer):
        raise TypeError(f"an Answer is wanted, not {_type(answer)}")
    words, text = array.array("I"), bytearray()
    _put(answer.records, _shape_of_record, words, text)
    reading = [0, answer.sort, 0, 0, 0, len(words) // WORDS_OF_A_RECORD, len(text), 0, 0, 0, 0, 0]
    return (ctypes.c_uint32 * len(words)).from_buffer_copy(words), bytes(text), (ctypes.c_uint32 * 12)(*reading)


def _put(parts: Iterable[object], shape: Callable[[object], tuple], words: array.array, text: bytearray) -> None:
    """Adds the records of parts and of their specs, and their text; ranges, places and u marks are 0. A shape is a kind, a
    text, a conversion or None, and the parts of a spec or None."""
    for part in parts:
        kind, own, conversion, spec = shape(part)
        words.extend([kind, len(text), len(own), 0, 0, ord(conversion) if conversion else 0, int(spec is not None), 0])
        text += own
        if spec is not None:
            words.extend([3, len(text), 0, 0, 0, 0, len(spec), 0])
            _put(spec, shape, words, text)


def _shape_of_record(record: Text | Field | Bytes) -> tuple[int, bytes, str | None, tuple | None]:
    if isinstance(record, Text):
        return 1, _bytes(record.text, "a text"), None, None
    if isinstance(record, Field):
        return 2, _bytes(record.expression, "an expression"), record.conversion, record.spec
    if isinstance(record, Bytes):
        return 4, _undecoded(record.value, "a value"), None, None
    raise TypeError(f"a Text, a Field or Bytes is wanted, not {_type(record)}")


def _shape_of_part(part: str | TemplateField) -> tuple[int, bytes, str | None, list | None]:
    if isinstance(part, str):
        return 1, _bytes(part, "a text"), None, None
    if not isinstance(part, TemplateField):
        raise TypeError(f"a str or a TemplateField is wanted, not {_type(part)}")
    if part.conversion not in CONVERSIONS:
        raise ValueError(f"a conversion is s, r, a or None, not {part.conversion!r}")
    return 2, _bytes(part.expression, "a text"), part.conversion, part.spec


def _owned(records: Iterable[Text | Field]) -> list[str | TemplateField]:
    return [
        record.text
        if isinstance(record, Text)
        else TemplateField(record.expression, record.conversion, None if record.spec is None else _owned(record.spec))
        for record in records
    ]


def _fields_in(parts: list[str | TemplateField]) -> Iterator[TemplateField]:
    for part in parts:
        if isinstance(part, TemplateField):
            yield part
            yield from _fields_in(part.spec or [])


def _fits(quotes: str, body: str) -> bool:
    """Whether a body in quotes is one literal that has this body."""
    script, own = _bytes(f"f{quotes}{body}{quotes}"), _bytes(body)
    whole = Literal(Kind.FSTRING, len(quotes) == 3, 1 + len(quotes), len(own), 0, len(script))
    try:
        return literals(script, 0).literals == (whole,)
    except Refusal:
        return False


def plan_cuts(body: bytes | str, limit: int) -> list[int] | None:
    """Where the body of an f'..' is cut, so that its pieces, of at most so many bytes each, stand as adjacent literals and
    read as it does: offsets in bytes, or None if no cuts do that. A str stands for its UTF-8 bytes.

    The list passes `check_cuts`. It has no cut where the rest needs none, and else each in turn as late as a list that
    passes allows; no other list has both. Bytes count without prefix and quotes, and quotes are not looked at.

    >>> plan_cuts("VDD {mv / 1000:.3f} V, code {code:#06x}", 20)
    [20]

    ValueError for a limit that does not fit into 32 bits."""
    body, limit = _bytes(body, "a body"), _number("the limit", limit)
    offsets = (ctypes.c_uint32 * (0 if len(body) > MOST_BODY_BYTES else len(body)))()
    answer = (ctypes.c_uint32 * 12)()
    _function("cuts_plan")(body, len(body), limit, offsets, len(offsets), answer)
    if answer[0]:
        raise _refusal(list(answer))
    return offsets[: answer[2]] if answer[1] else None


def check_cuts(body: bytes | str, limit: int, cuts: Iterable[int]) -> None:
    """Checks where the body of an f'..' is cut: the offsets rise strictly inside it, each piece has at most so many bytes,
    each reads without refusal, and the pieces joined read as the body does, in kinds, texts, conversions and parts.

    Raises `Refusal`, the first of 64 to 67. ValueError for a number that does not fit into 32 bits."""
    body, limit = _bytes(body, "a body"), _number("the limit", limit)
    numbers = [_number(f"cut {index}", cut) for index, cut in enumerate(cuts)]
    offsets = (ctypes.c_uint32 * len(numbers))(*numbers)
    answer = (ctypes.c_uint32 * 12)()
    _function("cuts_check")(body, len(body), limit, offsets, len(offsets), answer)
    if answer[0]:
        raise _refusal(list(answer))


def _refusal(answer: list[int]) -> Refusal:
    number, literal, place, a, b, opened, line, column, chars, told, *_ = answer
    return Refusal(number, literal, place, (a, b), line, column, opened, chars, told)


def _literals(call: str, lent: list[bytes | int]) -> tuple[tuple[Literal, ...], list[int]]:
    """What a call lists, and the two numbers that it tells behind their count."""
    answer, numbers = _list_call(call, lent, FIRST_LITERALS * NUMBERS_OF_A_LITERAL, 1)
    return tuple(_listed(*own) for own in _cut(numbers, NUMBERS_OF_A_LITERAL, answer[1])), answer[2:4]


def _listed(kind: int, triple: int, *rest: int) -> Literal:
    return Literal(Kind(kind), bool(triple), *rest)


def _row(sort: int, start: int, place: int, *rest: int) -> FieldRow | RefusalRow:
    within = rest[6]
    if sort == REFUSAL_ROW:
        number, a, b, opened, *_ = rest
        return RefusalRow(start, place, number, (a, b), opened or None, within)
    length, conversion, *signs = rest[:6]
    return FieldRow(Reason(sort), start, place, length, _conversion(conversion), _signs_of(*signs), within)


def _conversion(number: int) -> str | None:
    return chr(number) if number else None


def _signs_of(equals: int, bang: int, colon: int, close: int) -> Signs:
    return Signs(equals or None, bang or None, colon or None, close)


def _cut(numbers: list[int], size: int, count: int) -> list[list[int]]:
    """The first so many groups of so many numbers."""
    return [numbers[at : at + size] for at in range(0, count * size, size)]


def _bytes(given: bytes | str, what: str = "a script's content") -> bytes:
    """A str's UTF-8; a lone surrogate becomes bytes that are none, which the library refuses in an f-string."""
    return given.encode("utf-8", "surrogatepass") if isinstance(given, str) else _undecoded(given, what)


def _undecoded(given: bytes, what: str = "a script's content") -> bytes:
    if not isinstance(given, (bytes, bytearray, memoryview)):
        raise TypeError(f"{what} is wanted, as bytes or str, not {_type(given)}")
    return bytes(given)


def _file(file: bytes) -> bytes:
    if not isinstance(file, (bytes, bytearray, memoryview)):
        raise TypeError(f"a file's content is wanted, as bytes, not {_type(file)}")
    return bytes(file)


def _offsets(index: Iterable[int]) -> array.array:
    if not isinstance(index, Iterable):
        raise TypeError(f"a list of offsets is wanted, not {_type(index)}")
    try:
        return array.array("I", iter(index))
    except OverflowError as error:
        raise ValueError("an offset of the index is no number of 32 bits") from error


def _lent(names: Names | None) -> list[object]:
    """What is lent of names: nothing without any."""
    if names is None:
        return []
    if not isinstance(names, Names):
        raise TypeError(f"Names are wanted, not {_type(names)}")
    return [names._file, len(names._file), names._index, len(names._index)]


def _names_call(name: str, file: bytes, index: ctypes.Array) -> int:
    """How many entries the index has."""
    answer = (ctypes.c_uint32 * 12)()
    _function(name)(file, len(file), index, len(index), answer)
    if answer[0]:
        raise Refusal(answer[0], 0, 0, (0, 0))
    return answer[1]


def _numbers(literals: Iterable[Literal]) -> list[int]:
    if not isinstance(literals, Iterable):
        raise TypeError(f"a list of Literals is wanted, not {_type(literals)}")
    numbers = []
    for index, literal in enumerate(literals):
        if not isinstance(literal, Literal):
            raise TypeError(f"literal {index}: a Literal is wanted, not {_type(literal)}")
        numbers += [_number(f"literal {index}: {name}", number) for name, number in vars(literal).items()]
    return numbers


def _number(name: str, number: int) -> int:
    if not hasattr(number, "__index__"):
        raise TypeError(f"{name} is to be a whole number, not {_type(number)}")
    if not 0 <= number < 2**32:
        raise ValueError(f"{name} is {number}, which is no number of 32 bits")
    return operator.index(number)


def _type(given: object) -> str:
    return type(given).__name__


def _room(numbers: list[int]) -> tuple[int, int]:
    """Records and text bytes that are enough for any literals of such bodies. More bytes than one call takes are refused,
    whatever the room."""
    body_bytes = sum(numbers[3::NUMBERS_OF_A_LITERAL])
    return (body_bytes + len(numbers) // NUMBERS_OF_A_LITERAL, 2 * body_bytes) if body_bytes <= MOST_BODY_BYTES else (0, 0)


def _call(script: bytes, numbers: list[int], lent_names: list[object]) -> tuple[list[int], list[int], bytes]:
    """The answer, and of an acceptance the words and the text."""
    records, text_bytes = _room(numbers)
    listed = (ctypes.c_uint32 * len(numbers))(*numbers)
    words = (ctypes.c_uint32 * (records * WORDS_OF_A_RECORD))()
    text = (ctypes.c_char * text_bytes)()
    answer = (ctypes.c_uint32 * 12)()
    lent = [script, len(script), listed, len(listed), *lent_names]
    _function("read_searched" if lent_names else "read")(*lent, words, len(words), text, len(text), answer)
    if answer[0]:
        return list(answer), [], b""
    return list(answer), words[: answer[5] * WORDS_OF_A_RECORD], text[: answer[6]]


def _replay_call(script: bytes, numbers: list[int], trace: bytes, room: int) -> tuple[list[int], ctypes.Array]:
    """The answer, and the output, which has so many bytes."""
    records, text_bytes = _room(numbers)
    listed = (ctypes.c_uint32 * len(numbers))(*numbers)
    words = (ctypes.c_uint32 * (records * WORDS_OF_A_RECORD))()
    text = (ctypes.c_char * text_bytes)()
    output = (ctypes.c_char * room)()
    answer = (ctypes.c_uint32 * 12)()
    lent = [script, len(script), listed, len(listed), trace, len(trace)]
    _function("replay")(*lent, words, len(words), text, len(text), output, len(output), answer)
    return list(answer), output


def _signs(script: bytes, numbers: list[int], fields: int) -> list[tuple[Reason, Signs]]:
    """Reason and signs of so many fields, which are all fields of literals that are accepted; no call for none."""
    if not fields:
        return []
    listed = (ctypes.c_uint32 * len(numbers))(*numbers)
    rows = (ctypes.c_uint32 * (fields * NUMBERS_OF_A_ROW))()
    answer = (ctypes.c_uint32 * 12)()
    _function("signs")(script, len(script), listed, len(listed), rows, len(rows), answer)
    found = (_row(*own) for own in _cut(rows[:], NUMBERS_OF_A_ROW, fields))
    return [(row.reason, row.signs) for row in found]


def _list_call(name: str, lent: list[bytes | int], room: int, size: int) -> tuple[list[int], list[int]]:
    """Answer and list of a call with room for so many numbers, and of a second one if it tells that more are needed, by
    so many at once."""
    numbers = (ctypes.c_uint32 * room)()
    answer = (ctypes.c_uint32 * 12)()
    _function(name)(*lent, numbers, room, answer)
    if answer[0] == NO_LIST_ROOM and answer[9] * size > room:
        return _list_call(name, lent, answer[9] * size, size)
    if answer[0]:
        raise Refusal(*answer[:3], tuple(answer[3:5]))
    return list(answer), numbers[:]


def _record(
    own: list[int],
    following: Iterator[list[int]],
    text: bytes,
    signs: Iterator[tuple[Reason | None, Signs | None]],
) -> Text | Field | Bytes:
    """The record of eight words; a field takes its reason and signs, and the records of its spec from the following ones."""
    kind, offset, length, start, end, mark, parts, place = own
    own_text = text[offset : offset + length]
    if kind == 4:
        return Bytes(own_text, start, end)
    if kind == 1:
        return Text(own_text.decode(), start, end, bool(mark))
    reason, own_signs = next(signs)
    spec = None
    if parts:
        spec_parts = next(following)[6]
        spec = tuple(_record(next(following), following, text, signs) for _ in range(spec_parts))
    return Field(own_text.decode(), _conversion(mark), spec, start, end, place, reason, own_signs)


@functools.lru_cache(maxsize=None)
def _function(name: str) -> Callable[..., None]:
    """A function of the library, by its name without `stumpgarret_`."""
    import stumpgarret_calls

    return stumpgarret_calls.function(name)


# Scripts

BYTE_ORDER_MARK = "\ufeff"
CODING_LINE = re.compile(rb"[ \t\f]*#.*?coding[:=][ \t]*([-\w.]+)")
USUAL_CODINGS = [("utf-8-", "utf-8"), *((begin, "iso-8859-1") for begin in ("latin-1-", "iso-8859-1-", "iso-latin-1-"))]
BLANK_LINE = re.compile(rb"[ \t\f]*(#|\n|$)")
CONTINUATION_BYTES = bytes(range(0x80, 0xC0))
MOST_PATH_CHARS = 4096


@dataclass(frozen=True)
class ScriptField:
    """A field of a script. `line` and `column` are those of the character after its `{`, `end` those after its `}`: they
    count from 1, columns by characters (those of `ast` count from 0, by UTF-8 bytes). `expression` and `spec` are as
    they are written; `spec` is None if there is no `:`. `documented` says whether a self-documenting `=` follows the
    expression; of one that goes on after it (75) `expression` is all of the source. `depth` says in how many other
    fields, by expression or spec, it stands; `class_` whether it rounds."""

    line: int
    column: int
    end: tuple[int, int]
    expression: str
    documented: bool
    conversion: str | None
    reason: Reason
    spec: str | None
    depth: int
    row: FieldRow

    @property
    def class_(self) -> FieldClass:
        """Whether it rounds. A conversion comes first: what is formatted is text then, whatever the spec."""
        if self.conversion is not None:
            return FieldClass.TEXT
        return FieldClass.EXACT if self.spec is None else _class_of(self.spec)


@functools.lru_cache(maxsize=4096)
def _class_of(spec: str) -> FieldClass:
    """By a spec as it is written. One with a brace has a field, or asks for a name of a character, which is 75 too; one with
    an escape is of the mini-language only as a fill, before an align, where Python has no escape."""
    if "{" in spec:
        return FieldClass.COMPUTED
    try:
        told = Spec.parse(spec)
    except Refusal:
        return FieldClass.OWN
    return FieldClass.ROUNDS if told.rounds else FieldClass.EXACT


@dataclass(frozen=True)
class Refused:
    """Something in a script that is not listed, or that Python reads otherwise (75), by a number of `REFUSALS` and its
    name. Line and column count from 1, columns by characters. `meaning` and `lost` are meant for people: what it is,
    and what is not listed because of it. `start` has line and column of its literal, `opened` those just after a bracket
    that is closed by another. `depth` says in how many fields it stands, and `detail` is the first of the refusal's."""

    line: int
    column: int
    number: int
    name: str
    meaning: str
    lost: str
    start: tuple[int, int] | None
    opened: tuple[int, int] | None
    depth: int
    detail: int
    row: RefusalRow | None

    @property
    def reason(self) -> str:
        where = ", opened at line {}, column {}".format(*self.opened) if self.opened else ""
        return f"refused: {self.meaning}{where}" + (f"; {self.lost}" if self.lost else "")


@dataclass(frozen=True)
class ScriptList:
    """What is known of a script: `entries` has its fields and what is refused, in the order of their places. `literals`
    is how many literals it has, and `complete` says whether its fields are all there are."""

    entries: tuple[ScriptField | Refused, ...]
    literals: int
    complete: bool

    @property
    def fields(self) -> list[ScriptField]:
        return [entry for entry in self.entries if isinstance(entry, ScriptField)]

    @property
    def refused(self) -> list[Refused]:
        return [entry for entry in self.entries if isinstance(entry, Refused)]


class Incomplete(Exception):
    """Not all fields of a script are known: `fields` has those that are, `refused` says what was refused."""

    def __init__(self, name: str, found: list[ScriptField], refused: list[Refused]):
        super().__init__(name, found, refused)
        self.name = name
        self.fields = found
        self.refused = refused

    def __str__(self) -> str:
        return "\n".join(f"{self.name}:{one.line}:{one.column}: {one.reason}" for one in self.refused)


class Undecodable(ValueError):
    """A script's bytes are no text of Python's: its coding is unknown, its bytes are not of that coding, or one is 0."""


def fields(source: bytes | str, name: str = "<script>", names: Names | None = None) -> list[ScriptField]:
    """Every field of a script, in the order in which they begin. A field in another's expression (in an f-string
    there) or in another's spec is an item of its own, and comes after the other.

    The name stands in messages. With names those in `\\N{..}` are looked for in their file. Raises `Incomplete` if
    anything is refused, with all that was found, `Undecodable` for bytes that are no text, and ValueError for the path
    of a file in place of its content."""
    found = list_script(source, names)
    if not found.complete:
        raise Incomplete(name, found.fields, found.refused)
    return found.fields


def list_script(source: bytes | str, names: Names | None = None) -> ScriptList:
    """Every field of a script, and what is refused. Raises `Undecodable` for bytes that are no text, and ValueError for the
    path of a file in place of its content."""
    text = text_of(source)
    if "\n" not in text and 0 < len(text) <= MOST_PATH_CHARS and os.path.isfile(text):
        raise ValueError(f"a script's content is wanted, and {text} is the path of a file: open(path, 'rb').read()")
    return _list(_bytes(text), names)


def _list(script: bytes, names: Names | None, searched: str | None = None) -> ScriptList:
    """The list of UTF-8 bytes that are read as they stand; names are said to be searched in a file."""
    try:
        found = rows(script, names)
    except Refusal as refusal:
        meaning = _meaning(refusal.number, refusal.details)
        lost = "no field of the script is listed"
        one = Refused(1, 1, refusal.number, _name(refusal.number), meaning, lost, None, None, 0, 0, None)
        return ScriptList((one,), 0, False)
    searched = searched or ("the file of names" if names else "the library, which has fourteen names,")
    by_place = sorted(found.rows, key=lambda row: (row.place, isinstance(row, RefusalRow)))
    where = positions(script, (place for row in by_place for place in _places(row)))
    entries, ends = [], []
    for row in by_place:
        while ends and ends[-1] <= row.place:
            ends.pop()
        if isinstance(row, FieldRow):
            entries.append(_field(script, row, where, len(ends)))
            ends.append(row.signs.close)
        else:
            opened = None if row.opened is None else where[row.opened]
            place, name = where[row.place], _name(row.number)
            meaning = _meaning(row.number, row.details, **_known(script, row, found.rows, searched))
            lost = _lost(row, where)
            start, detail = where[row.start], row.details[0]
            entries.append(Refused(*place, row.number, name, meaning, lost, start, opened, len(ends), detail, row))
    complete = found.cut_to == len(script) and not any(isinstance(entry, Refused) for entry in entries)
    return ScriptList(tuple(entries), found.literals, complete)


def text_of(source: bytes | str) -> str:
    """A script's text as Python sees it: decoded by byte order mark or coding line, with newlines for line ends.

    Raises `Undecodable` where Python would not take its coding, or a byte 0 in it."""
    text = _decoded(source)
    if "\0" in text:
        line = text.count("\n", 0, text.index("\0")) + 1
        raise Undecodable(f"line {line} has a byte 0: Python does not take it; UTF-16?")
    return text


def _decoded(source: bytes | str) -> str:
    if isinstance(source, str):
        text = source[1:] if source.startswith(BYTE_ORDER_MARK) else source
        return text.replace("\r\n", "\n").replace("\r", "\n")
    content = _undecoded(source).replace(b"\r\n", b"\n").replace(b"\r", b"\n")
    marked = content.startswith(codecs.BOM_UTF8)
    content = content[len(codecs.BOM_UTF8) :] if marked else content
    coding = _coding(content)
    if marked and coding != "utf-8":
        raise Undecodable(f"its coding line says {coding}, and it has a byte order mark of UTF-8")
    try:
        return content.decode(coding)
    except LookupError as error:
        raise Undecodable(f"unknown coding {coding}: {error}") from error
    except UnicodeError as error:
        line = content.count(b"\n", 0, getattr(error, "start", 0)) + 1
        raise Undecodable(f"line {line} is not {coding}: {error}") from error


def _coding(content: bytes) -> str:
    """What a coding line says, by PEP 263: it is one of the first two lines, and a comment or nothing stands before it."""
    first, _, rest = content.partition(b"\n")
    found = CODING_LINE.match(first)
    if not found and BLANK_LINE.match(first):
        found = CODING_LINE.match(rest.partition(b"\n")[0])
    name = found[1].decode() if found else "utf-8"
    plain = name[:12].lower().replace("_", "-") + "-"
    return next((usual for begin, usual in USUAL_CODINGS if plain.startswith(begin)), name)


def positions(script: bytes, places: Iterable[int]) -> dict[int, tuple[int, int]]:
    """Line and column of places in UTF-8 bytes, in one pass: both count from 1, columns by characters."""
    found = {}
    line, column, at = 1, 1, 0
    for place in sorted(set(places)):
        newlines = script.count(b"\n", at, place)
        if newlines:
            line += newlines
            column, at = 1, script.rindex(b"\n", at, place) + 1
        column += len(script[at:place].translate(None, CONTINUATION_BYTES))
        at = place
        found[place] = line, column
    return found


def _places(row: FieldRow | RefusalRow) -> tuple[int, ...]:
    """The places of a row that have a line and column to be told."""
    return (row.place, row.signs.close) if isinstance(row, FieldRow) else (row.start, row.place, row.opened or 0)


def _field(script: bytes, row: FieldRow, where: dict[int, tuple[int, int]], depth: int) -> ScriptField:
    signs = row.signs
    end = (signs.bang or signs.colon or signs.close) - 1
    documented = signs.equals is not None and not script[signs.equals : end].strip(b" ")
    expression = script[row.place : signs.equals - 1 if documented else end].decode()
    spec = None if signs.colon is None else script[signs.colon : signs.close - 1].decode()
    place, close = where[row.place], where[signs.close]
    return ScriptField(*place, close, expression, documented, row.conversion, row.reason, spec, depth, row)


def _known(script: bytes, row: RefusalRow, all_rows: tuple[FieldRow | RefusalRow, ...], searched: str) -> dict[str, str]:
    """What is known of a refusal by the script: which name is not held, and where it was searched; what Python reads
    otherwise."""
    if row.number == NAME_NOT_HELD:
        name = script[row.place : script.find(b"}", row.place)].decode("utf-8", "replace")
        return {"searched": searched, "name": f"the name {_one_line(name)}"}
    if row.number != READ_OTHERWISE:
        return {}
    signs, met = all_rows[row.within - 1].signs, script[row.place : row.place + 1]
    if row.place == signs.equals:
        return {"cause": "something after its self-documenting ="}
    if met == b"\\":
        return {"cause": "a backslash in its spec" if signs.colon and signs.colon <= row.place else "a backslash"}
    return {"cause": "a #" if met == b"#" else "a triple-quoted literal with its own quote inside"}


def _lost(row: RefusalRow, where: dict[int, tuple[int, int]]) -> str:
    """What is not listed because of a refusal."""
    if row.number == READ_OTHERWISE:
        return ""
    if row.number == UNKNOWN_PREFIX:
        return "the string is read as if that word were not there"
    if row.number in NEVER_CLOSED:
        return "no field behind it in the expression is listed" if row.within else "no field behind it is listed"
    return "no field of the literal at line {}, column {} is listed".format(*where[row.start])


# Python's own reading

PYTHON_OF_THE_CHECK = 3, 11
NOT_TAKEN = SyntaxError, ValueError, RecursionError, MemoryError
OPENING = re.compile(rb"[A-Za-z]*('''|\"\"\"|'|\")")


def differences(source: bytes, found: ScriptList) -> list[str]:
    """Where the fields found of a script are not those that Python's own `ast` gives: expression, conversion and spec,
    as Python reads each of them; a line of text for each. Python must be 3.11, whose grammar it is."""
    script = _bytes(text_of(source))
    if not isinstance(found, ScriptList):
        raise TypeError(f"what list_script gives is wanted, not {_type(found)}")
    with warnings.catch_warnings():
        warnings.simplefilter("ignore")
        try:
            tree = ast.parse(source)
        except NOT_TAKEN as error:
            return [f"{getattr(error, 'lineno', None) or 1}: Python refuses the script: {error}"]
        python, ours = collections.defaultdict(list), collections.defaultdict(list)
        for node in ast.walk(tree):
            if isinstance(node, ast.FormattedValue):
                spec = node.format_spec and _dump_without_kind(node.format_spec)
                python[ast.dump(node.value), max(node.conversion, 0), spec].append(node)
        for field in found.fields:
            key = _dump(f"({field.expression})"), ord(field.conversion or "\0"), _spec_dump(script, field)
            ours[key].append(field)
    lacking = [node for key, nodes in python.items() for node in nodes[len(ours.get(key, ())) :]]
    more = [field for key, listed in ours.items() for field in listed[len(python.get(key, ())) :]]
    said = [(node.lineno, 0, f"{node.lineno}: Python alone has {_unparsed(node)}") for node in lacking]
    for one in more:
        said.append((one.line, one.column, f"{one.line}:{one.column}: Python does not have {_braced(one)}"))
    return [text for _, _, text in sorted(said)]


def _dump(expression: str) -> str:
    """What Python reads of an expression; one that it does not take stays as it is."""
    try:
        return ast.dump(ast.parse(expression, mode="eval").body)
    except NOT_TAKEN:
        return expression


def _spec_dump(script: bytes, field: ScriptField) -> str | None:
    """What Python reads of a spec in its literal's quotes."""
    if field.spec is None:
        return None
    opening = OPENING.match(script, field.row.start)
    literal = f"({opening[0].decode()}{{x:{field.spec}}}{opening[1].decode()})"
    try:
        return _dump_without_kind(ast.parse(literal, mode="eval").body.values[0].format_spec)
    except (*NOT_TAKEN, AttributeError):
        return field.spec


def _dump_without_kind(spec: ast.JoinedStr) -> str:
    """What Python read of a spec, without the kind of its texts, which is that of the first literal of the run."""
    values = [ast.Constant(part.value) if isinstance(part, ast.Constant) else part for part in spec.values]
    return ast.dump(ast.JoinedStr(values))


def _unparsed(node: ast.FormattedValue) -> str:
    try:
        return ast.unparse(ast.JoinedStr([node]))
    except ValueError:
        return ast.dump(node)


def _braced(field: ScriptField) -> str:
    return _one_line("{" + "".join(_columns(field)) + "}")


# The command

COMPLETE, INCOMPLETE, UNREAD = range(3)
STANDARD_INPUT = "-"
# Where Debian's package unicode-data puts it.
SYSTEM_NAMES = "/usr/share/unicode/UnicodeData.txt"
ASKS_FOR_A_NAME = b"\\N"
# The module that has each word of the command.
WORDS = {
    "fields": "stumpgarret_command",
    "replay": "stumpgarret_replay",
    "compare": "stumpgarret_compare",
    "wrap": "stumpgarret_wrap",
    "set-spec": "stumpgarret_setspec",
}


def main(arguments: list[str] | None = None) -> int:
    """The command; gives its exit status."""
    arguments = sys.argv[1:] if arguments is None else arguments
    word = arguments[0] if arguments and arguments[0] in WORDS else None
    module = importlib.import_module(WORDS[word or "fields"])
    return module.main(arguments[1:] if word else arguments)


def _columns(field: ScriptField) -> tuple[str, str, str]:
    """Expression, conversion and spec, as they are shown."""
    conversion = f"!{field.conversion}" if field.conversion else ""
    return field.expression + "=" * field.documented, conversion, "" if field.spec is None else f":{field.spec}"


def _one_line(text: str) -> str:
    return re.sub(r"[\\\x00-\x1f\x7f-\x9f\u2028\u2029]", lambda shown: ascii(shown[0])[1:-1], text)


def process() -> None:
    """The command as a process of its own."""
    import stumpgarret_command

    signal.signal(signal.SIGPIPE, signal.SIG_DFL)
    sys.exit(stumpgarret_command.run(main))


if __name__ == "__main__":
    # The modules beside this one, which an isolated Python does not look for there, import it by its name.
    sys.path.insert(0, os.path.dirname(os.path.abspath(__file__)))
    sys.modules["stumpgarret"] = sys.modules["__main__"]
    process()
