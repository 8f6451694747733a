"""The command `stumpgarret replay`: recorded readings through a template of a script, a line for each row.

The lines come from the proved library, by `stumpgarret_replay`. What this file does is not proved: it finds where the run
of literals begins, feeds the trace by blocks of whole rows, says refusals in words, and with --lf turns line ends.
"""

from __future__ import annotations

import argparse
import os
import re
import stat
import sys
import tempfile
import time
from collections.abc import Iterator
from dataclasses import dataclass

import stumpgarret
from stumpgarret import Field, Kind, Literal, Refusal, Spec
from stumpgarret_words import Told, Unusable, output as _output, parsed, parser, place, status_of, write

BLOCK_BYTES = 1 << 20
MOST_LINE_BYTES = 1 << 26
# No integer by a spec of at most 64 characters has more.
MOST_NUMBER_BYTES = 4 * 64
MOST_SHOWN = 40
DESCRIPTION = """
Replays recorded readings through a template: for each row of the trace the line that Python would write, with column k
in the k-th field of the f-string, and a newline.
"""
EPILOG = """
SCRIPT:LINE[:COLUMN] is the run of literals at that place of a script, such as `stumpgarret fields` tells. A field has no
conversion and no nested field, and the spec of an integer: fill and align, sign, #, 0, a width up to 64, grouping, and
a type of d, b, o, x, X or none.

TRACE is a file of RFC 4180 without a header, or - for standard input: rows end with CR LF, columns are parted by commas
and are integers from -2,147,483,648 to 2,147,483,647. Each line depends on its row and the template alone.

--lf takes a file whose rows end with LF, by turning each LF into CR LF before the library sees it. That step is not
proved; nor is how the run is found and the trace cut into whole rows. The lines are.

A refusal is one line on standard error with its number, which chapter 11 of docs/RULES.md explains; rows, columns and
fields count from 1. Nothing is written to standard output then.

Exit status: 0 if every row has its line, 1 if the template or a row is refused, 2 for a wrong use, for what cannot be
read or written, and without the shared library.
"""


@dataclass(frozen=True)
class Template:
    """A run of literals in a script, under a name that is shown; `within` says that it stands in brackets."""

    name: str
    script: bytes
    literals: tuple[Literal, ...]
    within: bool = False

    @property
    def numbers(self) -> list[int]:
        return stumpgarret._numbers(self.literals)

    @property
    def fields(self) -> list[Field]:
        records = stumpgarret.read(self.script, self.literals).records
        return [record for record in records if isinstance(record, Field)]

    def replay(self, trace: bytes, room: int) -> tuple[list[int], bytes]:
        """The answer, and of an acceptance the lines."""
        answer, output = stumpgarret._replay_call(self.script, self.numbers, trace, room)
        return answer, b"" if answer[0] else output[: answer[10]]

    def at(self, place: int) -> str:
        """The name with line and column of a place."""
        return "{}:{}:{}".format(self.name, *stumpgarret.positions(self.script, [place])[place])


# The template


@dataclass(frozen=True)
class Run:
    """Literals that Python joins. `torn` says that Python joins them with a neighbour, too, which the library does not list
    with them: a backslash or a form feed stands between. `within` says that they stand in brackets."""

    literals: tuple[Literal, ...]
    torn: bool
    within: bool

    @property
    def start(self) -> int:
        return self.literals[0].start

    @property
    def end(self) -> int:
        return self.literals[-1].end

    @property
    def formats(self) -> bool:
        return any(literal.kind in (Kind.FSTRING, Kind.RAW_FSTRING) for literal in self.literals)


MET = re.compile(rb"#[^\n]*|[()\[\]{}]|['\"]")
PREFIX = re.compile(rb"(?:^|[^A-Za-z0-9_])((?i:r|u|b|f|br|rb|fr|rf))$", re.DOTALL)
LONGEST_PREFIX = 2
BETWEEN = {False: re.compile(rb"(?:[ \t\f]|\\\n)*"), True: re.compile(rb"(?:[ \t\f\n]|\\\n|#[^\n]*)*")}
OPENING = re.compile(rb"(?i:r|u|b|f|br|rb|fr|rf)?['\"]")


def runs(script: bytes, end: int) -> Iterator[Run]:
    """The runs of a script that begin up to an offset, in order: where one begins is found here, what it has by the library."""
    at = depth = 0
    torn = False
    while True:
        met = MET.search(script, at)
        if not met:
            return
        at = met.end()
        if met[0] in b"([{":
            depth += 1
        elif met[0] in b")]}":
            depth -= 1
        elif met[0] in b"'\"":
            before = PREFIX.search(script[max(0, met.start() - LONGEST_PREFIX - 1) : met.start()])
            start = met.start() - (len(before[1]) if before else 0)
            if start > end:
                return
            listed = stumpgarret.literals(script, start).literals
            for literals in _statements(script, listed, depth > 0):
                at = literals[-1].end
                goes_on = bool(OPENING.match(script, BETWEEN[depth > 0].match(script, at).end()))
                yield Run(literals, torn or goes_on, depth > 0)
                torn = goes_on


def _statements(script: bytes, listed: tuple[Literal, ...], within: bool) -> list[tuple[Literal, ...]]:
    """Literals parted where a newline ends a statement, which none does within brackets."""
    parts = [[listed[0]]]
    for before, literal in zip(listed, listed[1:]):
        if not within and b"\n" in script[before.end : literal.start]:
            parts.append([])
        parts[-1].append(literal)
    return [tuple(part) for part in parts]


def template_at(script: bytes, name: str, line: int, column: int | None) -> Template:
    """The run at a line, or at a line and column, both from 1, columns by characters."""
    lines = script.split(b"\n")
    if not 1 <= line <= len(lines):
        raise Unusable(f"{name} has {len(lines)} lines, and line {line} is none of them")
    begin = sum(len(one) + 1 for one in lines[: line - 1])
    end = begin + len(lines[line - 1])
    if column is not None:
        shown = lines[line - 1].decode("utf-8", "surrogatepass")
        if not 1 <= column <= len(shown) + 1:
            raise Unusable(f"{name}:{line} has {len(shown)} characters, and column {column} is none of them")
        begin = end = begin + len(shown[: column - 1].encode("utf-8", "surrogatepass"))
    try:
        found = [run for run in runs(script, end) if run.start <= end and run.end > begin]
    except Refusal as refusal:
        at = "{}:{}".format(*stumpgarret.positions(script, [refusal.place])[refusal.place])
        raise Told(f"{name}:{at}: {refusal.meaning}") from refusal
    where = f"{name}:{line}" + (f":{column}" if column is not None else "")
    if not found:
        raise Unusable(f"{where}: no string literal stands there")
    found = [run for run in found if run.formats] or found
    if len(found) > 1:
        places = stumpgarret.positions(script, [run.start for run in found])
        named = ", ".join(f"{name}:{at[0]}:{at[1]}" for at in places.values())
        raise Unusable(f"{where}: {len(found)} strings stand there; name one of them: {named}")
    if found[0].torn:
        raise Unusable(
            f"{where}: Python joins this string with one behind a backslash or a form feed, and the library does not: "
            "put them in parentheses, without it"
        )
    return Template(name, script, found[0].literals, found[0].within)


def template_of(text: str) -> Template:
    """Literals that are given as they are, and nothing else with them."""
    script = text.strip().encode("utf-8", "surrogatepass")
    try:
        listed = stumpgarret.literals(script, 0)
    except Refusal as refusal:
        if refusal.number != 52:
            raise Told(f"--template: {refusal.meaning}") from refusal
        said = "--template wants a literal with its prefix and quotes, such as f'{mv:>8} mV'"
        raise Unusable(said) from refusal
    if listed.stop != len(script):
        rest = _shown(script[listed.stop :])
        raise Unusable(f"--template wants literals and nothing else, and '{rest}' follows them")
    return Template("--template", script, listed.literals)


def _check(template: Template) -> tuple[int, int]:
    """How many fields the template has, and how many bytes of text; tells what is refused of it."""
    answer, _ = template.replay(b"", 0)
    if answer[0] in (68, 69):
        field = template.fields[answer[9]]
        raise Told(f"{template.at(field.place)}: field {answer[9] + 1}, {_braced(template, field)}: {_why(answer[0], field)}")
    if answer[0]:
        refusal = stumpgarret._refusal(answer)
        raise Told(f"{template.at(refusal.place)}: {refusal.meaning}")
    return len(template.fields), answer[6]


def _braced(template: Template, field: Field) -> str:
    return _shown(template.script[field.place - 1 : field.signs.close])


def _why(number: int, field: Field) -> str:
    """What is wrong with the spec or the conversion of a field that is refused."""
    parts = field.spec or ()
    if any(isinstance(part, Field) for part in parts):
        return f"{number}, a field in its spec"
    text = "".join(part.text for part in parts)
    if number == 68:
        return f"{number}, '{_shown(text.encode())}' is not of the format specification mini-language"
    spec = Spec.parse(text)
    if spec.z:
        return f"{number}, z is not for integers"
    if spec.precision is not None:
        return f"{number}, a precision is not for integers"
    if spec.type not in (None, "d", "b", "o", "x", "X"):
        return f"{number}, the type {spec.type} is none of d, b, o, x and X"
    if (spec.width or 0) > 64:
        return f"{number}, a width above 64"
    if spec.grouping == "," and spec.type not in (None, "d"):
        return f"{number}, a comma goes with d and not with {spec.type}"
    if field.reason == stumpgarret.Reason.REPR:
        return f"{number}, a self-documenting = without a spec has the conversion !r; with a : behind it, it has none"
    return f"{number}, the conversion !{field.conversion}"


# The trace


def blocks(trace, size: int, lf: bool) -> Iterator[bytes]:
    """A trace by blocks that end with a line's end, but for the last; each as long as fits into so many bytes, or one line.

    A row that is accepted has no byte 10 but in its end, so a block ends with a row; and one with a byte 10 elsewhere is
    refused as 70 wherever it is cut behind that."""
    rest = []
    while True:
        read = trace.read(size)
        if not read:
            break
        cut = read.rfind(b"\n") + 1
        if cut:
            yield _ended(b"".join(rest) + read[:cut], lf)
            rest = []
        if cut < len(read):
            rest.append(read[cut:])
    if rest:
        yield _ended(b"".join(rest), lf)


def _ended(block: bytes, lf: bool) -> bytes:
    """With CR LF for each LF, if that is asked for."""
    return block.replace(b"\r\n", b"\n").replace(b"\n", b"\r\n") if lf else block


class Progress:
    """How far a long trace is, on a terminal."""

    def __init__(self, name: str):
        self.name = name
        self.next = time.monotonic() + 1
        self.shown = False
        self.wanted = sys.stderr is not None and sys.stderr.isatty()

    def tell(self, said: str) -> None:
        if self.wanted and time.monotonic() >= self.next:
            self.next = time.monotonic() + 0.2
            self.shown = True
            print(f"\r\x1b[K{self.name}: {said}", end="", file=sys.stderr, flush=True)

    def clear(self) -> None:
        if self.shown:
            print("\r\x1b[K", end="", file=sys.stderr, flush=True)
            self.shown = False


def _replay(template: Template, path: str, lf: bool) -> None:
    fields, text_bytes = _check(template)
    name = "<stdin>" if path == stumpgarret.STANDARD_INPUT else stumpgarret._one_line(path)
    progress = Progress(name)
    try:
        with _opened(path, name, progress) as trace:
            _through(template, fields, text_bytes, trace, name, lf, progress)
    finally:
        progress.clear()


def _through(template, fields: int, text_bytes: int, trace, name: str, lf: bool, progress: Progress) -> None:
    """Once over the trace to see that no row is refused, and once to write the lines."""
    # So many bytes of a block have lines of at most so many bytes, if its rows are those of the template.
    least_row = 2 * fields + 1
    most_line = text_bytes + fields * MOST_NUMBER_BYTES + 1
    size = max(1, min(BLOCK_BYTES, MOST_LINE_BYTES // most_line * least_row))
    whole = os.fstat(trace.fileno()).st_size or 1
    row = done = most = 0
    for block in blocks(trace, size, lf):
        answer, _ = template.replay(block, 0)
        if answer[0] in (70, 71, 72):
            raise Told(f"{name}: {_row_words(block, row, answer, fields, lf)}")
        most = max(most, answer[9] if answer[0] == 73 else 0)
        row += block.count(b"\r\n")
        done += len(block)
        progress.tell(f"{100 * min(done, whole) // whole} % checked")
    trace.seek(0)
    done = 0
    out = _output()
    shows = not os.isatty(out)
    for block in blocks(trace, size, lf):
        answer, lines = template.replay(block, most)
        if answer[0]:
            raise Unusable(f"{name} changed while it was read")
        write(out, lines)
        done += len(block)
        if shows:
            progress.tell(f"{100 * min(done, whole) // whole} % written")


def _opened(path: str, name: str, progress: Progress):
    """The trace, which can be read twice: what cannot is kept in a temporary file."""
    try:
        if path == stumpgarret.STANDARD_INPUT:
            if sys.stdin is None:
                raise Unusable(f"{name} is closed")
            return _kept(sys.stdin.buffer, progress)
        trace = open(path, "rb")
        if stat.S_ISREG(os.fstat(trace.fileno()).st_mode):
            return trace
        with trace:
            return _kept(trace, progress)
    except OSError as error:
        raise Unusable(f"{name}: {error.strerror}") from error


def _kept(trace, progress: Progress):
    kept = tempfile.TemporaryFile()
    try:
        taken = 0
        while True:
            read = trace.read(BLOCK_BYTES)
            if not read:
                break
            kept.write(read)
            taken += len(read)
            progress.tell(f"{taken >> 20} MiB taken")
        kept.seek(0)
    except BaseException:
        kept.close()
        raise
    return kept


# A row in words

BARE, QUOTED = re.compile(rb'[^",\r\n]*'), re.compile(rb'"((?:[^"\r\n]|"")*)"')
INTEGER = re.compile(rb"-?[0-9]+")
LETTERS = re.compile(rb'"?[A-Za-z_]')
BYTE_ORDER_MARK = b"\xef\xbb\xbf"
LEAST, MOST = -2_147_483_648, 2_147_483_647


def _row_words(block: bytes, before: int, answer: list[int], fields: int, lf: bool) -> str:
    """What is wrong with the row that an answer refuses, so many rows before the block."""
    at = 0
    for _ in range(answer[9]):
        at = block.index(b"\r\n", at) + 2
    row = before + answer[9] + 1
    column, said = _words(block, at, answer[0], fields)
    if row == 1 and block.startswith(BYTE_ORDER_MARK):
        said = "a byte order mark stands before the first number: save the file without it"
    elif row == 1 and column == 1 and LETTERS.match(block):
        said += "; a trace has no header"
    return f"row {row}{f', column {column}' if column else ''}: {answer[0]}, {said}"


def _words(block: bytes, at: int, number: int, fields: int) -> tuple[int | None, str]:
    """The column, if there is one to blame, and what is wrong."""
    if number == 70 and block.startswith((b"\r\n", b"\n"), at):
        return None, "the row is empty"
    column = 1
    while True:
        found = QUOTED.match(block, at) or BARE.match(block, at)
        value = found[1].replace(b'""', b'"') if found.re is QUOTED else found[0]
        at = found.end()
        behind = block[at : at + 1]
        if number == 70:
            if behind == b'"' and not value:
                return column, "its quote is not closed in its line"
            if not INTEGER.fullmatch(value):
                return column, f"'{_shown(value)}' is not digits after at most one -" if value else "it is empty"
            if behind == b"\n":
                return None, "the row ends with LF alone, and not with CR LF; --lf takes such a file"
            if behind == b"\r" and block[at : at + 2] != b"\r\n":
                return None, "a CR stands alone, and not in CR LF"
            if behind not in (b"", b",", b"\r"):
                return column, f"'{_shown(behind)}' stands behind its number"
        if number == 72 and not LEAST <= _value(value) <= MOST:
            return column, f"{_shown(value)} is outside {LEAST:,} to {MOST:,}"
        if behind != b",":
            break
        at, column = at + 1, column + 1
    return None, f"{column} {'column' if column == 1 else 'columns'} for {fields} {'field' if fields == 1 else 'fields'}"


def _value(digits: bytes) -> int:
    """By its first digits, if it is long: Python takes no longer ones at once."""
    sign = -1 if digits.startswith(b"-") else 1
    return sign * int(digits.lstrip(b"-").lstrip(b"0")[:20] or b"0")


def _shown(text: bytes) -> str:
    """On one line, and not too long."""
    shown = text[:MOST_SHOWN].decode("utf-8", "backslashreplace")
    return stumpgarret._one_line(shown) + ("..." if len(text) > MOST_SHOWN else "")


# The command


def main(arguments: list[str]) -> int:
    """The command; gives its exit status."""
    given = _arguments(arguments)
    return status_of(lambda: _replay(_template(given), given.trace, given.lf))


def _template(given: argparse.Namespace) -> Template:
    return template_of(given.template) if given.template is not None else template_in(given.place)


def template_in(place: re.Match) -> Template:
    """The run at a place of a script, which is read."""
    path = place["script"]
    name = stumpgarret._one_line(path)
    try:
        with open(path, "rb") as file:
            script = stumpgarret._bytes(stumpgarret.text_of(file.read()))
    except OSError as error:
        raise Unusable(f"{name}: {error.strerror}") from error
    except stumpgarret.Undecodable as error:
        raise Unusable(f"{name}: {error}") from error
    return template_at(script, name, int(place["line"]), int(place["column"]) if place["column"] else None)


def _arguments(arguments: list[str]) -> argparse.Namespace:
    usage = "%(prog)s [--lf] SCRIPT:LINE[:COLUMN] TRACE\n       %(prog)s [--lf] --template TEXT TRACE"
    options = parser("stumpgarret replay", usage, DESCRIPTION, EPILOG)
    options.add_argument("--template", metavar="TEXT", help="take TEXT, a literal with prefix and quotes, for the template")
    options.add_argument("--lf", action="store_true", help="take rows that end with LF (this step is not proved)")
    given = parsed(options, arguments)
    if given.template is None and len(given.given) != 2:
        options.error("SCRIPT:LINE[:COLUMN] and TRACE are wanted")
    if given.template is not None and len(given.given) != 1:
        options.error("TRACE alone is wanted beside --template TEXT")
    given.trace = given.given[-1]
    if given.template is None:
        given.place = place(options, given.given[0])
    return given
