"""The command `stumpgarret set-spec`: another format spec for one field of a script, and not a byte else changed.

Where the field's own `:` and `}` stand comes from the proved list. What this file does is not proved: it puts the spec there.
The script is listed before and after, and nothing is written unless every other field stayed as it was and this one has the
new spec.
"""

from __future__ import annotations

import argparse
import contextlib
import os
import re
import stat
import tempfile
from dataclasses import dataclass

import stumpgarret
import stumpgarret_notebook
from stumpgarret import Refusal, ScriptField, ScriptList, Spec, _one_line
from stumpgarret_command import _content, names_for
from stumpgarret_files import NOTEBOOK
from stumpgarret_words import Told, Unusable, complain, parsed, parser, place, put, status_of

LINE_END = re.compile(rb"\r\n|\r|\n")
# What would end the field or its literal, or be read otherwise there.
NOT_IN_A_SPEC = re.compile(r"[{}'\"\\\r\n\0]")
DESCRIPTION = """
Puts another format spec between the `:` and the `}` of a field, or behind its expression if it has none, and prints the
script. Not a byte else changes.
"""
EPILOG = """
SCRIPT:LINE:COLUMN is the place of a field, as `stumpgarret fields` tells it; - is standard input. SPEC is what stands behind
the colon, such as .3f; an empty one takes the colon away too. A SPEC that begins with - goes behind a --.

The script is listed before and after: all other fields are to be the same in order, and this one is to have the new spec.
Else nothing is written. One line on standard error says what was changed, and whether the field rounds now.

--in-place writes to the file: to a new one in its folder, with the same permissions, which then takes its place.

Exit status: 0 if the script is written, 1 if it is refused or another field would change, 2 for a wrong use, for a place
where no field begins, for what cannot be read or written, and without the shared library.
"""


@dataclass(frozen=True)
class Change:
    """What is put into a script in the place of some of its bytes."""

    begin: int
    end: int
    text: str

    def shifted(self, at: int | None) -> int | None:
        """Where a place that is not changed stands afterwards."""
        return at if at is None or at <= self.begin else at + len(self.text.encode()) - (self.end - self.begin)


def change(field: ScriptField, spec: str) -> Change:
    """Between its own `:` and `}`; with a colon where there was none, and without one for an empty spec."""
    signs = field.row.signs
    end = signs.close - 1
    if signs.colon is None:
        return Change(end, end, f":{spec}" if spec else "")
    return Change(signs.colon, end, spec) if spec else Change(signs.colon - 1, end, "")


def field_at(found: ScriptList, name: str, line: int, column: int) -> ScriptField:
    for field in found.fields:
        if (field.line, field.column) == (line, column):
            return field
    there = [f"{name}:{one.line}:{one.column} {_one_line(one.expression)}" for one in found.fields if one.line == line]
    said = f"those of line {line}: {', '.join(there)}" if there else f"there is none in line {line}"
    raise Unusable(f"{name}:{line}:{column}: no field begins here; {said}")


def see_again(name: str, before: ScriptList, after: ScriptList, field: ScriptField, made: Change, spec: str) -> ScriptField:
    """The changed field. All others are as they were, in order, but for those of the spec that is gone."""
    if not after.complete:
        raise Told(f"{name}: with this spec the script is {after.refused[0].reason}")
    stay = [one for one in before.fields if not made.begin < one.row.place < made.end]
    if len(stay) != len(after.fields):
        raise Told(f"{name}: with this spec the script has other fields")
    changed = None
    for old, new in zip(stay, after.fields):
        if old is field:
            changed = new
            same = _where(old, made)[:4] == _where(new)[:4] and new.spec == (spec or None)
        else:
            same = _where(old, made) == _where(new)
        if not same:
            raise Told(f"{name}:{old.line}:{old.column}: with this spec the field {_one_line(old.expression)} is another")
    return changed


def _where(field: ScriptField, made: Change = Change(0, 0, "")) -> tuple[object, ...]:
    """All that is known of a field, after a change; what a spec may alter comes last."""
    row, signs = field.row, field.row.signs
    start, at, equals, bang, close = map(made.shifted, (row.start, row.place, signs.equals, signs.bang, signs.close))
    own = at, equals, bang, close
    return start, own, field.depth, bang and field.conversion, made.shifted(signs.colon), field.conversion, field.reason


def changed_bytes(content: bytes, script: bytes, made: Change) -> bytes:
    """The file's own bytes with the change, in its own coding and with its own line ends."""
    mark = len(stumpgarret.codecs.BOM_UTF8) if content.startswith(stumpgarret.codecs.BOM_UTF8) else 0
    coding = stumpgarret._coding(LINE_END.sub(b"\n", content[mark:]))
    where = stumpgarret.positions(script, (made.begin, made.end))
    try:
        begin, end = (_offset(content, coding, mark, *where[at]) for at in (made.begin, made.end))
        return content[:begin] + made.text.encode(coding) + content[end:]
    except UnicodeError as error:
        raise Unusable(f"the spec cannot be written in the script's coding, {coding}") from error


def _offset(content: bytes, coding: str, mark: int, line: int, column: int) -> int:
    """Of a line and column, both from 1, columns by characters."""
    ends = [mark, *(found.end() for found in LINE_END.finditer(content))]
    begin = ends[line - 1]
    own = content[begin : ends[line] if line < len(ends) else len(content)].decode(coding)
    return begin + len(own[: column - 1].encode(coding))


def set_spec(content: bytes, name: str, line: int, column: int, spec: str, named: str | None) -> tuple[bytes, str]:
    """The changed bytes, and what is said of the change."""
    if stumpgarret_notebook.is_one(content) or name.endswith(NOTEBOOK):
        raise Unusable(f"{name}: the cells of a notebook are not changed")
    before, script = _listed(content, name, named)
    if not before.complete:
        one = before.refused[0]
        raise Told(f"{name}:{one.line}:{one.column}: {one.reason}; a script that is not listed whole is not changed")
    field = field_at(before, name, line, column)
    made = change(field, spec)
    new = changed_bytes(content, script, made)
    after, written = _listed(new, name, named)
    if written != script[: made.begin] + made.text.encode() + script[made.end :]:
        raise Told(f"{name}: in the coding of this script a spec cannot be put in its place")
    now = see_again(name, before, after, field, made, spec)
    shown = (_one_line("".join(stumpgarret._columns(one)[1:])) or "no spec" for one in (field, now))
    return new, f"{name}:{line}:{column}: {_one_line(field.expression)}: {' is now '.join(shown)}, {now.class_.value}"


def _listed(content: bytes, name: str, named: str | None) -> tuple[ScriptList, bytes]:
    try:
        script = stumpgarret._bytes(stumpgarret.text_of(content))
    except stumpgarret.Undecodable as error:
        raise Unusable(f"{name}: {error}") from error
    return stumpgarret._list(script, names_for(script, named)), script


def replace(path: str, content: bytes) -> None:
    """A new file in the same folder, with the same permissions and, where that is allowed, owner, moved over the old one."""
    path = os.path.realpath(path)
    known = os.stat(path)
    if not stat.S_ISREG(known.st_mode):
        raise Unusable(f"{_one_line(path)}: this is no file that another can take the place of")
    handle, new = tempfile.mkstemp(prefix=os.path.basename(path) + ".", dir=os.path.dirname(path))
    try:
        with os.fdopen(handle, "wb") as file:
            file.write(content)
            with contextlib.suppress(PermissionError):
                os.fchown(file.fileno(), known.st_uid, known.st_gid)
            os.fchmod(file.fileno(), stat.S_IMODE(known.st_mode))
        os.replace(new, path)
    except BaseException:
        os.unlink(new)
        raise


# The command


def main(arguments: list[str]) -> int:
    """The command; gives its exit status."""
    given = _arguments(arguments)
    return status_of(lambda: _set(given))


def _set(given: argparse.Namespace) -> int:
    path = given.place["script"]
    name = "<stdin>" if path == stumpgarret.STANDARD_INPUT else _one_line(path)
    try:
        content = _content(path)
        line, column = int(given.place["line"]), int(given.place["column"])
        new, said = set_spec(content, name, line, column, given.spec, given.names)
        if given.in_place:
            replace(path, new)
        else:
            put(new)
    except OSError as error:
        raise Unusable(f"{name}: {error.strerror}") from error
    return complain(said, 0)


def _arguments(arguments: list[str]) -> argparse.Namespace:
    usage = "%(prog)s [--in-place] [--names FILE] SCRIPT:LINE:COLUMN SPEC"
    options = parser("stumpgarret set-spec", usage, DESCRIPTION, EPILOG)
    options.add_argument("--in-place", action="store_true", help="write to the file, and not to standard output")
    options.add_argument("--names", metavar="FILE", help="take names of characters from a UnicodeData.txt")
    given = parsed(options, arguments)
    if len(given.given) != 2:
        options.error("SCRIPT:LINE:COLUMN and SPEC are wanted")
    where, given.spec = given.given
    given.place = place(options, where, "SCRIPT:LINE:COLUMN", "bench.py:3:10")
    odd = NOT_IN_A_SPEC.search(given.spec)
    if odd:
        options.error(f"a SPEC has no {_shown(odd[0])}, which would not stay in it: {_one_line(given.spec)}")
    if given.spec.startswith(":") and not _is_of_the_grammar(given.spec):
        options.error(f"SPEC is what stands behind the colon: {given.spec[1:]}")
    if given.in_place and given.place["script"] == stumpgarret.STANDARD_INPUT:
        options.error("standard input has no file to write to")
    return given


def _is_of_the_grammar(spec: str) -> bool:
    try:
        Spec.parse(spec)
    except Refusal:
        return False
    return True


def _shown(char: str) -> str:
    kinds = {"{": "brace", "}": "brace", "'": "quote", '"': "quote", "\\": "backslash", "\0": "NUL"}
    return kinds.get(char, "line end")
