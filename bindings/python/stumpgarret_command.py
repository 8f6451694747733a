"""The command `stumpgarret fields`: scripts in, every field of their f-strings out, and an exit status that says whether these
are all.

The fields come from the proved library, by `stumpgarret.list_script`. What this file does is not proved: it finds and decodes
the scripts, prints what was found and what was refused, and counts.
"""

from __future__ import annotations

import argparse
import functools
import io
import json
import os
import re
import stat
import sys
import threading
import unicodedata
from dataclasses import dataclass

import stumpgarret
import stumpgarret_calls
import stumpgarret_files
import stumpgarret_formatters
import stumpgarret_notebook
import stumpgarret_rounds
import stumpgarret_rules
import stumpgarret_words
from stumpgarret import COMPLETE, INCOMPLETE, NAME_NOT_HELD, UNREAD, FieldClass, Refused, ScriptField, _one_line
from stumpgarret_formatters import Formatter
from stumpgarret_words import UnusableNames

INTERRUPTED = 130
PATIENCE_SECONDS = 2
CLOSED = "standard output is closed"
NAME = re.compile(rb"[^}\n]*")
PLACE = re.compile(r"(?P<line>[0-9]+)(?::(?P<column>[0-9]+))?: (?P<said>.*)", re.DOTALL)
RED, GREEN, CYAN, YELLOW = 31, 32, 36, 33
CLASSES = {
    FieldClass.ROUNDS: "rounds",
    FieldClass.COMPUTED: "may round: its spec has a field",
    FieldClass.OWN: "may round: its spec is a type's own",
}
DESCRIPTION = """
Lists every formatted field of the f-strings of Python scripts. The operator `%`, `str.format` and `format()` format
too, and are not listed; where they stand is searched for, and told.
"""
EPILOG = r"""
SCRIPT is a path, - for standard input, or a folder: every *.py, *.pyw and *.ipynb below it, but for what stands in hidden
folders, virtual environments, site-packages, node_modules and __pycache__. Of a notebook each code cell is a script, listed
as PATH:cell 3:LINE:COLUMN; a line of a cell that begins with % or ! is not Python, is left out, and is told.

A line for each field, with tabs between: path:line:column of its expression, the expression, the conversion with its
`!`, the spec with its `:`. They are sorted by place; a field in the expression or spec of another comes after it. A
self-documenting `=` is shown behind the expression. A control character is shown as Python's escape, a newline as \n,
and a backslash as two: a written \n is \\n. What is refused is told on standard error, with what to change; the last
line there says how many fields are listed, and whether these are all.

A name of a character, as in \N{DEGREE SIGN}, is looked for in a file of names, byte for byte. That is FILE, else
SYSTEM_NAMES (Debian: unicode-data) if it is there; else fourteen names are known.
A name that is not found is refused (13), and so is a file that is none (60, 61): nothing is listed by another then.

A field is of one of five classes, by its conversion and its spec alone. `rounds`: by a type of e E f F g G n %, or by a
precision without a type. `computed`: its spec has a field, so its digits are decided when it runs. `own`: its spec is a
type's own, as dates have. `text`: a conversion is written or implied, so what is formatted is text. `exact`: none of
these. --rounds prints the first three, and is not passed while there is one.

A `%` behind a literal, a `%=`, and calls of .format, .format_map, format and round are told on standard error, with line and
column: `bench.py:11:9: formats with %, which is not listed`. This is a search, not a proof: a template in a variable is not
found. They leave the exit status as it is; with --rounds they count.

A line of the FILE of --allow is `path:expression  # reason`: a field of this expression, as it is listed, may round in that
script; its path is as it is listed, or counts from the folder of FILE. It needs a reason. One that nothing is met by is told.
What else formats is accepted by the text of its line, without its comment.

The table [tool.stumpgarret] of the nearest pyproject.toml, from the working folder upwards, may have `exclude`, a list of
patterns, `names`, a path, and `allow`, a list of paths; all count from its folder.

Exit status: 0 if these are all fields of all scripts, 1 if something was refused (or --check found a difference, or
--rounds something that is not allowed), 2 for a wrong use, for a script that cannot be read or decoded, for a file of names that cannot be read or is refused,
without the shared library, and for any other failure; 130 if it was interrupted.
""".replace("SYSTEM_NAMES", stumpgarret.SYSTEM_NAMES)
USAGE = """%(prog)s [fields] [--why] [--classes] [--rounds] [--allow FILE] [--json] [--html FILE] [--sarif FILE]
                   [--names FILE] [--check] [--exclude GLOB] [--files-from FILE] [--isolated] [--quiet] SCRIPT...
       %(prog)s replay [--lf] SCRIPT:LINE[:COLUMN] TRACE   (%(prog)s replay --help)
       %(prog)s compare OLD[:LINE[:COLUMN]] NEW[:LINE[:COLUMN]]   (%(prog)s compare --help)
       %(prog)s wrap [--limit N] [--check OLD:LINE[:COLUMN]] SCRIPT:LINE[:COLUMN]   (%(prog)s wrap --help)
       %(prog)s set-spec [--in-place] SCRIPT:LINE:COLUMN SPEC   (%(prog)s set-spec --help)
       %(prog)s --explain NUMBER"""


def main(arguments: list[str]) -> int:
    """The command; gives its exit status."""
    given = _arguments(arguments)
    for stream in (sys.stdout, sys.stderr):
        if isinstance(stream, io.TextIOWrapper):
            stream.reconfigure(errors="backslashreplace")
    if sys.stdout is None and not given.html:
        return _fail(CLOSED)
    report = Report(given)
    try:
        if given.names is not None:
            given.lent_names()
        exclude = [("", pattern) for pattern in given.exclude]
        exclude += [(given.project.folder, pattern) for pattern in given.project.exclude]
        for path in stumpgarret_files.scripts(given.scripts, exclude, report.failed):
            report.script(path)
    except (stumpgarret.Unavailable, UnusableNames) as error:
        return report.end(str(error))
    if given.scripts and not report.counts.scripts and not report.counts.unreadable:
        return report.end(f"there is no *.py, *.pyw or *.ipynb below {', '.join(map(_one_line, given.scripts))}")
    return report.end()


def _fail(said: str) -> int:
    _complain(f"stumpgarret: {said}")
    return UNREAD


# What is asked for


def _arguments(arguments: list[str]) -> argparse.Namespace:
    parser = stumpgarret_words.parser("stumpgarret", USAGE, DESCRIPTION, EPILOG)
    parser.add_argument("--why", action="store_true", help="add the reason of each conversion")
    parser.add_argument("--classes", action="store_true", help="add the class of each field: whether it rounds")
    parser.add_argument("--rounds", action="store_true", help="list only what rounds or may round; status 1 if there is any")
    parser.add_argument(
        "--allow", metavar="FILE", action="append", default=[], help="accept what a list names, with reasons; repeatable"
    )
    parser.add_argument("--json", action="store_true", help="a JSON object for each field, refusal and failure, and one last")
    parser.add_argument("--html", metavar="FILE", help="in place of the list write a page, to a file that ends in .html")
    parser.add_argument("--sarif", metavar="FILE", help="write what is refused to a file too, as SARIF 2.1.0")
    parser.add_argument("--names", metavar="FILE", help="take names of characters from a UnicodeData.txt")
    parser.add_argument("--check", action="store_true", help="compare with Python's own ast (Python 3.11 only)")
    parser.add_argument(
        "--exclude", metavar="GLOB", action="append", default=[], help="leave out what is so called below a folder; repeatable"
    )
    parser.add_argument("--files-from", metavar="FILE", help="take paths from a file too, a line each; - is standard input")
    parser.add_argument("--isolated", action="store_true", help="leave every pyproject.toml out")
    parser.add_argument("--quiet", action="store_true", help="leave the last line on standard error out")
    parser.add_argument("--explain", metavar="NUMBER", help="say what a refusal means, and what to change")
    parser.add_argument("--version", action="store_true", help="say version, commit, the library's hash, and where names are from")
    parser.add_argument("scripts", nargs="*", metavar="SCRIPT", help="a path, a folder, or - for standard input")
    given = parser.parse_args(arguments)
    if given.explain is not None:
        _explain(parser, given.explain)
    try:
        given.project = stumpgarret_files.Project() if given.isolated else stumpgarret_files.project(os.curdir)
    except stumpgarret_files.Unusable as error:
        parser.exit(_fail(str(error)))
    given.names = given.project.names if given.names is None else given.names
    try:
        given.allowed = stumpgarret_rounds.allowed([*given.allow, *given.project.allow])
    except stumpgarret_rounds.Unusable as error:
        parser.exit(_fail(str(error)))
    given.names_path = _names_path(given.names)
    given.lent_names = functools.lru_cache(maxsize=None)(lambda: _names_of(given.names_path))
    if given.version:
        _say(parser, "\n".join([*_version_lines(), f"names of characters: {_names_said(given.names_path)}\n"]))
    if given.html is not None and not given.html.endswith(".html"):
        parser.error(f"--html needs a file that ends in .html before the scripts, and this is {given.html}")
    if given.html and (given.json or given.why or given.classes):
        parser.error("--html goes with none of --json, --why and --classes: the page says both, and there is no list")
    if given.check and sys.version_info[:2] != stumpgarret.PYTHON_OF_THE_CHECK:
        parser.error("--check needs Python 3.11, and this is {}.{}".format(*sys.version_info))
    if [*given.scripts, given.files_from].count(stumpgarret.STANDARD_INPUT) > 1:
        parser.error("standard input is named twice, and can be read once")
    if given.files_from is not None:
        given.scripts = [*given.scripts, *_listed(parser, given.files_from)]
    elif not given.scripts:
        parser.error("the following arguments are required: SCRIPT")
    return given


def _explain(parser: argparse.ArgumentParser, number: str) -> None:
    chapters = stumpgarret_rules.chapters()
    if not chapters:
        parser.exit(_fail("docs/RULES.md, which has the chapters, is not there"))
    if number not in map(str, chapters):
        parser.error(f"--explain takes the number of a refusal, one of {', '.join(map(str, chapters))}")
    _say(parser, chapters[int(number)])


def _say(parser: argparse.ArgumentParser, text: str) -> None:
    """All that was asked for."""
    if sys.stdout is None:
        parser.exit(_fail(CLOSED))
    print(text, end="")
    parser.exit()


def _listed(parser: argparse.ArgumentParser, path: str) -> list[str]:
    try:
        return stumpgarret_files.listed(_content(path))
    except OSError as error:
        parser.exit(_fail(f"the list {_one_line(path)} cannot be read: {error.strerror or error}"))


def _version_lines() -> list[str]:
    commit = _commit()
    return [
        f"stumpgarret {stumpgarret.__version__}" + (f", commit {commit}" if commit else ""),
        stumpgarret_calls.told(),
    ]


def _commit() -> str:
    """The commit that this module is of: what `./install` wrote beside it, else that of the clone; nothing if neither is
    there."""
    here = os.path.dirname(os.path.abspath(__file__))
    try:
        with open(os.path.join(here, "stumpgarret_commit"), encoding="ascii") as file:
            return file.read().strip()
    except OSError:
        pass
    git = os.path.join(here, "..", "..", ".git")
    try:
        with open(os.path.join(git, "HEAD"), encoding="utf-8") as file:
            head = file.read().strip()
        if not head.startswith("ref: "):
            return head
        if os.path.exists(os.path.join(git, head[5:])):
            with open(os.path.join(git, head[5:]), encoding="ascii") as file:
                return file.read().strip()
        with open(os.path.join(git, "packed-refs"), encoding="utf-8") as file:
            return next((line.split()[0] for line in file if line.rstrip().endswith(head[4:])), "")
    except (OSError, ValueError):
        return ""


def _names_path(named: str | None) -> str | None:
    """The file that is named, else the system's if it is there."""
    return named if named is not None else stumpgarret.SYSTEM_NAMES if os.path.exists(stumpgarret.SYSTEM_NAMES) else None


def names_for(script: bytes, named: str | None) -> stumpgarret.Names | None:
    """Those of a file, or none where a script asks for none: its reading is the same, and no file is read."""
    return _names_of(_names_path(named)) if stumpgarret.ASKS_FOR_A_NAME in script else None


def _names_said(path: str | None) -> str:
    return "fourteen, of the library" if path is None else _one_line(path)


def _names_of(path: str | None) -> stumpgarret.Names | None:
    if path is None:
        return None
    try:
        with open(path, "rb") as file:
            return stumpgarret.Names.build(file.read())
    except OSError as error:
        raise UnusableNames(f"the file of names {_one_line(path)} cannot be read: {error.strerror}") from error
    except stumpgarret.Refusal as refusal:
        said = "nothing more is listed; --names FILE names another"
        raise UnusableNames(f"the file of names {_one_line(path)} is {refusal}; {said}") from refusal


# What is read


@dataclass(frozen=True)
class Part:
    """A script, or a code cell of one that is a notebook: its path as it is shown, the cell's number, its content."""

    path: str
    cell: int | None
    content: bytes

    @property
    def name(self) -> str:
        return self.path if self.cell is None else f"{self.path}:cell {self.cell}"


def _content(path: str) -> bytes:
    """The bytes of a file. If it is none that ends, as a pipe or a terminal is, and nothing comes, a note says so."""
    standard = path == stumpgarret.STANDARD_INPUT
    if not standard and stat.S_ISREG(os.stat(path).st_mode):
        with open(path, "rb") as file:
            return file.read()
    if standard and sys.stdin is None:
        raise OSError(None, "it is closed")
    name = "<stdin>" if standard else _one_line(path)
    said = f"{name}: nothing has come yet, and it is read to its end (of a terminal: Ctrl-D)"
    note = threading.Timer(PATIENCE_SECONDS, _complain, [said])
    note.daemon = True
    note.start()
    try:
        with sys.stdin.buffer if standard else open(path, "rb") as file:
            first = file.read(1)
            note.cancel()
            return first + file.read()
    finally:
        note.cancel()


# What is told


@dataclass
class Counts:
    scripts: int = 0
    fields: int = 0
    refusals: int = 0
    unreadable: int = 0
    differences: int = 0
    left_out: int = 0
    rounding: int = 0
    formatters: int = 0
    allowed: int = 0


@dataclass(frozen=True)
class Finding:
    """What SARIF tells: by the number of a refusal or the name of another rule, in words, at a place; why it is allowed, if
    it is."""

    rule: int | str
    said: str
    part: Part
    line: int
    column: int | None
    allowed: str | None = None
    level: str = "error"


class Report:
    """What is printed and written of scripts, one after the other."""

    def __init__(self, given: argparse.Namespace):
        self.given = given
        self.counts = Counts()
        self.status = COMPLETE
        self.on_page = [] if given.html else None
        self.findings, self.failures = [], []
        self.out, self.err = Paint(sys.stdout), Paint(sys.stderr)
        self.progress = _progress()

    def script(self, path: str) -> None:
        """Prints what is known of a script, or puts it on the page."""
        name = "<stdin>" if path == stumpgarret.STANDARD_INPUT else path
        self.counts.scripts += 1
        self.progress.tell(f"{self.counts.scripts:,} scripts")
        try:
            content = _content(path)
        except OSError as error:
            self.failed(name, error)
            return
        if not (path.endswith(stumpgarret_files.NOTEBOOK) or stumpgarret_notebook.is_one(content)):
            self.part(Part(name, None, content))
            return
        try:
            cells = stumpgarret_notebook.cells(content)
        except stumpgarret.Undecodable as error:
            self.failed(name, error)
            return
        for cell in cells:
            part = Part(name, cell.number, cell.source.encode("utf-8", "surrogatepass"))
            self.part(part, cell.source)
            for line, text in cell.left_out:
                self.counts.left_out += 1
                self.told(part.name, f"{line}", f"not Python, left out: {text}")
                self.object("left_out", part, line=line, text=text)

    def part(self, part: Part, source: str | None = None) -> None:
        """Prints what is known of a part, by its text if that is not to be decoded."""
        source = part.content if source is None else source
        try:
            text = stumpgarret.text_of(source)
        except stumpgarret.Undecodable as error:
            self.failed(part.name, error, part)
            return
        script = stumpgarret._bytes(text)
        # Without names where none is asked for: the list is the same, and no file is read.
        asks = stumpgarret.ASKS_FOR_A_NAME in script
        names = self.given.lent_names() if asks else None
        found = stumpgarret._list(script, names, names and _names_said(self.given.names_path))
        differing = stumpgarret.differences(source, found) if self.given.check else None
        self.given.allowed.saw(part.path)
        self.counts.fields += len(found.fields)
        self.counts.refusals += len(found.refused)
        self.counts.differences += len(differing or ())
        complete = found.complete and not differing
        self.status = max(self.status, COMPLETE if complete else INCOMPLETE)
        entries = sorted([*found.entries, *_formatters(script, found)], key=lambda entry: (entry.line, entry.column))
        for entry in entries:
            self.entry(part, script, entry)
        for one in found.refused:
            self.told(part.name, f"{one.line}:{one.column}", one.reason, self.change(script, one))
            self.findings.append(Finding(one.number, one.reason, part, one.line, one.column))
        for said in differing or ():
            self.differing(part, said)
        if self.on_page is not None:
            shown = {"name": part.name, "content": part.content, "text": text, "differences": differing}
            if asks:
                shown["names"] = _names_said(self.given.names_path), names and names.file
            rows = [self.page_row(part, script, entry) for entry in entries]
            self.on_page.append({**shown, "entries": entries, "rows": rows, "complete": complete})

    def entry(self, part: Part, script: bytes, entry: ScriptField | Refused | Formatter) -> None:
        """A line or an object of the list."""
        if isinstance(entry, Formatter):
            self.formatter(part, entry)
            return
        if isinstance(entry, Refused):
            self.object("refusal", part, **_json(entry), change=self.change(script, entry))
            return
        allowed = self.allowed(part, entry)
        if entry.class_.may_round:
            self.rounding(part, entry, allowed)
        if self.on_page is not None or self.given.rounds and not entry.class_.may_round:
            return
        if self.given.json:
            said = {"reason": entry.reason.name.lower(), "class": entry.class_.value, "allowed": allowed}
            self.object("field", part, **{**_json(entry), **said})
        else:
            self.line(part, entry, allowed)

    def line(self, part: Part, entry: ScriptField, allowed: str | None) -> None:
        place = self.out.paint(CYAN, _one_line(f"{part.name}:{entry.line}:{entry.column}"))
        expression, conversion, spec = map(_one_line, stumpgarret._columns(entry))
        shown = [place, expression, conversion, spec and self.out.paint(YELLOW, spec)]
        shown += [stumpgarret.REASONS[entry.reason]] if self.given.why else []
        shown += [entry.class_.value] if self.given.classes or self.given.rounds else []
        shown += [f"allowed: {_one_line(allowed)}"] if self.given.rounds and allowed is not None else []
        self.progress.clear()
        print(*shown, sep="\t")

    def formatter(self, part: Part, one: Formatter) -> None:
        """Something that formats and is no field."""
        allowed = self.allowed(part, one)
        self.counts.formatters += allowed is None
        self.counts.allowed += allowed is not None
        self.told(part.name, f"{one.line}:{one.column}", _otherwise(one, allowed))
        self.object("formatter", part, **_json(one), meaning=one.meaning, allowed=allowed)
        level = "error" if self.given.rounds else "note"
        self.findings.append(Finding("formats", one.meaning, part, one.line, one.column, allowed, level))

    def allowed(self, part: Part, entry: ScriptField | Formatter) -> str | None:
        """Why something may round, by a list; None for what no list has, and for a field that does not."""
        if isinstance(entry, Formatter):
            return self.given.allowed.reason(part.path, entry.text)
        expression, _, _ = stumpgarret._columns(entry)
        return self.given.allowed.reason(part.path, _one_line(expression)) if entry.class_.may_round else None

    def rounding(self, part: Part, field: ScriptField, allowed: str | None) -> None:
        """Counts a field that rounds or may."""
        self.counts.rounding += allowed is None
        self.counts.allowed += allowed is not None
        if self.given.rounds:
            said = f"{stumpgarret._braced(field)} {CLASSES[field.class_]}"
            self.findings.append(Finding(field.class_.value, said, part, field.line, field.column, allowed))

    def differing(self, part: Part, said: str) -> None:
        place = PLACE.fullmatch(said)
        line, column = int(place["line"]), int(place["column"]) if place["column"] else None
        self.told(part.name, f"{line}:{column}" if column else f"{line}", place["said"])
        self.object("difference", part, line=line, column=column, meaning=place["said"])
        self.findings.append(Finding("python", place["said"], part, line, column))

    def failed(self, name: str, error: Exception, part: Part | None = None) -> None:
        """A script, a part of one, or a folder, that is not read."""
        said = getattr(error, "strerror", None) or str(error)
        self.status = UNREAD
        self.counts.unreadable += 1
        self.told(name, "", said)
        part = part or Part(name, None, b"")
        self.object("unreadable", part, meaning=said)
        self.failures.append((part, said))
        if self.on_page is not None:
            self.on_page.append({"name": name, "failure": said})

    def told(self, name: str, place: str, said: str, change: str = "") -> None:
        """A complaint with its place, and what to change."""
        self.progress.clear()
        where = self.err.paint(CYAN, _one_line(f"{name}:{place}" if place else name))
        _complain(f"{where}: {self.err.paint(RED, said) if said.startswith('refused') else said}")
        if change:
            _complain(f"    Change: {change}")

    def object(self, kind: str, part: Part | None, **said: object) -> None:
        if self.given.json:
            where = {} if part is None else {"file": part.path, **({} if part.cell is None else {"cell": part.cell})}
            self.progress.clear()
            print(json.dumps({"kind": kind, **where, **said}))

    def change(self, script: bytes, one: Refused) -> str:
        """What to change, by RULES 11; of a name of a character what it is, and where a file of names is had."""
        said = stumpgarret_rules.change(one.number, one.detail)
        if one.number != NAME_NOT_HELD:
            return said
        escape = _escape(NAME.match(script, one.row.place)[0])
        said += f" Python knows it as {escape}." if escape else ""
        if self.given.names_path is None:
            said += " No file of names is there: Debian's package unicode-data has it (apt-get install unicode-data)."
        return said

    def page_row(self, part: Part, script: bytes, entry: ScriptField | Refused | Formatter) -> tuple[str, ...]:
        """What the page's table shows: of a refusal its words, what to change and the literal; of a field why, too, if it is
        by a `=`, and why it may round, if a list says so; of what else formats its words."""
        if isinstance(entry, Formatter):
            return (_otherwise(entry, self.allowed(part, entry)),)
        if isinstance(entry, Refused):
            return entry.reason, self.change(script, entry), _literal(script, entry)
        expression, conversion, spec = stumpgarret._columns(entry)
        by_equals = entry.reason in (stumpgarret.Reason.REPR, stumpgarret.Reason.SPEC)
        allowed = self.allowed(part, entry)
        return expression, conversion, stumpgarret.REASONS[entry.reason] if by_equals else "", spec, allowed

    def end(self, failure: str = "") -> int:
        """Writes the files, and the last lines; gives the exit status."""
        self.progress.clear()
        if failure:
            self.status = UNREAD
            _complain(f"stumpgarret: {failure}")
        if self.given.html and not failure:
            self.write(self.given.html, self.page())
        if self.given.sarif:
            self.write(self.given.sarif, self.sarif(failure))
        complete = self.status == COMPLETE
        for where, said in self.given.allowed.unmet() if not failure else ():
            self.told(where, "", said)
        rounding = self.given.rounds and self.counts.rounding + self.counts.formatters > 0
        self.object("end", None, complete=complete, **vars(self.counts))
        if not self.given.quiet:
            said = _summary(self.counts, complete) + (_rounding_said(self.counts) if self.given.rounds else "")
            _complain(self.err.paint(GREEN if complete and not rounding else RED, said))
        return max(self.status, INCOMPLETE if rounding else COMPLETE)

    def page(self) -> str:
        import stumpgarret_page

        scripts = [stumpgarret_page.Script(**one) for one in self.on_page]
        return stumpgarret_page.page(scripts, _version_lines(), self.given.rounds)

    def sarif(self, failure: str) -> str:
        import stumpgarret_sarif as sarif

        results = [sarif.result(one, one.part.path, one.part.cell) for one in self.findings]
        failures = [sarif.failure(said, part.path, part.cell) for part, said in self.failures]
        failures += [sarif.failure(failure)] if failure else []
        return sarif.sarif(results, failures, ", ".join(_version_lines()))

    def write(self, path: str, content: str) -> None:
        """Written beside and then into its place."""
        try:
            with open(path + ".new", "w", encoding="utf-8", errors="backslashreplace", newline="\n") as file:
                file.write(content)
            os.replace(path + ".new", path)
        except OSError as error:
            self.status = UNREAD
            self.told(path, "", error.strerror)


def _summary(counts: Counts, complete: bool) -> str:
    """`6 fields in 1 script, complete`, or what is missing."""
    said = f"{_count(counts.fields, 'field')} in {_count(counts.scripts, 'script')}, "
    missing = [
        *([_count(counts.refusals, "refusal")] if counts.refusals else []),
        *([_count(counts.unreadable, "failure") + " to read"] if counts.unreadable else []),
        *([_count(counts.differences, "difference") + " from Python's reading"] if counts.differences else []),
    ]
    said += "complete" if complete else "not complete" + (f": {', '.join(missing)}" if missing else "")
    parts = "line or cell" if counts.left_out == 1 else "lines or cells"
    return said + (f"; {counts.left_out:,} {parts} left out, not Python" if counts.left_out else "")


def _rounding_said(counts: Counts) -> str:
    """What --rounds found."""
    verb = "rounds" if counts.rounding == 1 else "round"
    said = f"{counts.rounding:,} {verb} or may" if counts.rounding else "nothing rounds"
    verb = "formats" if counts.formatters == 1 else "format"
    said += f"; {counts.formatters:,} {verb} otherwise" if counts.formatters else ""
    return f"; {said}" + (f", {counts.allowed:,} allowed" if counts.allowed else "")


def _formatters(script: bytes, found: stumpgarret.ScriptList) -> list[Formatter]:
    """What else formats; nothing of a script that is too long."""
    if any(one.row is None for one in found.refused):
        return []
    return stumpgarret_formatters.formatters(script, [field.row for field in found.fields])


def _otherwise(one: Formatter, allowed: str | None) -> str:
    return one.meaning + ("" if allowed is None else f"; allowed: {_one_line(allowed)}")


def _count(number: int, name: str) -> str:
    return f"{number:,} {name}{'' if number == 1 else 's'}"


def _escape(name: bytes) -> str:
    """The escape of the character that Python knows by a name, or nothing: it knows more names, and some of two characters."""
    try:
        code = ord(unicodedata.lookup(name.decode()))
    except (KeyError, TypeError, UnicodeError):
        return ""
    return rf"\u{code:04x}" if code < 0x10000 else rf"\U{code:08x}"


def _literal(script: bytes, one: Refused) -> str:
    """The text of the literal that is refused; of one that never closes its line, of a script that is too long nothing."""
    if one.row is None:
        return ""
    start = one.row.start
    try:
        end = stumpgarret.literals(script, start).literals[0].end
    except stumpgarret.Refusal:
        end = script.find(b"\n", start)
    return script[start : end if end > 0 else len(script)].decode("utf-8", "replace")


def _json(entry: ScriptField | Refused | Formatter) -> dict[str, object]:
    return {name: value for name, value in vars(entry).items() if name not in ("row", "lost", "detail", "text")}


# Streams


def _complain(said: str) -> None:
    """A line on standard error, behind all that was printed before."""
    if sys.stdout is not None:
        sys.stdout.flush()
    if sys.stderr is not None:
        print(said, file=sys.stderr, flush=True)


class Paint:
    """Colours, where a stream is a terminal and nobody minds (https://no-color.org)."""

    def __init__(self, stream: io.TextIOBase | None):
        minded = os.environ.get("NO_COLOR") or os.environ.get("TERM") == "dumb"
        self.colours = stream is not None and stream.isatty() and not minded

    def paint(self, colour: int, text: str) -> str:
        return f"\x1b[{colour}m{text}\x1b[0m" if self.colours and text else text


class Silent:
    """No count of scripts."""

    def tell(self, said: str) -> None:
        pass

    def clear(self) -> None:
        pass


def _progress():
    """How many scripts are done, on a terminal, if it takes long and the list goes elsewhere."""
    if sys.stderr is None or not sys.stderr.isatty() or (sys.stdout is not None and sys.stdout.isatty()):
        return Silent()
    from stumpgarret_replay import Progress

    return Progress("stumpgarret")


def run(command) -> int:
    """The exit status of a command as a process: 2 for whatever it did not foresee, and if its output could not be written;
    130 if it was interrupted. One line on standard error says so."""
    said = ""
    try:
        status = command()
    except SystemExit as ended:
        status = ended.code if isinstance(ended.code, int) else UNREAD if ended.code else COMPLETE
    except KeyboardInterrupt:
        said, status = "interrupted", INTERRUPTED
    except OSError as error:
        said, status = f"stumpgarret: {error.filename or 'standard output'}: {error.strerror or error}", UNREAD
    except BaseException as error:
        said, status = f"stumpgarret: {type(error).__name__}: {error}", UNREAD
    try:
        if sys.stdout is not None:
            sys.stdout.flush()
    except OSError as error:
        said, status = said or f"stumpgarret: standard output: {error.strerror}", status if said else UNREAD
        _drop(sys.stdout)
    if said:
        _last_words(said)
    return status


def _last_words(said: str) -> None:
    try:
        if sys.stderr is not None:
            print(said, file=sys.stderr, flush=True)
    except OSError:
        _drop(sys.stderr)


def _drop(stream: io.TextIOBase) -> None:
    """What a stream still holds goes nowhere, so that Python does not try again at its end."""
    nowhere = os.open(os.devnull, os.O_WRONLY)
    os.dup2(nowhere, stream.fileno())
    os.close(nowhere)
