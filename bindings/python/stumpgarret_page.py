"""The page that `stumpgarret --html` writes: scripts with every field marked, to be read, printed and filed.

One file that needs nothing else: no network, no JavaScript. The same scripts make the same page.
"""

from __future__ import annotations

import hashlib
import html
import re
from collections import defaultdict
from dataclasses import dataclass

STYLE = """
body { margin: 0 auto; max-width: 110rem; padding: 1rem; font: 1rem/1.45 system-ui, sans-serif }
body { color: #1b1b1b; background: #fff }
h1 { font-size: 1.5rem; margin: 0 0 .5rem }
h2 { font-size: 1.15rem; margin: 2rem 0 .3rem; border-top: 2px solid #888; padding-top: .8rem }
h1, h2, td, p { overflow-wrap: anywhere }
p { margin: .3rem 0 }
a { color: #0645ad }
.yes, .no { font-weight: 600; padding: .4rem .7rem; border-left: .4rem solid }
.yes { color: #0b5a1e; background: #e6f4e9; border-color: #1a7f37 }
.no { color: #a40e26; background: #fdecee; border-color: #cf222e }
.small { font-size: .85rem; color: #555 }
code, ol { font: .85rem/1.5 ui-monospace, "DejaVu Sans Mono", monospace }
.both { display: grid; grid-template-columns: minmax(0, 11fr) minmax(0, 9fr); gap: 1.2rem; margin-top: .7rem }
.both { align-items: start }
ol { margin: 0; border: 1px solid #ccc; padding: .4rem .4rem .4rem calc(var(--digits) * 1ch + 1.6rem) }
li { white-space: pre-wrap; overflow-wrap: anywhere; tab-size: 4; min-height: 1.5em }
li::marker { color: #767676 }
mark { color: inherit; background: #fff0b3; box-shadow: inset 0 -2px #d4a600 }
mark mark { background: #ffd9a0; box-shadow: inset 0 -2px #c46a00 }
mark mark mark { background: #f9c2c0; box-shadow: inset 0 -2px #b0413e }
mark.may { background: #ffc9c9; box-shadow: inset 0 -3px #c92a2a }
mark.allowed { background: #e3f0d8; box-shadow: inset 0 -3px #6b9c3f }
.may td:last-child { font-weight: 600; color: #a40e26 }
#only:checked ~ .both tr.other { display: none }
#only:checked ~ .both mark.other { background: none; box-shadow: none }
mark:target, a:target, tr:target { outline: 3px solid #0969da; scroll-margin-top: 5rem }
li .no { padding: 0 .2rem; border: 1px solid #cf222e; text-decoration: none }
li .no::before { content: "\\2717" }
li .also { padding: 0 .2rem; border: 1px solid #b35900; color: #b35900; text-decoration: none }
li .also::before { content: "\\2731" }
tr.also td { color: #8a4500; background: #fff4e5 }
.escape { color: #6639ba; border: 1px solid #b9a3e3; border-radius: .2rem; padding: 0 .1rem }
.table { position: sticky; top: 0; max-height: 100vh; overflow: auto }
table { border-collapse: collapse; width: 100% }
th, td { text-align: left; vertical-align: top; border: 1px solid #ccc; padding: .2rem .45rem; font-size: .85rem }
th { background: #f0f0f0 }
.table th:nth-child(2) { width: 40% }
.table th:nth-child(n + 3) { width: 17% }
td code { white-space: pre-wrap; background: #f3f3f3 }
.table td:first-child { white-space: nowrap; overflow-wrap: normal }
tr.no td { font-weight: 600; color: #a40e26; background: #fdecee }
@media (max-width: 60rem) {
    .both { grid-template-columns: minmax(0, 1fr) }
    .table { position: static; max-height: none }
    th, td { padding: .2rem .3rem }
}
@media print {
    body { max-width: none; padding: 0; font-size: .8rem; print-color-adjust: exact; -webkit-print-color-adjust: exact }
    .both { display: block }
    .table { position: static; max-height: none; overflow: visible; margin-top: .7rem }
    h2 { break-after: avoid }
    li, tr, .yes, .no { break-inside: avoid }
    a { color: inherit; text-decoration: none }
}
"""
CLOSE, POINT, OPEN = range(3)
CODE = re.compile("`([^`]+)`")
TAB = "\t"


@dataclass(frozen=True)
class Script:
    """What the page shows of a script. `failure` says why it was not read; else `text` has its lines, `entries` are the
    fields and refusals by place, and `rows` what the table shows of each: of a field expression, conversion, why, spec, and
    why it may round, of a refusal its words, what to change, and the literal, of what else formats its words. `differences` is None if Python was not asked. `names` is None if the script asks for no
    name of a character; else it says where they are taken from, and has the content of the file if it is one."""

    name: str
    failure: str = ""
    content: bytes = b""
    text: str = ""
    entries: tuple = ()
    rows: list = ()
    differences: list[str] | None = None
    complete: bool = False
    names: tuple[str, bytes | None] | None = None

    @property
    def fields(self) -> int:
        return sum(map(_is_field, self.entries))

    @property
    def rounding(self) -> int:
        """How many fields round or may."""
        return sum(entry.class_.may_round for entry in self.entries if _is_field(entry))

    @property
    def verdict(self) -> str:
        if self.failure:
            return f"Not read: {self.failure}"
        found = _count(self.fields, "field")
        if self.complete:
            return f"Complete: {found}, and these are all"
        refused = len(self.entries) - self.fields - sum(map(_is_formatter, self.entries))
        said = [_count(refused, "refusal")] if refused else []
        said += [_count(len(self.differences), "difference") + " from Python's reading"] if self.differences else []
        return f"Not complete: {', '.join([found, *said])}"


def page(scripts: list[Script], version: list[str], only_rounds: bool = False) -> str:
    """The page of scripts, listed by a version, which is told in lines; at first it may show only what rounds."""
    lacking = sum(not script.complete for script in scripts)
    verdict = f"Complete: {_count(sum(script.fields for script in scripts), 'field')}, and these are all"
    if lacking:
        verdict = f"Not complete: what is in red, in {lacking:,} of {_count(len(scripts), 'script')}"
    title = f"Formatted fields of {scripts[0].name if len(scripts) == 1 else _count(len(scripts), 'script')}"
    return "\n".join(
        [
            "<!DOCTYPE html>",
            '<html lang="en">',
            "<head>",
            '<meta charset="utf-8">',
            '<meta name="viewport" content="width=device-width, initial-scale=1">',
            "<meta http-equiv=\"Content-Security-Policy\" content=\"default-src 'none'; style-src 'unsafe-inline'\">",
            f"<title>{html.escape(_plain(title))}</title>",
            f"<style>{STYLE}</style>",
            "</head>",
            "<body>",
            f"<h1>{_shown(title)}</h1>",
            _verdict(not lacking, verdict),
            "<p>Listed are the fields of f-strings. The operator <code>%</code>, <code>str.format</code> and "
            "<code>format()</code> format too, and are not listed; where they stand was searched for, and is told.</p>",
            _filter(sum(script.rounding for script in scripts), only_rounds),
            f'<p class="small">Listed by {html.escape(", ".join(version))}, for the grammar of Python 3.11.</p>',
            *(_contents(scripts) if len(scripts) > 1 else []),
            *(line for number, script in enumerate(scripts, 1) for line in _section(script, f"s{number}")),
            "</body>",
            "</html>",
            "",
        ]
    )


def _filter(rounding: int, is_set: bool) -> str:
    """How many fields round or may, and a box that shows these alone, which the style does."""
    checked = " checked" if is_set else ""
    said = f"{rounding:,} {'rounds' if rounding == 1 else 'round'} or may" if rounding else "No field rounds"
    return f'<input type="checkbox" id="only"{checked}><label for="only">{said}: show only what does</label>'


def _contents(scripts: list[Script]) -> list[str]:
    lines = ['<table class="small">', "<tr><th>Script</th><th>What is listed</th></tr>"]
    for number, script in enumerate(scripts, 1):
        kind = "" if script.complete else ' class="no"'
        name = f'<a href="#s{number}">{_shown(script.name)}</a>'
        lines.append(f"<tr{kind}><td>{name}</td><td>{_shown(script.verdict)}</td></tr>")
    return [*lines, "</table>"]


def _section(script: Script, key: str) -> list[str]:
    lines = [f'<h2 id="{key}">{_shown(script.name)}</h2>', _verdict(script.complete, script.verdict)]
    if script.failure:
        return lines
    lines.append(f'<p class="small">{_digest(script.content)}</p>')
    if script.names is not None:
        said, content = script.names
        digest = "" if content is None else f", {_digest(content)}"
        lines.append(f'<p class="small">Names of characters: {_shown(said)}{digest}</p>')
    if script.differences is not None:
        lines += [f'<p class="no">{_shown(script.name)}:{_shown(one)}</p>' for one in script.differences]
        lines += [] if script.differences else ['<p class="small">Python\'s own <code>ast</code> has the same fields.</p>']
    beside = ['<div class="table">', *_table(script, key), "</div>"]
    return [*lines, '<div class="both">', *_source(script, key), *beside, "</div>"]


def _digest(content: bytes) -> str:
    return f'SHA-256 <code>{hashlib.sha256(content).hexdigest()}</code>, {_count(len(content), "byte")}'


def _verdict(complete: bool, said: str) -> str:
    return f'<p class="{"yes" if complete else "no"}">{_shown(said)}</p>'


def _source(script: Script, key: str) -> list[str]:
    """The lines, with a mark from each field's `{` to its `}`, and a sign where something is refused."""
    events = defaultdict(list)
    for number, entry in enumerate(script.entries, 1):
        if _is_field(entry):
            events[entry.line].append((entry.column - 1, OPEN, number))
            events[entry.end[0]].append((entry.end[1], CLOSE, number))
        else:
            events[entry.line].append((entry.column, POINT, number))
    lines = script.text.split("\n")
    if not lines[-1] and len(lines) > 1 and len(lines) not in events:
        lines.pop()
    shown = [f'<ol style="--digits: {len(str(len(lines)))}">']
    opened = []
    for number, line in enumerate(lines, 1):
        parts, at = [f'<mark class="{kind}">' for kind in opened], 1
        for column, event, entry in sorted(events[number]):
            parts.append(_shown(line[at - 1 : column - 1], TAB))
            at = column
            if event == POINT:
                kind, title = ("also", "formats otherwise") if _is_formatter(script.entries[entry - 1]) else ("no", "refused")
                parts.append(f'<a class="{kind}" id="{key}e{entry}" href="#{key}r{entry}" title="{title}"></a>')
            elif event == OPEN:
                opened.append(_kind(script.entries[entry - 1], script.rows[entry - 1]))
                parts.append(f'<mark class="{opened[-1]}" id="{key}e{entry}">')
            else:
                opened.pop()
                parts.append("</mark>")
        shown.append(f"<li>{''.join(parts)}{_shown(line[at - 1 :], TAB)}{len(opened) * '</mark>'}</li>")
    return [*shown, "</ol>"]


def _table(script: Script, key: str) -> list[str]:
    lines = ["<table>", "<tr><th>Place</th><th>Expression</th><th>Conversion</th><th>Spec</th><th>Class</th></tr>"]
    for number, (entry, row) in enumerate(zip(script.entries, script.rows), 1):
        place = f'<td><a href="#{key}e{number}">{entry.line}:{entry.column}</a></td>'
        if _is_field(entry):
            expression, conversion, why, spec, allowed = row
            cells = f'<td style="padding-left: {entry.depth + .45}rem">{_code(expression)}</td>'
            cells += f'<td>{_code(conversion)} <span class="small">{_worded(why)}</span></td><td>{_code(spec)}</td>'
            cells += f"<td>{entry.class_.value}{'' if allowed is None else f', allowed: {_shown(allowed)}'}</td>"
            lines.append(f'<tr class="{_kind(entry, row)}" id="{key}r{number}">{place}{cells}</tr>')
        elif _is_formatter(entry):
            lines.append(f'<tr class="also" id="{key}r{number}">{place}<td colspan="4">{_shown(row[0])}</td></tr>')
        else:
            words, change, literal = row
            cell = _worded(words) + (f'<p class="small">Change: {_worded(change)}</p>' if change else "")
            cell += f"<p>{_code(literal)}</p>" if literal else ""
            lines.append(f'<tr class="no" id="{key}r{number}">{place}<td colspan="4">{cell}</td></tr>')
    return [*lines, "</table>"] if script.entries else ["<p>There is no field.</p>"]


def _kind(entry: object, row: tuple) -> str:
    """How a field is marked: whether it rounds or may, and is allowed to."""
    return "other" if not entry.class_.may_round else "may" if row[-1] is None else "allowed"


def _is_field(entry: object) -> bool:
    return hasattr(entry, "expression")


def _is_formatter(entry: object) -> bool:
    return hasattr(entry, "what")


def _count(number: int, name: str) -> str:
    return f"{number:,} {name}{'' if number == 1 else 's'}"


def _code(text: str) -> str:
    return f"<code>{_shown(text)}</code>" if text else ""


def _worded(text: str) -> str:
    """Words, in which code stands between backticks."""
    parts = CODE.split(text)
    return "".join(f"<code>{_shown(part)}</code>" if at % 2 else _shown(part) for at, part in enumerate(parts))


def _shown(text: str, as_it_is: str = "") -> str:
    """Text for the page. What cannot be seen, or could turn what is seen around, is shown as Python's escape in a box."""
    if text.isprintable():
        return html.escape(text)
    return "".join(
        html.escape(char) if char.isprintable() or char in as_it_is else f'<span class="escape">{_plain(char)}</span>'
        for char in text
    )


def _plain(text: str) -> str:
    return "".join(char if char.isprintable() else ascii(char)[1:-1] for char in text)
