"""What Python 3.11 and the reference give for a run of string literals, in one form.

A reading is a list of parts, or a `Refused`. A part is a `Literal` or a `Field`; a field's
spec is None or a list of parts.
"""

import ast
import os
import re
import subprocess
import sys
import warnings
from dataclasses import dataclass

if sys.version_info[:2] != (3, 11):
    sys.exit("oracle: the comparison with Python needs Python 3.11")

warnings.simplefilter("ignore")

HERE = os.path.dirname(os.path.abspath(__file__))
TARGET = os.environ.get(
    "STUMPGARRET_ORACLE_TARGET", os.path.join(HERE, "..", "target", "oracle")
)

KINDS = {"": 0, "f": 1, "b": 2, "r": 3, "fr": 4, "br": 5, "u": 6}

LITERAL = re.compile(
    r"(?P<prefix>[A-Za-z]{0,2})(?P<quotes>'''|\"\"\"|'|\")"
    r"(?P<body>(?:\\.|(?!(?P=quotes)).)*)(?P=quotes)",
    re.DOTALL,
)


@dataclass(frozen=True)
class Refused:
    why: str

    def __str__(self):
        return f"refused: {self.why}"


@dataclass(frozen=True)
class Literal:
    text: object  # str or bytes
    u_mark: bool
    span: tuple  # None where Python counts by lines

    def __str__(self):
        return f"literal {ascii(self.text)}"


@dataclass(frozen=True)
class Field:
    expression: str
    conversion: int
    spec: list
    span: tuple

    def __str__(self):
        conversion = f"!{chr(self.conversion)}" if self.conversion else ""
        spec = "" if self.spec is None else f" spec [{shown(self.spec)}]"
        return f"field {ascii(self.expression)}{conversion}{spec}"


def shown(reading):
    if isinstance(reading, Refused):
        return str(reading)
    return ", ".join(map(str, reading)) or "nothing"


def numbers_of(source):
    """The list of literals that a source text is: six numbers each, places in bytes."""
    numbers = []
    for match in LITERAL.finditer(source):
        letters = "".join(sorted(match["prefix"].lower(), key="fbru".index))
        offset, end = (len(source[:at].encode()) for at in match.span("body"))
        start, stop = (len(source[:at].encode()) for at in match.span())
        flag = int(len(match["quotes"]) == 3)
        numbers += [KINDS[letters], flag, offset, end - offset, start, stop]
    return numbers


def ask(how, questions, *names):
    """The reference's readings, with the names of a file if one is named; a question is (script bytes, list of numbers)."""
    lines = [
        " ".join(map(str, numbers)) + " | " + script.hex() for script, numbers in questions
    ]
    answered = subprocess.run(
        [os.path.join(TARGET, "ask"), how, *names],
        input="".join(line + "\n" for line in lines),
        capture_output=True,
        text=True,
        check=True,
    )
    return [reading_of(line) for line in answered.stdout.splitlines()]


def ask_sources(how, sources, *names):
    return ask(how, [(source.encode(), numbers_of(source)) for source in sources], *names)


def reading_of(line):
    """The reading that a line of `ask` says."""
    word, _, rest = line.partition(" ")
    if word == "refused":
        number, literal, place, *details = map(int, rest.split())
        details = "".join(f", {detail}" for detail in details if detail)
        literal = f" in literal {literal}" if literal else ""
        return Refused(f"{number} at {place}{literal}{details}")
    _, words, text = rest.split("|")
    words, text = list(map(int, words.split())), bytes.fromhex(text)
    records = iter(words[at : at + 8] for at in range(0, len(words), 8))
    return [part_of(record, records, text) for record in records]


def part_of(record, records, text):
    kind, offset, length, start, end, conversion, parts, _ = record
    own = text[offset : offset + length]
    if kind == 4:
        return Literal(own, False, (start, end))
    if kind == 1:
        return Literal(own.decode(), bool(conversion), (start, end))
    spec = None
    if parts:
        spec = [part_of(next(records), records, text) for _ in range(next(records)[6])]
    return Field(own.decode(), conversion, spec, (start, end))


def python_reading(source):
    try:
        tree = ast.parse(f"({source})", mode="eval").body
    except (SyntaxError, ValueError) as error:
        return Refused(getattr(error, "msg", None) or str(error))
    parts = tree.values if isinstance(tree, ast.JoinedStr) else [tree]
    return [python_part(part) for part in parts]


def python_part(node):
    one_line = node.end_lineno == 1
    span = (node.col_offset - 1, node.end_col_offset - 1) if one_line else None
    if isinstance(node, ast.Constant):
        return Literal(node.value, node.kind == "u", span)
    spec = node.format_spec and [python_part(part) for part in node.format_spec.values]
    return Field(ast.unparse(node.value), max(node.conversion, 0), spec, span)


def unparsed(expression):
    """An expression's text as Python writes it, or None if it is no expression."""
    try:
        return ast.unparse(ast.parse(f"({expression})", mode="eval").body)
    except (SyntaxError, ValueError, RecursionError, MemoryError):
        return None
