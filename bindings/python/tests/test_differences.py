"""docs/DIFFERENCES.md: what by each row can become of a field against Python, and by what number the list of a script
tells it."""

import ast
import collections
import re
import unittest
import warnings

import test_format
import test_listing
import test_tokenize
from by_python import literal
from cut_model import cut
from support import CLONE, load, stumpgarret
from stumpgarret import Field, FieldRow, Kind, Refusal, Undecodable, list_script, read, rows, text_of

differences = load("oracle/differences")
unparsed = load("oracle/readings.py").unparsed

DOCUMENT = (CLONE / "docs" / "DIFFERENCES.md").read_text(encoding="utf-8").splitlines()
LAST_CELLS = re.compile(r" \| ([a-z, ]+) \| (\d+(?:, \d+)*|no|) ?\|$")
TABLES = (
    differences.FROM_PYTHON,
    differences.RANGES_FROM_PYTHON,
    differences.FROM_THE_RUST,
    differences.NAMES_HELD,
    differences.NAMES_OF_THE_FILE,
    test_tokenize.ROWS,
    test_listing.ROWS,
)
# For a row whose input has no field: scripts of its class that have one.
WITH_A_FIELD = {
    "surrogate escape": [r"f'{x}\ud800'", r"f'{x:{y}\ud800}'"],
    "empty literal and empty f-string": ["''f''f'{x}'"],
    "carriage return": ["f'''{x}\r'''", "f'''{x:\r}'''", "f'''{x\r}'''"],
    "carriage return and newline": ["f'''{x}\r\n'''", "f'''{x:\r\n}'''", "f'''{x\r\n}'''"],
    "backslash and carriage return": ["f'{x}\\\r'", "f'{x:{y}\\\r}'"],
    "NUL": ["f'{x}\0'", "f'{x:\0}'"],
    "u mark by a capital prefix": ["U'a'f'{x}'"],
    test_tokenize.STATEMENT: ["f'{x}'\nf'{y}'"],
    test_tokenize.BACKSLASH: ["f'{x}' \\\nf'{y}'"],
    test_tokenize.FORM_FEED: ["f'{x}' \ff'{y}'"],
    test_tokenize.CARRIAGE_RETURN: ["(f'{x}'\rf'{y}')"],
    test_tokenize.TOO_LONG: ["f'{x}" + 1_048_575 * "a" + "'"],
    "3: more than 1,024 literals": [1025 * "f'{x}' "],
    "5: bodies over 1,048,576 bytes together": ["f'{x}" + 1_048_577 * "a" + "'"],
    test_listing.QUOTE: [next(row[1] for row in test_listing.ROWS if "field lost" in row[0])],
    "13: name not held": [r"f'{x}\N{SNOWMAN}'"],
    "13: held name in small letters": [r"f'{x}\N{infinity}'"],
    "13: name of the file in small letters": [r"f'{x}\N{snowman}'"],
    "13: alias of a name": [r"f'{x}\N{LINE FEED}'"],
    "13: ideograph that is named by rule": [r"f'{x}\N{CJK UNIFIED IDEOGRAPH-6E2C}'"],
    "13: syllable that is named by rule": [r"f'{x}\N{HANGUL SYLLABLE GA}'"],
}


def by_python(script):
    """The fields that Python has, none where it refuses the script."""
    try:
        tree = ast.parse(script)
    except (SyntaxError, ValueError):
        return []
    return [python_field(node) for node in ast.walk(tree) if isinstance(node, ast.FormattedValue)]


def python_field(node):
    spec = node.format_spec and joined(map(python_part, node.format_spec.values))
    return ast.unparse(node.value), max(node.conversion, 0), spec


def python_part(node):
    return node.value if isinstance(node, ast.Constant) else python_field(node)


def by_reading(script):
    """The fields of the script's f-strings as each is read, those in specs too."""
    for start, end in cut(script)[0]:
        one = literal(start, script[start:end])
        if one.kind in (Kind.FSTRING, Kind.RAW_FSTRING):
            try:
                yield from fields(read(script, [one]).records)
            except Refusal:
                pass


def fields(parts):
    for part in parts or ():
        if isinstance(part, Field):
            yield own_part(part)
            yield from fields(part.spec)


def own_part(part):
    if not isinstance(part, Field):
        return part.text
    spec = None if part.spec is None else joined(map(own_part, part.spec))
    return unparsed(part.expression) or part.expression, ord(part.conversion or "\0"), spec


def joined(parts):
    """A spec's parts, with touching texts as one and without empty ones."""
    found = []
    for part in parts:
        if isinstance(part, str) and found and isinstance(found[-1], str):
            found[-1] += part
        elif part != "":
            found.append(part)
    return tuple(found)


def effect(script):
    """What becomes of fields, and the numbers that tell it; nothing is read of a script that is no text."""
    try:
        text = text_of(script).encode("utf-8", "surrogatepass")
    except Undecodable:
        return ({"lost"} if by_python(script) else set()), set()
    listed = list_script(script)
    ours = [] if listed.refused and listed.refused[0].number == 49 else [*by_reading(text)]
    python, ours = map(collections.Counter, (by_python(script), ours))
    lost, invented = (python - ours).total(), (ours - python).total()
    changed = min(lost, invented)
    said = {"changed": changed, "lost": lost - changed, "invented": invented - changed}
    return {word for word, count in said.items() if count}, {one.number for one in listed.refused}


def cells(title, scripts):
    """Both cells of a row: what its scripts do, taken together."""
    effects, numbers = zip(*map(effect, scripts))
    words = [word for word in ("changed", "lost", "invented") if any(word in one for one in effects)]
    told = ", ".join(map(str, sorted(set().union(*numbers))))
    return ", ".join(words) or "same", told or ("no" if words else "")


def shown(title):
    """The last two cells of a row of the page."""
    found = [line for line in DOCUMENT if line.startswith(f"| {title} | ")]
    if len(found) != 1:
        raise ValueError(f"{title}: {len(found)} rows")
    return LAST_CELLS.search(found[0]).groups()


class Effects(unittest.TestCase):
    def test_every_row(self):
        entries = [(entry[0], entry[1]) for table in TABLES for entry in table]
        with warnings.catch_warnings():
            warnings.simplefilter("ignore")
            for title, source in entries:
                with self.subTest(row=title):
                    self.assertEqual(shown(title), cells(title, [source, *WITH_A_FIELD.get(title, [])]))
        for title, *_ in differences.ADDED:
            self.assertEqual(shown(title), ("same", title.partition(":")[0]))

    def test_what_is_not_told(self):
        """But for a surrogate in a spec, it stands in scripts that Python refuses."""
        for title, source in ((entry[0], entry[1]) for table in TABLES for entry in table):
            if shown(title)[1] == "no" and title != "surrogate escape":
                self.assertEqual((shown(title)[0], by_python(source)), ("invented", []), title)
                with self.assertRaises((SyntaxError, ValueError)):
                    ast.parse(source)

    def test_all_rows_are_seen(self):
        """A row of the page is a row of one of these tables."""
        titles = {entry[0] for table in (*TABLES, differences.ADDED) for entry in table}
        titles |= {*test_format.differences("Spec"), *test_format.differences("Trace")}
        on_page = {line.split(" | ")[0][2:] for line in DOCUMENT if line.startswith("| ")} - {"What", "Class"}
        self.assertEqual(on_page, titles)

    def test_rows_are_those_of_the_list(self):
        """What is read here, literal by literal, is as much as the list of the script has at its first level."""
        for title, source in ((entry[0], entry[1]) for table in TABLES for entry in table):
            for script in [source, *WITH_A_FIELD.get(title, [])]:
                text = stumpgarret._decoded(script).encode("utf-8", "surrogatepass")
                if len(text) <= test_listing.MOST:
                    found = [row for row in rows(text).rows if isinstance(row, FieldRow)]
                    self.assertEqual(len([*by_reading(text)]), len(found), title)


if __name__ == "__main__":
    unittest.main()
