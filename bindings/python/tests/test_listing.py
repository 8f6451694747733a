"""Every field of whole scripts, against what nobody here wrote: Python's own reading.

- The scripts of Python's library and of the packages that are installed: literals as tokenize gives them; expressions,
  conversions and specs as `ast` gives them; the same with other line ends, a byte order mark and other codings. One script
  in forty is taken; the variable STUMPGARRET_SHARE names another share, 1 for all of them.
- Random nests of f-strings, against `ast`.
- Random bytes, against the statements of the cut.

What differs must be told by a refusal, and be of a class that has a row in docs/DIFFERENCES.md. Those rows are checked.
"""

import ast
import collections
import itertools
import keyword
import os
import pathlib
import random
import re
import sysconfig
import tokenize
import unittest
import warnings

from by_python import encoded, literal, strings
from cut_model import KEYWORDS, closes, cut, is_cut, prefix_at, unknown_word
from support import CLONE, load, stumpgarret
from stumpgarret import Field, FieldRow, Kind, Literal, Refusal, ScriptField, Undecodable
from stumpgarret import differences, list_script, literals, read, rows, text_of

Table = load("oracle/differences").Table
SHARE = int(os.environ.get("STUMPGARRET_SHARE", "40"))
NESTS, BYTE_STRINGS = 4_000, 4_000
MOST = 1_048_576
F_STRING = re.compile(rb"(f|fr|rf)['\"]", re.IGNORECASE)
TRIPLE = re.compile(rb"'''|\"\"\"")

# What differs, the smallest script that shows it, the fields by Python's `ast`, and what is listed.
ESCAPE = "75: escape in a spec's first piece"
QUOTE = "75: quote in a triple-quoted literal"
NEVER_CLOSED = "50: literal in an expression that never closes"
POINT = "76: keyword after a number whose exponent or `j` follows its point"
ROWS = [
    ("75: `#` in a field", "f'{x#}'", "refused: f-string expression part cannot include '#'", "{x#}, 75 at 4"),
    (
        "75: backslash in an expression",
        r'''f"{'\n'}"''',
        "refused: f-string expression part cannot include a backslash",
        r"{'\n'}, 75 at 4",
    ),
    (ESCAPE, r"f'{x:\t}'", "f'{x:\t}'", r"{x:\t}, 75 at 5"),
    (
        "75: field that is an escape for Python",
        r"f'{x:\N{DEGREE SIGN}}'",
        "f'{x:°}'",
        r"{x:\N{DEGREE SIGN}}, 75 at 5, {DEGREE SIGN}",
    ),
    ("75: something after a self-documenting `=`", "f'{x=()}'", "refused: f-string: expecting '}'", "{x=()!r}, 75 at 5"),
    (QUOTE, r"""f"{'''a' 'b'''}" """.strip(), r'''f"""{"a' 'b"}"""''', "{'''a' 'b'''}, 75 at 3"),
    (
        "75: field lost in a triple-quoted literal",
        r"""f'{""" + r'''""""{{"}"""}{""""}}":"""}''' + "'",
        r'''f"""{'"{{"}'}""", f"""{'"}}":'}"""''',
        r'''{""""{{"}"""}{""""}}":"""}, 75 at 3''',
    ),
    (
        NEVER_CLOSED,
        r"""f"{'''x'}{'x'''}" """.strip(),
        r'''f"""{"x'}{'x"}"""''',
        "{'''x'}, 50 at 3, {'x'''}",
    ),
    ("76: word before a literal", 't"{x}" f"{y}"', "refused: invalid syntax", "76 at 0, {y}"),
    (POINT, '1.e5if"a"else f"{x}"', "f'{x}'", "76 at 2, {x}"),
]

# Classes of what is told in scripts that Python takes, whose rows are others'.
TOO_LONG = "49: script over 1,048,576 bytes"
NAME = "13: name not held"
WHITE_SPACE = "white space other than spaces after `=`"
BRACKETS = "28: 65 to 199 open brackets"
TRIPLE_QUOTED = "same quote in a triple-quoted run"
BY_NUMBER = {13: NAME, 28: BRACKETS, 50: NEVER_CLOSED, 51: NEVER_CLOSED}
AFTER_POINT = re.compile(rb"\d\.(e\d+j?|j)[a-z]+", re.IGNORECASE)


def classes(script):
    """The class of each refusal in a script that Python takes, None for one that has none."""
    try:
        found = rows(script)
    except Refusal:
        return [TOO_LONG]
    return [class_of(script, row) for row in found.rows if not isinstance(row, FieldRow)]


def class_of(script, row):
    if row.number == 75 and script[row.place] == ord("\\"):
        return ESCAPE
    if row.number == 75:
        return QUOTE if prefix_at(script, row.place) is not None else None
    if row.number == 76:
        return POINT if AFTER_POINT.fullmatch(script, max(row.place - 2, 0), row.start) else None
    if row.number in BY_NUMBER:
        return BY_NUMBER[row.number]
    if row.number == 20 and row.details[0] == 3:
        return WHITE_SPACE
    _, end = closes(script, row.start)
    return TRIPLE_QUOTED if TRIPLE.search(script[row.start : end].lstrip(b"fFrR"), 3) else None


def by_ast(script):
    """The fields that Python finds, for a table."""
    try:
        tree = ast.parse(script)
    except SyntaxError as error:
        return f"refused: {error.msg}"
    nodes = [node for node in ast.walk(tree) if isinstance(node, ast.FormattedValue)]
    return ", ".join(ast.unparse(ast.JoinedStr([node])) for node in nodes)


def listed(script):
    """What is listed, for a table: fields as they stand, refusals with their places."""
    shown = []
    for entry in list_script(script).entries:
        if isinstance(entry, ScriptField):
            shown.append("{" + "".join(stumpgarret._columns(entry)) + "}")
        else:
            shown.append(f"{entry.number} at {entry.column - 1}")
    return ", ".join(shown)


class Rows(unittest.TestCase):
    def test_every_class_has_its_row(self):
        document = (CLONE / "docs/DIFFERENCES.md").read_text(encoding="utf-8").splitlines()
        table = Table(document)
        with warnings.catch_warnings():
            warnings.simplefilter("ignore")
            for title, script, python, ours in ROWS:
                table.row(title, script, (python, by_ast(script)), (ours, listed(script)))
        self.assertEqual((table.rows, table.wrong), (len(ROWS), 0))
        titles = {line.split(" | ")[0] for line in document}
        for title in (TOO_LONG, NAME, WHITE_SPACE, BRACKETS, TRIPLE_QUOTED):
            self.assertIn(f"| {title}", titles)


def own_rows(script):
    """The rows of a script's own literals, by the reading of each f-string alone: start, place, and a refusal's number."""
    for start, end in cut(script)[0]:
        one = literal(start, script[start:end])
        word = unknown_word(script, start)
        if word is not None:
            yield start, word, 76
        if one.kind in (Kind.FSTRING, Kind.RAW_FSTRING):
            try:
                yield from ((start, place) for place in places(read(script, [one]).records))
            except Refusal as refusal:
                yield start, refusal.place, refusal.number


def places(records):
    for record in records:
        if isinstance(record, Field):
            yield record.place
            yield from places(record.spec or ())


def listed_rows(script):
    """The same by the list of the whole script."""
    for row in rows(script).rows:
        if row.within == 0 and isinstance(row, FieldRow):
            yield row.start, row.place
        elif row.within == 0 and row.number not in (50, 51):
            yield row.start, row.place, row.number


def library_paths():
    folders = {sysconfig.get_path("stdlib"), sysconfig.get_path("purelib")}
    return sorted({path for folder in folders for path in pathlib.Path(folder).rglob("*.py") if path.is_file()})


def told(found, down=0):
    """What is known of each entry of a list, but its row, so many lines further up."""
    entries = []
    for entry in found.entries:
        known = {name: value for name, value in vars(entry).items() if name not in ("row", "lost")}
        known["line"] -= down
        for name in ("end", "opened"):
            if known.get(name):
                known[name] = known[name][0] - down, known[name][1]
        entries.append(known)
    return entries


def forms(text):
    """Other bytes of the same text, each with a name and with how many lines stand before the text."""
    own = stumpgarret._coding(encoded(text))
    for name, end in (("CR LF", "\r\n"), ("CR", "\r")):
        yield name, text.replace("\n", end).encode(own), 0
    if own == "utf-8":
        yield "a byte order mark", b"\xef\xbb\xbf" + text.encode(), 0
    for coding in ("latin-1", "shift_jis"):
        try:
            content = text.encode(coding)
        except UnicodeEncodeError:
            continue
        if content.decode(coding) == text:
            yield coding, b"# coding: " + coding.encode() + b"\n" + content, 1


class Library(unittest.TestCase):
    def test_scripts(self):
        self.count = collections.Counter()
        self.classes = collections.Counter()
        for path in library_paths()[::SHARE]:
            with self.subTest(script=str(path)):
                self.compare(path)
        print("listing:", ", ".join(f"{count} {name}" for name, count in self.count.most_common()))
        for name, count in self.classes.most_common():
            print(f"listing: {count} refusals of the class: {name}")
        self.assertNotIn(None, self.classes)
        self.assertGreater(self.count["fields"], 100)
        self.assertGreater(self.count["literals"], 1000)

    def compare(self, path):
        self.count["scripts"] += 1
        content = path.read_bytes()
        try:
            text = text_of(content)
        except Undecodable:
            self.count["scripts that Python cannot decode"] += 1
            self.assertRaises((SyntaxError, UnicodeError), self.python_text, path)
            return
        self.assertEqual(text, self.python_text(path))
        found = list_script(content)
        self.count["fields"] += len(found.fields)
        self.compare_places(text, found)
        self.compare_literals(text, found)
        complete = bool(F_STRING.search(content)) and self.compare_fields(content, found)
        for name, form, down in forms(text) if len(content) < MOST - 100 else ():
            self.count[f"scripts with {name}"] += 1
            other = list_script(form)
            self.assertEqual(told(other, down), told(found))
            if complete and found.entries:
                self.assertEqual(differences(form, other), [])

    def python_text(self, path):
        with tokenize.open(path) as file:
            return file.read()

    def compare_places(self, text, found):
        """Each field is what stands at its line and column, up to its end."""
        lines = [0, *itertools.accumulate(len(line) + 1 for line in text.split("\n"))]
        for field in found.fields:
            begin, end = (lines[line - 1] + column - 1 for line, column in ((field.line, field.column), field.end))
            spec = "" if field.spec is None else f":{field.spec}"
            conversion = f"(!{field.conversion})" + "?" * field.documented if field.conversion else ""
            written = re.escape("{" + field.expression) + "= *" * field.documented + conversion + re.escape(spec + "}")
            self.assertRegex(text[begin - 1 : end], f"^(?:{written})$")

    def compare_literals(self, text, found):
        """They are as the model cuts them, which is as tokenize does, and each f-string has the rows of its reading."""
        script = encoded(text)
        if len(script) > MOST:
            self.assertEqual([one.number for one in found.refused], [49])
            return
        model, ending = cut(script)
        self.assertEqual(found.literals, len(model))
        self.assertEqual([*listed_rows(script)], [*own_rows(script)])
        try:
            tokens = [(one.start, one.end) for one in strings(text) if isinstance(one, Literal)]
        except (tokenize.TokenError, IndentationError):
            self.count["scripts that tokenize refuses"] += 1
            return
        self.count["literals"] += len(tokens)
        self.assertEqual((model, ending), (tokens, None))

    def compare_fields(self, content, found):
        """Whether the list is complete, and so equal to what `ast` gives."""
        different = differences(content, found)
        if any("Python refuses the script" in one for one in different):
            self.count["scripts that Python refuses"] += 1
        elif found.complete:
            self.assertEqual(different, [])
            self.count["fields equal to those of ast"] += len(found.fields)
            return True
        else:
            self.count["scripts with a refusal"] += 1
            self.classes.update(classes(encoded(text_of(content))))
        return False


# Random nests of f-strings.

EVERY_QUOTES = ["'''", '"""', "'", '"']
TEXTS = ["a", " ", "é", "{{", "}}", "#", ":", "=", "!", "\\n", "\\N{INFINITY}", "\\x41", "\\\n"]
EXPRESSIONS = [
    "x", "x.y", " x ", "*a,", "a, b", "x[1:2]", "x != y", "x == y", "x <= y", "(a := 1)", "(lambda a: a)", "not x", "π",
    " {1: 2}[1]", "x if y else z", "'}'", '"{"', "'#'", "'a' \"b\"", "'''a'''", "(yield)", "1_0.5", "\nx\n",
]
RARE = [r"'\n'", "x # y", "'''a'b'''", '"""a"}{"b"""', "''''''", "x=()", "a b"]
AROUND = [
    "{}", "g({})", "[{} for y in z]", " {{'k': {}}}", "({}, 'a')", "{} 'b'", "'a' {}", "{}[0]", "x[{}]", "(lambda: {})",
]
NOISE = [*"!=:{}()[]'\"\\ #f\n", "'''", "f'", 'rf"', "!r", "=="]


class Nests:
    """Random scripts of f-strings in the expressions of others."""

    def __init__(self, seed):
        self.rng = random.Random(seed)

    def script(self):
        script = " ".join(self.literal(0, []) for _ in range(self.rng.choice([1, 1, 2])))
        if self.rng.random() < 0.05:
            at = self.rng.randrange(len(script) + 1)
            script = script[:at] + self.rng.choice(NOISE) + script[at:]
        return f"x = ({script})\n"

    def literal(self, level, around):
        """An f-string inside others that have the quotes `around`; it seldom has one of those."""
        free = [quotes for quotes in EVERY_QUOTES if not any(one in quotes or 3 * quotes == one for one in around)]
        if not free:
            return "x"
        quotes = self.rng.choice(free if self.rng.random() < 0.97 else EVERY_QUOTES)
        parts = [self.part(level, [*around, quotes]) for _ in range(self.rng.choice([1, 1, 2, 3]))]
        return self.rng.choice(["f", "f", "F", "rf", "fR"]) + quotes + "".join(parts) + quotes

    def part(self, level, around):
        if self.rng.random() < 0.3:
            return self.rng.choice(TEXTS[:9] if level else TEXTS)
        return self.field(level, around)

    def field(self, level, around, in_spec=False):
        rng = self.rng
        expression = rng.choice(EXPRESSIONS if rng.random() < 0.97 else RARE)
        if level < 4 and rng.random() < 0.5:
            expression = rng.choice(AROUND).format(self.literal(level + 1, around))
        equals = rng.choice(["=", " = ", "= "]) if rng.random() < 0.15 else ""
        conversion = "!" + rng.choice("sra") if rng.random() < 0.2 else ""
        spec = ""
        if rng.random() < 0.3:
            nested = 0 if in_spec else rng.choice([0, 1, 2])
            spec = ":" + rng.choice(["", ">", "5", "é<"])
            spec += "".join(self.field(level, around, True) + rng.choice(["", "d"]) for _ in range(nested))
        return "{" + expression + equals + conversion + spec + "}"


# A word and a string for K, in statements where a string may stand.
STATEMENTS = [
    "K", "K.b", "K:\n pass", "K.b in c: pass", "K:\n case 1: pass", "x K", "x K else 1", "1 if x K", "x = K", "(K)",
    "[x K.b in c]", "with x K.b: pass", "import x K", "from x K", "K import x", "try: pass\nK: pass",
    "try: pass\nexcept x K: pass", "if x: pass\nK: pass", "match x:\n K: pass", "match x:\n case 1 K: pass", "raise x K",
    "yield K", "def K(): pass", "class K: pass", "async def f():\n K.b in c: pass", "lambda K: 1", "for x K: pass",
    "while 1:\n K", "x not K", "del x, K",
]


class Random(unittest.TestCase):
    def test_nests(self):
        nests, count = Nests(20260101), collections.Counter()
        for _ in range(NESTS):
            script = nests.script().encode()
            with self.subTest(script=script):
                self.assertEqual([*listed_rows(script)], [*own_rows(script)])
                count[self.compare_nest(script)] += 1
        print("nests:", ", ".join(f"{number} {name}" for name, number in count.most_common()))
        self.assertGreater(count["equal to ast"], NESTS // 2)
        self.assertGreater(count["told"], NESTS // 100)

    def compare_nest(self, script):
        found = list_script(script)
        different = differences(script, found)
        if any("Python refuses the script" in one for one in different):
            return "refused by Python"
        if not found.complete:
            self.assertNotIn(None, classes(script))
            return "told"
        self.assertEqual(different, [])
        return "equal to ast"

    def test_bytes(self):
        """The cut of any bytes is the one that meets its statements, and the list is of that cut."""
        rng, endings = random.Random(20260102), collections.Counter()
        words = [*KEYWORDS, b"t", b"1", b"\xc3", b"_", b"''", b"f'{x}'", b" "]
        alphabets = b"'\"#\\\n\rfrbu{x} \xc3", b"''f{", b"\"\"\"'\"'\"\\\nF", b"fFrRbBuU'_1#\n"
        for alphabet in (*([bytes([one]) for one in each] for each in alphabets), words):
            for _ in range(BYTE_STRINGS // 4):
                script = b"".join(rng.choices(alphabet, k=rng.randrange(40)))
                with self.subTest(script=script):
                    endings[self.compare_cut(script)] += 1
        self.assertEqual({*endings}, {None, 50, 51})

    def compare_cut(self, script):
        model, ending = cut(script)
        self.assertTrue(is_cut(script, model, ending))
        found = rows(script)
        self.assertEqual((found.literals, found.cut_to), (len(model), ending[1] if ending else len(script)))
        early = [row for row in found.rows if row.within == 0 and getattr(row, "number", 0) in (50, 51)]
        self.assertEqual([(row.number, row.place) for row in early], [ending] if ending else [])
        self.assertEqual([*listed_rows(script)], [*own_rows(script)])
        for start, end in model:
            self.compare_literal(script, start, end)
        return ending and ending[0]

    def compare_literal(self, script, start, end):
        """The same literal is listed from its start on, unless one that follows it never closes."""
        try:
            first = literals(script, start).literals[0]
        except Refusal as refusal:
            self.assertTrue(refusal.number in (50, 51) and refusal.place > start)
        else:
            self.assertEqual((first.start, first.end), (start, end))

    def test_keywords(self):
        """A word may stand before a string exactly if Python takes it there in one of the statements."""
        for word in [*keyword.kwlist, *keyword.softkwlist, "t", "bt", "print", "type"]:
            taken = any(by_ast(form.replace("K", word + '"a"')) == "" for form in STATEMENTS)
            told = [row.number for row in rows(word + '"a"').rows]
            self.assertEqual(told, [] if taken else [76], word)

    def test_statements(self):
        """The statements tell a cut from what is none."""
        script = b"x = f'a' # 'b'\n'c'"
        good = [(4, 8), (15, 18)]
        self.assertTrue(is_cut(script, good, None))
        more = [(4, 8), (11, 14), (15, 18)]
        for wrong in ([(4, 8)], [(15, 18)], [(5, 8), (15, 18)], more, [(4, 18)], [(4, 8), (15, 17)]):
            self.assertFalse(is_cut(script, wrong, None), wrong)
        self.assertFalse(is_cut(script, good[:1], (50, 15)))
        self.assertTrue(is_cut(b"xf'a' '", [(2, 5)], (50, 6)))
        self.assertFalse(is_cut(b"xf'a' '", [(1, 5)], (50, 6)))
        self.assertFalse(is_cut(b"xf'a' '", [(2, 5)], (51, 6)))


if __name__ == "__main__":
    unittest.main()
