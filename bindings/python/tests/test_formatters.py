"""The other ways to format: what the search finds, how it is told, and the search against Python's own `ast` over its library.

One script of the library in forty is taken; the variable STUMPGARRET_SHARE names another share, 1 for all of them.
"""

import ast
import collections
import json
import os
import pathlib
import re
import unittest
import warnings

import test_command
import test_listing
import test_page
import test_rounds
import test_sarif
from support import stumpgarret
from stumpgarret_formatters import KINDS, formatters

SHARE = int(os.environ.get("STUMPGARRET_SHARE", "40"))
# What is found in a source, in order, each where its sign or name stands.
FOUND = {
    "'%d' % x": ["1:6 %"],
    "'a' 'b' % x": ["1:9 %"],
    "b'%d' % x; rf'{y}%d' % x": ["1:7 %", "1:22 %"],
    "('a' 'b') % x": ["1:11 %"],
    "(('a'\n 'b')) % x": ["2:8 %"],
    "('a' + 'b') % x; ('a' if c else 'b') % x": ["1:13 %", "1:38 %"],
    "return ('a') % x": ["1:14 %"],
    "x = ('a'  # it's % here\n  # and ' here %\n  'b') \\\n  % x": ["4:3 %"],
    "('%d'  # (\n  % x)": ["2:3 %"],
    "'a'[0] % 2; x['k'] % 3; 5 % 3; len('a') % 2; f('a')('b') % 2; 'a'.x() % 2": [],
    "('a', 3) % 2; ['a'] % 2; {'a'} % 2": [],
    "# '%d' % x\n'# %d % x'": [],
    "x %= 3": ["1:3 %="],
    "'{}'.format(x)": ["1:6 .format()"],
    "t.format(x); t . format \\\n (x); '{}'.format_map(x)": ["1:3 .format()", "1:18 .format()", "2:12 .format_map()"],
    "('{}'\n '{}')\n.format(x)": ["3:2 .format()"],
    "map('{}'.format, x); map(('a' 'b').format_map, x)": ["1:10 .format()", "1:36 .format_map()"],
    "t.format; x.format = 3; t.formats(x); xformat(x); format_map(x)": [],
    "format(x, '.0f'); round(x); round (x, 2)": ["1:1 format()", "1:19 round()", "1:29 round()"],
    "np.round(x); x.round; map(round, x)": ["1:4 .round()"],
    "def format(x): pass\nclass round(x): pass\nundef = format(x)": ["3:9 format()"],
    "f\"{'%d' % x:>{round(y)}} {f'{format(z)}'!r}\"": ["1:9 %", "1:15 round()", "1:30 format()"],
    "f'%{x}' f'{x:%Y}' f'{x}%'": [],
    "é = 'é' % x": ["1:9 %"],
    "": [],
}


def search(source):
    script = source.encode()
    return formatters(script, stumpgarret.rows(script).rows)


class Search(unittest.TestCase):
    def test_each(self):
        for source, places in FOUND.items():
            with self.subTest(source=source):
                self.assertEqual([f"{one.line}:{one.column} {one.what}" for one in search(source)], places)

    def test_all_kinds(self):
        self.assertEqual({one.what for source in FOUND for one in search(source)}, set(KINDS))

    def test_literal_that_never_closes(self):
        """What lies before it is searched; that the rest is not listed is told anyway."""
        self.assertEqual([one.what for one in search("'a' % x; round(x); '")], ["%", "round()"])


def is_text(node):
    return isinstance(node, ast.JoinedStr) or isinstance(node, ast.Constant) and isinstance(node.value, (str, bytes))


def by_python(tree):
    """The same by Python's own tree: the kind, and whether the left side of a `%` is a literal."""
    for node in ast.walk(tree):
        if isinstance(node, ast.BinOp) and isinstance(node.op, ast.Mod):
            if any(map(is_text, ast.walk(node.left))):
                yield "%", is_text(node.left)
        elif isinstance(node, ast.AugAssign) and isinstance(node.op, ast.Mod):
            yield "%=", True
        elif isinstance(node, ast.Call) and isinstance(node.func, ast.Name) and f"{node.func.id}()" in KINDS:
            yield f"{node.func.id}()", True
        elif isinstance(node, ast.Call) and isinstance(node.func, ast.Attribute) and f".{node.func.attr}()" in KINDS:
            yield f".{node.func.attr}()", True


@unittest.skipUnless(test_command.IS_3_11, "Python 3.11 has the grammar")
class Library(unittest.TestCase):
    def test_against_ast(self):
        """Nothing is missed, script by script; counted is what is found and no node has, or the left side of which only has a
        literal somewhere, and what of these is not found."""
        count, more, less = collections.Counter(), collections.Counter(), collections.Counter()
        for path in test_listing.library_paths()[::SHARE]:
            content = path.read_bytes()
            try:
                with warnings.catch_warnings():
                    warnings.simplefilter("ignore")
                    tree = ast.parse(content)
                listed = stumpgarret.list_script(content)
            except (SyntaxError, ValueError, RecursionError):
                continue
            if not listed.complete:
                continue
            ours, wanted, known = self.compared(content, listed, tree)
            self.assertFalse(wanted - ours, path)
            count.update(ours)
            count["scripts"] += 1
            more.update(ours - known)
            more["% of a left side with a literal"] += (ours & known)["%"] - wanted["%"]
            less.update(known - ours)
        for said, counted in ("", count), (", beyond Python's", more), (", not found", less):
            print(f"formatters{said}:", ", ".join(f"{number:,} {name}" for name, number in counted.most_common()) or "none")
        self.assertTrue(count["%"])

    def compared(self, content, listed, tree):
        """Ours by kind; those that must be found; those that Python's tree knows."""
        script = stumpgarret._bytes(stumpgarret.text_of(content))
        ours = collections.Counter(one.what for one in formatters(script, [field.row for field in listed.fields]))
        python = [*by_python(tree)]
        return ours, collections.Counter(what for what, must in python if must), collections.Counter(what for what, _ in python)


class Told(test_rounds.Command):
    SOURCE = "print('%.0f' % x)\nf'{x}'\n"
    LINE = "a.py:1:14: formats with %, which is not listed"

    def test_list(self):
        """On standard error, and the status stays 0; the list is complete."""
        self.assertEqual(self.run_on(a=self.SOURCE), (0, "a.py:2:4\tx\t\t\n", f"{self.LINE}\n"))

    def test_rounds(self):
        status, lines, err = self.rounds(a=self.SOURCE)
        self.assertEqual((status, lines), (1, []))
        self.assertEqual(err, [self.LINE, "1 field in 1 script, complete; nothing rounds; 1 formats otherwise"])
        status, _, err = self.rounds(a="round(x); f'{x:.0f}'; '{}'.format(x)")
        self.assertEqual((status, err[-1]), (1, "1 field in 1 script, complete; 1 rounds or may; 2 format otherwise"))

    def test_allowed(self):
        """By the text of its line, without its comment."""
        pathlib.Path("allow").write_text("a.py:print('%.0f' % x)  # a label\na.py:print('%.1f' % x)  # none\n")
        status, lines, err = self.rounds("--allow", "allow", a="if y:\n    print('%.0f' % x)  # here\n")
        said = ["a.py:2:18: formats with %, which is not listed; allowed: a label"]
        said += ["allow:2: nothing that rounds is met by a.py:print('%.1f' % x)  # none"]
        self.assertEqual((status, lines, err[:-1]), (0, [], said))

    def test_allowed_with_signs(self):
        """A `#` in a literal is part of the text, and a backslash is as it is written."""
        source = 'print("#%d\\n" % x)  # "#%d" here\nprint("#%f\\n" % x)\n'
        pathlib.Path("allow").write_text('a.py:print("#%d\\n" % x)  # a #1 label\n')
        status, _, err = self.rounds("--allow", "allow", a=source)
        said = ["a.py:1:15: formats with %, which is not listed; allowed: a #1 label", "a.py:2:15: formats with %, which is not listed"]
        self.assertEqual((status, err[:-1]), (1, said))

    def test_json(self):
        pathlib.Path("allow").write_text("a.py:round(x)  # it may\n")
        status, out, _ = self.run_on("--json", "--allow", "allow", a="\nround(x)\nf'{x}' % y\n")
        objects = [*map(json.loads, out.splitlines())]
        self.assertEqual([one["kind"] for one in objects], ["formatter", "field", "formatter", "end"])
        one = {"kind": "formatter", "file": "a.py", "line": 2, "column": 1, "what": "round()"}
        one.update({"meaning": "rounds with round(), which is not listed", "allowed": "it may"})
        self.assertEqual((status, objects[0], objects[2]["allowed"]), (0, one, None))
        self.assertEqual((objects[3]["complete"], objects[3]["formatters"], objects[3]["allowed"]), (True, 1, 1))

    def test_sarif(self):
        """A note in the file of a list, an error where what rounds is asked for."""
        for options, level in (([], "note"), (["--rounds"], "error")):
            self.run_whole("--sarif", "out.sarif", *options, *self.put(self.SOURCE))
            log = json.loads(pathlib.Path("out.sarif").read_text())
            test_sarif.check(log)
            result, = log["runs"][0]["results"]
            self.assertEqual((result["ruleId"], result["level"]), ("SG-formats", level))
            self.assertEqual(result["message"]["text"], self.LINE.split(": ", 1)[1])

    def put(self, source):
        pathlib.Path("a.py").write_text(source)
        return ["a.py"]

    def test_notebook(self):
        """What is left out of a cell is not searched, nor a `%` that is no operator."""
        cells = [{"cell_type": "code", "source": "%matplotlib inline\n'%d' % x\n"}]
        pathlib.Path("nb.ipynb").write_text(json.dumps({"cells": cells}))
        _, _, err = self.run_main("nb.ipynb")
        self.assertEqual(err.splitlines()[0], "nb.ipynb:cell 1:2:6: formats with %, which is not listed")

    def test_not_read(self):
        """A script that is too long is refused, and not searched."""
        self.assertEqual(self.run_on(a=1_048_577 * " ")[0], 1)


class OnThePage(test_page.Command):
    def test_rows(self):
        """A row among the fields by place, and a sign in the source."""
        page, _ = self.page(a="f'{x}' '%d' % y\nround(z)")
        rows = [(kind, cells) for kind, cells in page.rows[1:]]
        self.assertEqual(rows[0][1][:2], ["1:4", "x"])
        self.assertEqual(rows[1], ("also", ["1:13", "formats with %, which is not listed"]))
        self.assertEqual(rows[2], ("also", ["2:1", "rounds with round(), which is not listed"]))
        self.assertEqual(page.said[0], ("yes", "Complete: 1 field, and these are all"))
        self.assertEqual("\n".join(page.lines), "f'{x}' '%d' % y\nround(z)")
        content = pathlib.Path("page.html").read_text()
        self.assertEqual(len(re.findall('<a class="also" id', content)), 2)

    def test_allowed(self):
        pathlib.Path("allow").write_text("a.py:round(z)  # it <may>\n")
        page, _ = self.page("--allow", "allow", a="round(z)")
        self.assertEqual(page.rows[1], ("also", ["1:1", "rounds with round(), which is not listed; allowed: it <may>"]))


if __name__ == "__main__":
    unittest.main()
