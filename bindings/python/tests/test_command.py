"""The command: what it prints, and its exit status."""

import collections
import contextlib
import hashlib
import io
import json
import pathlib
import re
import subprocess
import sys
import tempfile
import unittest
from unittest import mock

from support import CALLED, CLONE, EMULATED, stumpgarret
import stumpgarret_rules

BENCH = 'print("VDD "\n      f"{mv / 12.5:.0f} {n!r}\\n")\n'
BENCH_FIELDS = "bench.py:2:10\tmv / 12.5\t\t:.0f\nbench.py:2:26\tn\t!r\t\n"
LAST_LINE = r"^[0-9,]+ fields? in [0-9,]+ scripts?, (complete|not complete(: .*)?)(; [0-9,]+ lines? or cells? left out, not Python)?\n$"
LATER = "from Python 3.12 on a string in the field may have the quotes of the f-string: write others, `f\"{d['a']}\"`"
IS_3_11 = sys.version_info[:2] == (3, 11)


COMMIT = subprocess.run(["git", "-C", CLONE, "rev-parse", "HEAD"], capture_output=True, text=True).stdout.strip()
BY_LIBRARY = "STUMPGARRET_LIBRARY" in CALLED
CALLED_HASH = hashlib.sha256(pathlib.Path(CALLED["STUMPGARRET_LIBRARY" if BY_LIBRARY else "STUMPGARRET_PROGRAM"]).read_bytes()).hexdigest()
OVER_A_PIPE = f"program: SHA-256 {CALLED_HASH}, called over a pipe" + EMULATED * ", under qemu-x86_64"
VERSION_LINES = [f"stumpgarret {stumpgarret.__version__}" + (f", commit {COMMIT}" if COMMIT else "")]
VERSION_LINES += [f"library: SHA-256 {CALLED_HASH}" if BY_LIBRARY else OVER_A_PIPE]


class Command(unittest.TestCase):
    def setUp(self):
        self.folder = self.enterContext(tempfile.TemporaryDirectory())
        self.enterContext(contextlib.chdir(self.folder))

    def run_on(self, *options, **scripts):
        """Exit status, output and errors of the command over scripts, whose names get an ending."""
        for name, content in scripts.items():
            pathlib.Path(name + ".py").write_bytes(content if isinstance(content, bytes) else content.encode())
        return self.run_main(*options, *(name + ".py" for name in scripts))

    def run_main(self, *arguments, given=b""):
        """The same without what says what to change, and without the last line, which says whether the list is complete."""
        status, out, err = self.run_whole(*arguments, given=given)
        *told, last = err.splitlines(keepends=True)
        self.assertRegex(last, LAST_LINE)
        self.assertEqual(status == 0, ", complete" in last)
        return status, out, "".join(line for line in told if not line.startswith("    Change: "))

    def run_whole(self, *arguments, given=b""):
        with contextlib.redirect_stdout(io.StringIO()) as out, contextlib.redirect_stderr(io.StringIO()) as err:
            with mock.patch.object(sys, "stdin", io.TextIOWrapper(io.BytesIO(given))):
                status = stumpgarret.main(list(arguments))
        return status, out.getvalue(), err.getvalue()

    def wrong_use(self, *arguments):
        with contextlib.redirect_stderr(io.StringIO()) as err, self.assertRaises(SystemExit) as caught:
            stumpgarret.main(list(arguments))
        self.assertEqual(caught.exception.code, 2)
        return err.getvalue()


class Plain(Command):
    def test_fields(self):
        self.assertEqual(self.run_on(bench=BENCH), (0, BENCH_FIELDS, ""))

    def test_why(self):
        status, out, err = self.run_on("--why", a="f'{x!r}{y=}{z=:3}{w}'")
        reasons = ["written after `!`", "repr: `=` with no spec", "none: `=` with a spec", "none: no `!` and no `=`"]
        self.assertEqual((status, [line.split("\t")[4] for line in out.splitlines()], err), (0, reasons, ""))

    def test_scripts(self):
        status, out, err = self.run_on(a="f'{x:}'", b="1", c="f'{y}'")
        self.assertEqual((status, out, err), (0, "a.py:1:4\tx\t\t:\nc.py:1:4\ty\t\t\n", ""))

    def test_self_documenting(self):
        self.assertEqual(self.run_on(a="f'{x = }{y=:3}'")[1], "a.py:1:4\tx =\t!r\t\na.py:1:10\ty=\t\t:3\n")

    def test_sorted_by_place(self):
        status, out, _ = self.run_on(a="f'{g(f\"{a}\"):{b}}' f'{f\"{c}\"}'\nf'{d}'")
        places = [tuple(map(int, line.split("\t")[0].split(":")[1:])) for line in out.splitlines()]
        self.assertEqual((status, places), (0, [(1, 4), (1, 9), (1, 15), (1, 23), (1, 26), (2, 4)]))

    def test_a_line_each(self):
        """A newline is told apart from a written backslash and letter."""
        status, out, _ = self.run_on(a="f'''{\n(\tx)!r:{w}\t\n\\n\\\\}'''")
        self.assertEqual((status, out.splitlines()[0]), (0, r"a.py:1:6" "\t" r"\n(\tx)" "\t!r\t" r":{w}\t\n\\n\\\\"))
        _, out, _ = self.run_on(a="f'{x:{w}\\n\x7f\x85\u2028é}'")
        self.assertEqual(out.splitlines()[0].split("\t")[3], r":{w}\\n\x7f\x85\u2028é")

    def test_refused(self):
        status, out, err = self.run_on(a="f'{x}'\nf'}'", b="f'{y}'")
        self.assertEqual((status, out), (1, "a.py:1:4\tx\t\t\nb.py:1:4\ty\t\t\n"))
        lost = "no field of the literal at line 2, column 1 is listed"
        self.assertEqual(err, f"a.py:2:4: refused: 25 SingleRbrace: a single }} stands in an f-string; {lost}\n")

    def test_opened(self):
        status, out, err = self.run_on(a="f'''{f(\n[x)}'''")
        self.assertEqual((status, out), (1, ""))
        said = "refused: 23 MismatchedDelimiter: [ is closed by ), opened at line 2, column 2"
        self.assertEqual(err, f"a.py:2:4: {said}; no field of the literal at line 1, column 1 is listed\n")

    def test_cut_ended_early(self):
        status, out, err = self.run_on(a="f'{x}' '")
        self.assertEqual((status, out), (1, "a.py:1:4\tx\t\t\n"))
        self.assertEqual(err, "a.py:1:8: refused: 50 quote never closed; no field behind it is listed\n")

    def test_read_otherwise(self):
        status, out, err = self.run_on(a="f'{x#}'")
        self.assertEqual((status, out), (1, "a.py:1:4\tx#\t\t\n"))
        self.assertRegex(err, "^a.py:1:5: refused: 75 read otherwise by Python: Python reads this field otherwise or not")

    def test_too_long(self):
        status, out, err = self.run_on(a=1_048_577 * " ")
        said = "a.py:1:1: refused: 49 script over 1,048,576 bytes; no field of the script is listed\n"
        self.assertEqual((status, out, err), (1, "", said))

    def test_unread(self):
        """The others are read all the same, and the worst status is the command's."""
        pathlib.Path("b.py").write_text("f'{y}'")
        pathlib.Path("c.py").write_text("f'}'")
        status, out, err = self.run_main("a.py", "b.py")
        self.assertEqual((status, out, err), (2, "b.py:1:4\ty\t\t\n", "a.py: No such file or directory\n"))
        status, out, err = self.run_main("b.py", "none/d.py", "c.py")
        self.assertEqual((status, out, err.splitlines()[0]), (2, "b.py:1:4\ty\t\t\n", "none/d.py: No such file or directory"))
        self.assertEqual(len(err.splitlines()), 2)
        self.assertEqual(self.run_main("c.py", "b.py")[0], 1)

    def test_undecodable(self):
        status, out, err = self.run_on(a=b"# coding: unknown\nf'{x}'", b="f'{y}'", c=b"\n'\xff'")
        self.assertEqual((status, out), (2, "b.py:1:4\ty\t\t\n"))
        self.assertRegex(err, r"^a.py: unknown coding unknown.*\nc.py: line 2 is not utf-8: .*\n$")

    def test_byte_0(self):
        status, out, err = self.run_on(a="f'{x}'".encode("utf-16-le"), b="f'{y}'")
        said = "a.py: line 1 has a byte 0: Python does not take it; UTF-16?\n"
        self.assertEqual((status, out, err), (2, "b.py:1:4\ty\t\t\n", said))

    def test_content_that_is_a_path(self):
        """A script may have nothing but the name of a file in it."""
        self.assertEqual(self.run_on(a="a.py"), (0, "", ""))

    def test_standard_input(self):
        said = "<stdin>:2:4\té\t\t\n"
        self.assertEqual(self.run_main("-", given="# coding: latin-1\r\nf'{é}'".encode("latin-1")), (0, said, ""))
        self.assertEqual(self.run_main("-", given=b"'"), (1, "", mock.ANY))
        self.assertEqual(self.run_main("-", given=b"\xff"), (2, "", mock.ANY))

    def test_wrong_use(self):
        self.assertIn("SCRIPT", self.wrong_use())
        self.assertIn("--unknown", self.wrong_use("--unknown", "a.py"))

    def said(self, *options):
        with contextlib.redirect_stdout(io.StringIO()) as out, self.assertRaises(SystemExit) as caught:
            stumpgarret.main([*options])
        self.assertEqual(caught.exception.code, 0)
        return out.getvalue()

    def test_help(self):
        out = self.said("--help")
        for said in (r"a newline as \n", r"a written \n is \\n", "Exit status: 0 if these are", "or - for standard input"):
            self.assertIn(said, out)
        self.assertIn("of the f-strings of Python scripts. The operator `%`, `str.format` and `format()`", out)
        self.assertRegex(out, r"format\s+too, and are not listed")
        names = "/usr/share/unicode/UnicodeData.txt (Debian: unicode-data) if it is there; else fourteen names are known."
        self.assertIn(f"That is FILE, else\n{names}\n", out)
        self.assertRegex(out, r"--names FILE +take names of characters from a UnicodeData.txt")

    def test_version(self):
        """It says the commit and the library's hash, and where names of characters are taken from."""
        version = "\n".join([*VERSION_LINES, "names of characters: "])
        pathlib.Path("names.txt").touch()
        for system, options, names in (
            ("names.txt", [], "names.txt"),
            ("none.txt", [], "fourteen, of the library"),
            ("names.txt", ["--names", "other\n.txt"], r"other\n.txt"),
        ):
            with mock.patch.object(stumpgarret, "SYSTEM_NAMES", system):
                self.assertEqual(self.said("--version", *options), f"{version}{names}\n")
                self.assertEqual(self.said(*options, "--version"), f"{version}{names}\n")

    def test_no_library(self):
        unavailable = mock.Mock(side_effect=stumpgarret.Unavailable("it is missing"))
        with mock.patch.object(stumpgarret, "_function", unavailable):
            self.assertEqual(self.run_on(a="''"), (2, "", "stumpgarret: it is missing\n"))

    def test_process(self):
        """The command as it is used."""
        pathlib.Path("bench.py").write_text(BENCH)
        for path, shown in (("bench.py", BENCH_FIELDS), ("-", BENCH_FIELDS.replace("bench.py", "<stdin>"))):
            with open("bench.py") as given:
                command = [sys.executable, stumpgarret.__file__, path]
                ran = subprocess.run(command, stdin=given, capture_output=True, text=True)
            self.assertEqual((ran.returncode, ran.stdout, ran.stderr), (0, shown, "2 fields in 1 script, complete\n"))


class Words(Command):
    """What is said of a refusal: one wording with docs/RULES.md, what was met, and what to change."""

    def changes(self, *options, **scripts):
        for name, content in scripts.items():
            pathlib.Path(name + ".py").write_text(content)
        _, _, err = self.run_whole(*options, *(name + ".py" for name in scripts))
        return [line[len("    Change: ") :] for line in err.splitlines() if line.startswith("    Change: ")]

    def test_one_wording(self):
        """The heading of a number's section, or what it is told as there; the Rust crate's tests see the same."""
        for number, (name, _) in stumpgarret.REFUSALS.items():
            chapter = stumpgarret_rules.chapters()[number]
            self.assertTrue(chapter.startswith(f"### 11.{number} {name}\n"))
            told = [text for text in re.findall("`([^`\n]*)`", chapter) if text.startswith(f"{number} {name}")]
            details = {20: [(at, 0) for at in stumpgarret.UNCLOSED], 23: [(ord("("), ord("]"))], 26: [(ord(")"), 0)]}
            said = [stumpgarret._meaning(number, one, 40) for one in details.get(number, [(2, 3)])]
            self.assertEqual(told or [f"{number} {name}"], said)

    def test_changes(self):
        """Each that a list can have says what to change, 20 by its detail."""
        listed = [number for number, chapter in stumpgarret_rules.chapters().items() if "Not in a list of a script" not in chapter]
        self.assertEqual(listed, [6, 10, 11, 13, *range(20, 29), 49, 50, 51, 75, 76])
        for number in listed:
            for detail in range(1, 6):
                change = stumpgarret_rules.change(number, detail)
                self.assertTrue(change and "\n" not in change and "Not in a list" not in change, number)
        self.assertEqual(len({stumpgarret_rules.change(20, detail) for detail in range(1, 6)}), 5)
        said = ["write `}}` if a brace is meant, or the `{` that is missing before it.", "write the `}`; if a brace is meant, write `{{`; " + LATER]
        self.assertEqual(self.changes(a="f'}' f'{x'"), said)

    def test_later_python(self):
        """What Python takes from 3.12 on is refused, and it says so, and what to write."""
        for source in ('f"{d["a"]}"', 'f"{f"{x}"}"', "f\"{'\"'}\"", "f\"{'\\n'}\"", 'f"{x\n}"', 'f"{x  # y\n}"'):
            with self.subTest(source=source):
                changes = self.changes(a=source)
                self.assertTrue(any("3.12 on" in change for change in changes), changes)
        self.assertEqual(self.changes(a='f"{d["a"]}"')[0], f"write the `}}`; if a brace is meant, write `{{{{`; {LATER}")
        self.assertEqual(self.changes(a="f\"{d['a']}\""), [])

    def test_otherwise(self):
        """75 names what was met."""
        for source, cause in (
            ("f'{x#}'", "a #"),
            ("f\"{'\\n'}\"", "a backslash"),
            (r"f'{x:\n}'", "a backslash in its spec"),
            ("f'{\"\"\"a\" \"b\"\"\"}'", "a triple-quoted literal with its own quote inside"),
            ("f'{x=()}'", "something after its self-documenting ="),
            ("f'{y}{a:{x=()}}'", "something after its self-documenting ="),
        ):
            with self.subTest(source=source):
                one, = stumpgarret.list_script(source).refused
                said = f"75 read otherwise by Python: Python reads this field otherwise or not at all, by {cause}"
                self.assertEqual(one.meaning, said)

    def test_names(self):
        """13 names the character and where it was searched; without a file of names, how one is had."""
        source = r"f'{x}\N{EURO SIGN}' f'\N{snake}' f'\N{NO SUCH NAME}'"
        pathlib.Path("names.txt").write_text("2603;SNOWMAN;So;0;ON;;;;;N;;;;;\n")
        said = "a.py:1:9: refused: 13 name not held: names.txt does not have the name EURO SIGN; no field of the literal at line 1"
        self.assertIn(said, self.run_on("--names", "names.txt", a=source)[2])
        with mock.patch.object(stumpgarret, "SYSTEM_NAMES", "none.txt"):
            said = "13 name not held: the library, which has fourteen names, does not have the name EURO SIGN;"
            self.assertIn(said, self.run_on(a=source)[2])
            without = self.changes(a=source)
        with_a_file = self.changes("--names", "names.txt", a=source)
        for change, code in zip(without, (r"\u20ac", r"\U0001f40d", None), strict=True):
            self.assertIn("unicode-data", change)
            self.assertEqual(f" Python knows it as {code}." in change, code is not None)
        self.assertFalse(any("unicode-data" in change for change in with_a_file))

    def test_explain(self):
        for number in stumpgarret.REFUSALS:
            with contextlib.redirect_stdout(io.StringIO()) as out, self.assertRaises(SystemExit) as caught:
                stumpgarret.main(["--explain", str(number)])
            self.assertEqual(caught.exception.code, 0)
            self.assertEqual(out.getvalue(), stumpgarret_rules.chapters()[number])
            self.assertNotIn("\n## ", out.getvalue())
        for wrong in ("0", "8", "x", "020"):
            self.assertIn("--explain takes the number of a refusal, one of 1, 2, 3", self.wrong_use("--explain", wrong))
        with mock.patch.object(stumpgarret_rules, "chapters", lambda: {}):
            self.assertIn("docs/RULES.md, which has the chapters, is not there", self.wrong_use("--explain", "20"))


class Json(Command):
    def lines(self, source):
        """Status, objects but for the last, which says whether the list is complete, and errors."""
        status, out, err = self.run_on("--json", a=source)
        *lines, last = [json.loads(line) for line in out.splitlines()]
        kinds = collections.Counter(line["kind"] for line in lines)
        self.assertEqual(last, {
            "kind": "end", "complete": status == 0, "scripts": 1, "fields": kinds["field"], "refusals": kinds["refusal"],
            "unreadable": kinds["unreadable"], "differences": kinds["difference"], "left_out": 0,
            "rounding": sum(line.get("class") in ("rounds", "computed", "own") for line in lines), "formatters": 0, "allowed": 0,
        })
        return status, lines, err

    def test_fields(self):
        field = {"kind": "field", "file": "a.py", "line": 1, "column": 7, "end": [3, 2], "expression": "é\n", "documented": True}
        field.update({"conversion": "r", "reason": "written", "spec": ">{w}\n", "depth": 0, "class": "text", "allowed": None})
        nested = {"kind": "field", "file": "a.py", "line": 2, "column": 7, "end": [2, 9], "expression": "w", "documented": False}
        nested.update({"conversion": None, "reason": "none", "spec": None, "depth": 1, "class": "exact", "allowed": None})
        status, lines, err = self.lines("rf'''{é\n=!r:>{w}\n}'''")
        self.assertEqual((status, lines, err), (0, [field, nested], ""))
        self.assertEqual([*lines[0]], [*field])

    def test_reasons_and_depths(self):
        _, lines, _ = self.lines("f'{x!r}{y=}{z=:3}{w}'")
        self.assertEqual([line["reason"] for line in lines], ["written", "repr", "spec", "none"])
        _, lines, _ = self.lines("f'''{f\"{w:{g(f'{v}')}}\"}{x}'''")
        depths = [(line["expression"], line["depth"]) for line in lines]
        self.assertEqual(depths[1:], [("w", 1), ("g(f'{v}')", 2), ("v", 3), ("x", 0)])

    def test_refusals(self):
        """They stand at their place among the fields, and on standard error."""
        status, lines, err = self.lines("f'{x}' f'{(]}' f'{y}' f'{z#}' '")
        self.assertEqual((status, [line.get("number") for line in lines]), (1, [None, 23, None, None, 75, 50]))
        mismatched = {"kind": "refusal", "file": "a.py", "line": 1, "column": 13, "number": 23, "name": "MismatchedDelimiter"}
        mismatched.update({"meaning": "23 MismatchedDelimiter: ( is closed by ]", "start": [1, 8], "opened": [1, 12], "depth": 0})
        mismatched["change"] = "close the bracket that was opened there."
        self.assertEqual(lines[1], mismatched)
        self.assertEqual([(line["depth"], line["opened"]) for line in lines[4:]], [(1, None), (0, None)])
        self.assertEqual(len(err.splitlines()), 3)

    def test_unreadable(self):
        """An object says so, and the last one that the list is not complete: no stream is empty."""
        status, lines, _ = self.lines(b"\n\xff")
        self.assertEqual((status, [line["kind"] for line in lines]), (2, ["unreadable"]))
        self.assertEqual((lines[0]["file"], lines[0]["meaning"][:22]), ("a.py", "line 2 is not utf-8: '"))
        self.assertEqual(self.lines("")[:2], (0, []))
        unavailable = mock.Mock(side_effect=stumpgarret.Unavailable("it is missing"))
        with mock.patch.object(stumpgarret, "_function", unavailable):
            self.assertEqual(self.lines("f'{x}'")[:2], (2, []))

    def test_ascii(self):
        _, out, _ = self.run_on("--json", **{"é": "f'{é}'"})
        self.assertTrue(out.isascii())


@unittest.skipUnless(IS_3_11, "Python 3.11 has the grammar")
class Check(Command):
    def test_no_difference(self):
        status, out, err = self.run_on("--check", a="f'{x!r:>{w=}\\t}' f'''{f\"{y:{w}}\"\n}'''", b=BENCH)
        self.assertEqual((status, len(out.splitlines()), err), (0, 7, ""))
        self.assertEqual(self.run_on("--check", a=b"# coding: latin-1\rf'\xe9{\xe9:\xe9>5}'\r")[0], 0)

    def test_run_that_begins_with_u(self):
        """Python gives the kind of the run's first literal to a text of a spec too, which is no difference."""
        for spec in ("y{z}", "y{z}w", "{z}w", "y{z}{u'b'}", "y{u'b' f'{c:d}'}", "y"):
            source = f'x = u"a" f"{{x:{spec}}}" "b" f"{{x!r:{spec}}}"\n'
            self.assertEqual(self.run_on("--check", a=source)[::2], (0, ""), spec)
        found = stumpgarret.list_script('f"{x:y{z}}"')
        other = b"u'a' f'{x:v{z}}'"
        said = ["1: Python alone has f'{x:v{z}}'", "1:4: Python does not have {x:y{z}}"]
        self.assertEqual(stumpgarret.differences(other, found), said)

    def test_told_difference(self):
        status, _, err = self.run_on("--check", a="\nf'{\"\"\"\"{{\"}\"\"\"}{\"\"\"\"}}\":\"\"\"}'")
        self.assertEqual((status, len(err.splitlines())), (1, 4))
        alone = r"(a.py:2: Python alone has f.*\n){2}"
        self.assertRegex(err, rf'a.py:2:4: refused: 75 .*\n{alone}a.py:2:4: Python does not have {{"')

    def test_each_difference(self):
        """Expression, conversion and spec count, and so does how often they stand there."""
        source = b"f'{x!r:3}' f'{x!r:3}'"
        found = stumpgarret.list_script(source)
        self.assertEqual(stumpgarret.differences(source, found), [])
        for other in (b"f'{y!r:3}'", b"f'{x!s:3}'", b"f'{x!r:4}'", b"f'{x!r}'"):
            said = [f"1: Python alone has {other.decode()}", "1:15: Python does not have {x!r:3}"]
            self.assertEqual(stumpgarret.differences(other.ljust(10) + source[10:], found), said)
        self.assertEqual(stumpgarret.differences(source[:13] + b"'", found), ["1:15: Python does not have {x!r:3}"])
        self.assertEqual(stumpgarret.differences(2 * source, found), 2 * ["1: Python alone has f'{x!r:3}'"])

    def test_in_the_order_of_lines(self):
        source = b"f'{a}'\nf'{b}'\nf'{c}' f'{d}'\nf'{e}'"
        said = stumpgarret.differences(source.translate(bytes.maketrans(b"abcd", b"xbyz")), stumpgarret.list_script(source))
        lines = ["1", "1:4", "3", "3", "3:4", "3:11"]
        self.assertEqual([one.split(": ")[0] for one in said], lines)

    def test_syntax_error(self):
        for source in ("f'{a b}'", "\nx = = 1", "if x:\nf'{x}'"):
            status, _, err = self.run_on("--check", a=source)
            self.assertEqual(status, 1)
            self.assertRegex(err, r"^a.py:\d: Python refuses the script: ")

    def test_with_json(self):
        status, out, err = self.run_on("--check", "--json", a="\nf'{a b}'")
        field, difference, end = map(json.loads, out.splitlines())
        self.assertEqual((status, field["expression"], end["complete"], end["differences"]), (1, "a b", False, 1))
        self.assertEqual((difference["kind"], difference["file"], difference["line"]), ("difference", "a.py", 2))
        self.assertRegex(difference["meaning"], "^Python refuses the script: ")
        self.assertIn("a.py:2: Python refuses", err)


class Documents(Command):
    def test_options(self):
        """The options that pages for pipelines name are the command's."""
        with contextlib.redirect_stdout(io.StringIO()) as out, self.assertRaises(SystemExit):
            stumpgarret.main(["--help"])
        known = set(re.findall(r"^  (?:-h, )?(--[a-z-]+)", out.getvalue(), re.M))
        for name in ("docs/CI.md", ".pre-commit-hooks.yaml", "fields"):
            text = (CLONE / name).read_text(encoding="utf-8")
            named = {option for line in re.findall(r"(?:stumpgarret|fields)(?: .*)?$", text, re.M) for option in re.findall(r" (--[a-z-]+)", line)}
            self.assertLessEqual(named, known, name)
        for option in known - {"--help"}:
            self.assertIn(f"| `{option}", (CLONE / "bindings/python/README.md").read_text(encoding="utf-8"))

    def test_hook(self):
        """Each of the hook's lines is one of pre-commit's keys, and its words run."""
        lines = [line[2:] for line in (CLONE / ".pre-commit-hooks.yaml").read_text().splitlines() if not line.startswith("#")]
        hook = dict(line.split(": ", 1) for line in lines)
        self.assertEqual([*hook], ["id", "name", "description", "entry", "language", "types_or", "require_serial"])
        program, *words = hook["entry"].split()
        pathlib.Path("a.py").write_text("f'{x}'")
        self.assertEqual((program, self.run_main(*words, "a.py")), ("stumpgarret", (0, "a.py:1:4\tx\t\t\n", "")))

    def test_versions(self):
        for name in ("docs/CI.md", "CHANGELOG.md", "docs/stumpgarret.1"):
            self.assertIn(stumpgarret.__version__, (CLONE / name).read_text(encoding="utf-8"), name)


class OtherPythons(Command):
    def test_check(self):
        with mock.patch.object(sys, "version_info", (3, 12, 1)):
            self.assertIn("--check needs Python 3.11, and this is 3.12", self.wrong_use("--check", "a.py"))

    def test_syntax(self):
        """The modules have nothing that the grammar of Python 3.7 does not have."""
        modules = sorted((CLONE / "bindings/python").glob("stumpgarret*.py"))
        self.assertGreater(len(modules), 5)
        for module in modules:
            compile(module.read_text(encoding="utf-8"), module, "exec", stumpgarret.ast.PyCF_ONLY_AST, _feature_version=7)


if __name__ == "__main__":
    unittest.main()
