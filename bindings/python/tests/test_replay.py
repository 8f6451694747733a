"""Recorded readings through a template: `Spec`, `replay`, and the command `stumpgarret replay`."""

import contextlib
import io
import os
import pathlib
import random
import re
import subprocess
import sys
import tempfile
import threading
import unittest
from unittest import mock

from support import CLONE, calls_of, stumpgarret

import stumpgarret_replay
from stumpgarret import Refusal, Replay, Spec

GRAMMAR = re.compile(
    r"(?:(?P<fill>.)?(?P<align>[<>=^]))?(?P<sign>[+\- ])?(?P<z>z)?(?P<alternate>#)?(?P<zero>0)?(?P<width>[0-9]+)?"
    r"(?P<grouping>[_,])?(?:\.(?P<precision>[0-9]+))?(?P<type>[bcdeEfFgGnosxX%])?",
    re.DOTALL,
)
ROUNDS = "e", "E", "f", "F", "g", "G", "n", "%"


def parts(text):
    """By the grammar of the reference, as a pattern; None for what is not of it."""
    # A character with an align behind it is a fill, also if it is an align itself.
    found = GRAMMAR.fullmatch(text)
    if not found or (found["fill"] is None and text[1:2] and text[1] in "<>=^"):
        return None
    width, precision = (found[name] and int(found[name]) for name in ("width", "precision"))
    rounds = found["type"] in ROUNDS or (found["type"] is None and precision is not None)
    flags = (found[name] is not None for name in ("z", "alternate", "zero"))
    return Spec(found["fill"], found["align"], found["sign"], *flags, width, found["grouping"], precision, found["type"], rounds)


def told(spec):
    try:
        return Spec.parse(spec)
    except Refusal as refusal:
        assert (refusal.number, str(refusal)[:18]) == (68, "refused at field 0"), refusal
        return None


def replay(template, trace):
    return stumpgarret.replay(template, stumpgarret.literals(template, 0).literals, trace)


class Specs(unittest.TestCase):
    def test_parts(self):
        all_of_them = Spec("*", "^", "+", True, True, True, 64, ",", 3, "f", True)
        self.assertEqual(Spec.parse("*^+z#064,.3f"), all_of_them)
        self.assertEqual(Spec.parse(b"*^+z#064,.3f"), all_of_them)
        none = Spec(None, None, None, False, False, False, None, None, None, None, False)
        self.assertEqual(Spec.parse(""), none)
        self.assertEqual((Spec.parse("☃<").fill, Spec.parse("\0>5").fill, Spec.parse("<<").fill), ("☃", "\0", "<"))
        self.assertEqual((Spec.parse("0").zero, Spec.parse("0").width, Spec.parse("00").width), (True, None, 0))
        self.assertEqual(Spec.parse("99999999999").width, 2**32 - 2)

    def test_what_rounds(self):
        self.assertTrue(all(Spec.parse(one).rounds for one in [*ROUNDS, ".0", ".3", "8.0f"]))
        self.assertFalse(any(Spec.parse(one).rounds for one in ["", "d", "x", ".3s", ",", "08"]))

    def test_not_of_the_grammar(self):
        for one in ("q", " 5 ", ".", "dd", ">>>", "__", "5,_", b"\xff", "٥", "5\n", "\0", "é"):
            with self.subTest(spec=one), self.assertRaises(Refusal) as caught:
                Spec.parse(one)
            self.assertEqual((caught.exception.number, caught.exception.name), (68, "spec not of the grammar"))

    def test_grammar(self):
        """The pattern's parts, for random texts of its characters."""
        chance = random.Random(68)
        seen = 0
        for _ in range(5000):
            text = "".join(chance.choices("<>=^+- z#0019_,.bdfsx%é\0", k=chance.randrange(7)))
            expected = parts(text)
            self.assertEqual(told(text), expected, ascii(text))
            seen += expected is not None
        self.assertGreater(seen, 500)

    def test_wrong_types(self):
        for one in (None, 5, ["d"]):
            with self.assertRaises(TypeError):
                Spec.parse(one)


class Lines(unittest.TestCase):
    def test_lines(self):
        lines = "VDD  1,234 mV 0x00ff\nVDD     -1 mV 0x0000\n"
        self.assertEqual(replay("f'VDD {mv:>6,} mV {code:#06x}'", '1234,255\r\n"-1",0'), Replay(2, lines.encode()))
        self.assertEqual(replay(b"f'{x}'", b""), Replay(0, b""))
        self.assertEqual(replay("'a' f'{x=:☃^5}' u'b'", b"-0\r\n007\r\n").output.decode(), "ax=☃☃0☃☃b\nax=☃☃7☃☃b\n")

    def test_as_python_does(self):
        chance = random.Random(12)
        for _ in range(200):
            specs = [chance.choice(["", "d", "+d", ">9,", "#010b", "^_o", "=+7", " x", "#X", "☃<4"]) for _ in range(3)]
            rows = [[chance.randrange(-(2**31), 2**31) >> chance.randrange(32) for _ in specs] for _ in range(5)]
            template = "f'{a:%s} | {b:%s}{c:%s}'" % tuple(specs)
            trace = "".join(",".join(map(str, row)) + "\r\n" for row in rows)
            python = "".join(eval(template, dict(zip("abc", row))) + "\n" for row in rows)
            self.assertEqual(replay(template, trace).output.decode(), python, template)

    def test_row_by_row(self):
        rows = [b"%d,%d\r\n" % (at, -at * at) for at in range(50)]
        whole = replay("f'{a:>4}{b:_}'", b"".join(rows))
        self.assertEqual(whole.output, b"".join(replay("f'{a:>4}{b:_}'", row).output for row in rows))

    def test_room_is_found(self):
        with calls_of("replay") as calls:
            self.assertEqual(replay("f'{x:>64}'", b"1"), Replay(1, b" " * 63 + b"1\n"))
        self.assertEqual([call[11] for call in calls], [4, 65])

    def test_refusals(self):
        for template, trace, number, at in [
            ("f'{x}{y:q}'", "", 68, 1),
            ("f'{x!r:q}'", "", 68, 0),
            ("f'{x:{w}q}'", "", 69, 0),
            ("f'{x=}'", "", 69, 0),
            ("f'{x:65}'", "", 69, 0),
            ("f'{x}'", "1\r\n2\n", 70, 1),
            ("f'{x}'", "1\r\n2,", 70, 1),
            ("f'{x}'", "1,99999999999", 71, 0),
            ("'no field'", "1", 71, 0),
            ("f'{x}'", "2147483647\r\n2147483648", 72, 1),
        ]:
            with self.subTest(template=template, trace=trace), self.assertRaises(Refusal) as caught:
                replay(template, trace)
            refusal = caught.exception
            self.assertEqual((refusal.number, refusal.told, refusal.literal, refusal.place), (number, at, 0, 0))
            sort = "field" if number < 70 else "row"
            self.assertRegex(str(refusal), f"^refused at {sort} {at}: {number} {stumpgarret.REFUSALS[number][0]}: ")

    def test_the_template_is_refused_as_it_is_read(self):
        for template in ("f'{x}}'", "'a' b'c'", "f'{(]}'"):
            literals = stumpgarret.literals(template, 0).literals
            with self.assertRaises(Refusal) as read:
                stumpgarret.read(template, literals)
            with self.assertRaises(Refusal) as replayed:
                stumpgarret.replay(template, literals, b"q")
            self.assertEqual(read.exception.args, replayed.exception.args)

    def test_too_many_bytes(self):
        """Lines of 2^32 - 1 bytes or more are 73."""

        def refuses(name):
            return lambda *lent: lent[12].__setitem__(slice(0, 12), [73, 0, 0, 0, 0, 0, 0, 0, 0, 2**32 - 1, 0, 0])

        template = stumpgarret.literals("f'{x}'", 0).literals
        with mock.patch.object(stumpgarret, "_function", refuses), self.assertRaises(Refusal) as caught:
            stumpgarret.replay("f'{x}'", template, b"1")
        self.assertEqual(str(caught.exception), "refused: 73 output buffer too short: the lines need 4294967295 bytes")

    def test_wrong_types(self):
        for given in [("f'{x}'", [1], b""), ("f'{x}'", [], 5), (5, [], b""), ("f'{x}'", None, b"")]:
            with self.assertRaises(TypeError):
                stumpgarret.replay(*given)


class Command(unittest.TestCase):
    def setUp(self):
        self.folder = self.enterContext(tempfile.TemporaryDirectory())
        self.enterContext(contextlib.chdir(self.folder))

    def run_main(self, *arguments, given=b""):
        """Exit status, the bytes of standard output, and standard error."""
        with tempfile.TemporaryFile("w+") as out, contextlib.redirect_stderr(io.StringIO()) as err:
            with mock.patch.object(sys, "stdin", io.TextIOWrapper(io.BytesIO(given))), contextlib.redirect_stdout(out):
                status = stumpgarret.main(["replay", *arguments])
            out.flush()
            out.buffer.seek(0)
            return status, out.buffer.read(), err.getvalue()

    def through(self, template, trace, *options):
        return self.run_main(*options, "--template", template, "-", given=trace)

    def at(self, place, script, trace=b"1\r\n"):
        pathlib.Path("a.py").write_text(script, encoding="utf-8")
        return self.run_main(f"a.py:{place}", "-", given=trace)

    def refused(self, said, *given):
        self.assertEqual(given, (1, b"", said + "\n"))

    def unusable(self, said, *given):
        self.assertEqual(given, (2, b"", said + "\n"))

    def wrong_use(self, *arguments):
        with contextlib.redirect_stderr(io.StringIO()) as err, self.assertRaises(SystemExit) as caught:
            stumpgarret.main(["replay", *arguments])
        self.assertEqual(caught.exception.code, 2)
        return err.getvalue().splitlines()[-1]


class Templates(Command):
    def test_at_a_line(self):
        self.assertEqual(self.at("2", "x = 'no'\nprint('VDD '\n  f'{mv:>4}', 'no')\n"), (0, b"VDD    1\n", ""))
        self.assertEqual(self.at("3", "x = 'no'\nprint('VDD '\n  f'{mv:>4}', 'no')\n"), (0, b"VDD    1\n", ""))
        self.assertEqual(self.at("1", "print('a', f'{x}', end='')  # f'{y}'"), (0, b"1\n", ""))

    def test_at_a_column(self):
        script = "print('é', f'{x}', rf'{y:>3}\\d')  # f'{z}'"
        for column in (12, 13, 14, 17):
            self.assertEqual(self.at(f"1:{column}", script), (0, b"1\n", ""), column)
        for column in (20, 23, 30):
            self.assertEqual(self.at(f"1:{column}", script), (0, b"  1\\d\n", ""), column)
        self.unusable("a.py:1:18: no string literal stands there", *self.at("1:18", script))
        self.unusable("a.py:1:40: no string literal stands there", *self.at("1:40", script))

    def test_places_of_the_list(self):
        """Each place that the list of fields tells is one of its run."""
        script = "print(f'{a}' 'b'  # it's\n  f'{c:>3}', f'''{d}\n{e}''')"
        for field in stumpgarret.fields(script):
            wanted = b"1b  2\n" if field.line < 3 and field.expression in "ac" else b"1\n2\n"
            self.assertEqual(self.at(f"{field.line}:{field.column}", script, b"1,2"), (0, wanted, ""))

    def test_several(self):
        said = "a.py:1: 2 strings stand there; name one of them: a.py:1:7, a.py:1:15"
        self.unusable(said, *self.at("1", "print(f'{x}', f'{y}')"))

    def test_none(self):
        self.unusable("a.py:1: no string literal stands there", *self.at("1", "# f'{x}'\n"))
        self.unusable("a.py has 2 lines, and line 3 is none of them", *self.at("3", "f'{x}'\n"))
        self.unusable("a.py has 2 lines, and line 0 is none of them", *self.at("0", "f'{x}'\n"))
        self.unusable("a.py:1 has 6 characters, and column 8 is none of them", *self.at("1:8", "f'{x}'\n"))

    def test_statements_are_parted(self):
        """A newline ends a statement outside of brackets, and a run with it."""
        self.assertEqual(self.at("1", "x = f'{a}'\n'b'\n"), (0, b"1\n", ""))
        self.assertEqual(self.at("1", "x = (f'{a}'\n'b')\n"), (0, b"1b\n", ""))
        self.assertEqual(self.at("2", "f'{a}'\nf'{b:>3}'\n"), (0, b"  1\n", ""))

    def test_torn(self):
        """What Python joins and the library does not list is no template."""
        for script in ("x = f'{a}' \\\n 'b'\n", "x = 'b' \\\n f'{a}'\n", "x = (f'{a}' \\\n 'b')\n", "x = f'{a}' \f'b'\n"):
            line = 2 if script.startswith("x = 'b'") else 1
            status, out, err = self.at(line, script)
            self.assertEqual((status, out), (2, b""), script)
            self.assertIn("put them in parentheses", err)
        self.assertEqual(self.at("1", "x = f'{a}' \\\n + 'b'\n"), (0, b"1\n", ""))

    def test_refused(self):
        self.refused("a.py:2:1: 50 quote never closed", *self.at("2", "\n'"))
        self.refused("a.py:1:7: 25 SingleRbrace: a single } stands in an f-string", *self.at("1", "f'{x}}'"))
        self.assertEqual(self.at("1", "(f'{x}')\n'"), (0, b"1\n", ""))

    def test_fields_in_words(self):
        for field, said in [
            ("{x:q}", "68, 'q' is not of the format specification mini-language"),
            ("{x!r:5\t}", "68, '5\\t' is not of the format specification mini-language"),
            ("{x:{w}}", "69, a field in its spec"),
            ("{x:z}", "69, z is not for integers"),
            ("{x:.0f}", "69, a precision is not for integers"),
            ("{x:e}", "69, the type e is none of d, b, o, x and X"),
            ("{x:65}", "69, a width above 64"),
            ("{x:,x}", "69, a comma goes with d and not with x"),
            ("{x!a}", "69, the conversion !a"),
            ("{x=!s:5}", "69, the conversion !s"),
            ("{x=}", "69, a self-documenting = without a spec has the conversion !r; with a : behind it, it has none"),
        ]:
            shown = field.replace("\t", "\\t")
            self.refused(f"a.py:1:8: field 2, {shown}: {said}", *self.at("1", f"f'{{a}} {field}'", b"q"))

    def test_given(self):
        self.assertEqual(self.through(" f'{x}' \"!\" ", b"1"), (0, b"1!\n", ""))
        wanted = "--template wants a literal with its prefix and quotes, such as f'{mv:>8} mV'"
        self.unusable(wanted, *self.through("{x}", b"1"))
        self.unusable("--template wants literals and nothing else, and '+ 1' follows them", *self.through("f'{x}' + 1", b"1"))
        self.refused("--template: 50 quote never closed", *self.through("f'{x}", b"1"))
        said = "--template:1:4: field 1, {x!r}: 69, the conversion !r"
        self.refused(said, *self.through("f'{x!r}'", b"1"))

    def test_scripts(self):
        """Scripts are decoded as Python decodes them."""
        pathlib.Path("a.py").write_bytes("# coding: latin-1\r\nf'{x:é>3}'\r\n".encode("latin-1"))
        self.assertEqual(self.run_main("a.py:2:1", "-", given=b"1"), (0, "éé1\n".encode(), ""))
        pathlib.Path("a.py").write_bytes(b"\xff")
        status, out, err = self.run_main("a.py:1", "-")
        self.assertEqual((status, out, err[:26]), (2, b"", "a.py: line 1 is not utf-8:"))
        self.unusable("b.py: No such file or directory", *self.run_main("b.py:1", "-"))


class Traces(Command):
    def test_files(self):
        pathlib.Path("t.csv").write_bytes(b"1\r\n2")
        self.assertEqual(self.run_main("--template", "f'{x}'", "t.csv"), (0, b"1\n2\n", ""))
        self.unusable("u.csv: No such file or directory", *self.run_main("--template", "f'{x}'", "u.csv"))
        self.unusable(".: Is a directory", *self.run_main("--template", "f'{x}'", "."))
        self.assertEqual(self.through("f'{x}'", b""), (0, b"", ""))

    def test_what_cannot_be_read_twice(self):
        os.mkfifo("fifo")
        writer = threading.Thread(target=pathlib.Path("fifo").write_bytes, args=[b"1\r\n" * 9])
        writer.start()
        self.assertEqual(self.run_main("--template", "f'{x}'", "fifo"), (0, b"1\n" * 9, ""))
        writer.join()

    def test_rows_in_words(self):
        for trace, said in [
            (b"1,2\r\n3,4,5", "row 2: 71, 3 columns for 2 fields"),
            (b"1", "row 1: 71, 1 column for 2 fields"),
            (b"1,2\r\n\r\n", "row 2: 70, the row is empty"),
            (b"1,2\n3,4\n", "row 1: 70, the row ends with LF alone, and not with CR LF; --lf takes such a file"),
            (b"1,2\r3,4", "row 1: 70, a CR stands alone, and not in CR LF"),
            (b"mv,code\r\n1,2", "row 1, column 1: 70, 'mv' is not digits after at most one -; a trace has no header"),
            (b"1,2\r\nmv,3", "row 2, column 1: 70, 'mv' is not digits after at most one -"),
            (b"\xef\xbb\xbf1,2", "row 1, column 1: 70, a byte order mark stands before the first number: save the file without it"),
            (b"1, 2", "row 1, column 2: 70, ' 2' is not digits after at most one -"),
            (b"1,\xff\n", "row 1, column 2: 70, '\\\\xff' is not digits after at most one -"),
            (b"1,", "row 1, column 2: 70, it is empty"),
            (b'"1,2', "row 1, column 1: 70, its quote is not closed in its line"),
            (b'"1"2,3', "row 1, column 1: 70, '2' stands behind its number"),
            (b'1"2",3', "row 1, column 1: 70, '\"' stands behind its number"),
            (b"1,--2", "row 1, column 2: 70, '--2' is not digits after at most one -"),
            (b"1,2147483648", "row 1, column 2: 72, 2147483648 is outside -2,147,483,648 to 2,147,483,647"),
            (b'"-2147483649",2', "row 1, column 1: 72, -2147483649 is outside -2,147,483,648 to 2,147,483,647"),
            (b"1," + b"9" * 9999, f"row 1, column 2: 72, {'9' * 40}... is outside -2,147,483,648 to 2,147,483,647"),
        ]:
            with self.subTest(trace=trace[:20]):
                self.refused(f"<stdin>: {said}", *self.through("f'{a} {b}'", trace))

    def test_lf(self):
        self.assertEqual(self.through("f'{a}'", b"1\n2\r\n3\n", "--lf"), (0, b"1\n2\n3\n", ""))
        self.refused("<stdin>: row 2: 70, the row is empty", *self.through("f'{a}'", b"1\n\n", "--lf"))

    def test_blocks(self):
        """Whatever the size of the blocks, lines and refusals are those of one call."""
        rows = b"".join(b'%d,"%d"\r\n' % (at, -at) for at in range(40))
        traces = [rows, rows[:-2], rows + b"1", rows + b"1,2\n3,4", rows + b'"1\r\n2",3\r\n4,5', rows + b"2147483648,1\r\nq", b""]
        for trace in traces:
            with mock.patch.object(stumpgarret_replay, "BLOCK_BYTES", 1 << 20):
                whole = self.through("f'{a:>3}{b}'", trace)
            for size in (1, 2, 3, 7, 64):
                with mock.patch.object(stumpgarret_replay, "BLOCK_BYTES", size):
                    self.assertEqual(self.through("f'{a:>3}{b}'", trace), whole)
        self.assertEqual(whole, (0, b"", ""))

    def test_long_lines(self):
        """A template of many bytes has blocks of few rows."""
        template = "f'{x}" + 100_000 * "a" + "'"
        with mock.patch.object(stumpgarret_replay, "MOST_LINE_BYTES", 300_000), calls_of("replay") as calls:
            status, out, err = self.through(template, b"1\r\n" * 20)
        self.assertEqual((status, out, err), (0, (b"1" + 100_000 * b"a" + b"\n") * 20, ""))
        self.assertLessEqual(max(call[11] for call in calls), 300_000)

    def test_nothing_is_written_before_a_refusal(self):
        trace = b"1\r\n" * 1000 + b"q\r\n"
        with mock.patch.object(stumpgarret_replay, "BLOCK_BYTES", 64):
            said = "<stdin>: row 1001, column 1: 70, 'q' is not digits after at most one -"
            self.refused(said, *self.through("f'{x}'", trace))

    def test_changed_meanwhile(self):
        pathlib.Path("t.csv").write_bytes(b"1\r\n")
        output = stumpgarret_replay._output

        def change():
            pathlib.Path("t.csv").write_bytes(b"q\r\n")
            return output()

        with mock.patch.object(stumpgarret_replay, "_output", change):
            self.unusable("t.csv changed while it was read", *self.run_main("--template", "f'{x}'", "t.csv"))


class Use(Command):
    def test_wrong_use(self):
        self.assertIn("SCRIPT:LINE[:COLUMN] and TRACE are wanted", self.wrong_use("a.py:1"))
        self.assertIn("SCRIPT:LINE[:COLUMN] is wanted", self.wrong_use("a.py", "t.csv"))
        self.assertIn("TRACE alone is wanted", self.wrong_use("--template", "f'{x}'", "a.py:1", "t.csv"))
        self.assertIn("unrecognized arguments: --temp", self.wrong_use("--temp", "f'{x}'", "t.csv"))

    def test_help(self):
        with contextlib.redirect_stdout(io.StringIO()) as out, self.assertRaises(SystemExit) as caught:
            stumpgarret.main(["replay", "--help"])
        self.assertEqual(caught.exception.code, 0)
        self.assertRegex(out.getvalue(), r"That step is not\s+proved")

    def test_interrupted(self):
        with mock.patch.object(stumpgarret_replay, "_replay", side_effect=KeyboardInterrupt):
            self.assertEqual(self.through("f'{x}'", b""), (130, b"", "interrupted\n"))

    def test_unforeseen(self):
        with mock.patch.object(stumpgarret_replay, "_replay", side_effect=RuntimeError("so")):
            self.assertEqual(self.through("f'{x}'", b""), (2, b"", "stumpgarret: RuntimeError: so\n"))

    def test_without_the_library(self):
        with mock.patch.object(stumpgarret, "_function", side_effect=stumpgarret.Unavailable("none")):
            self.assertEqual(self.through("f'{x}'", b""), (2, b"", "none\n"))

    def test_standard_output(self):
        """A full disk and a closed standard output are one line, and status 2."""
        command = [sys.executable, "-B", stumpgarret.__file__, "replay"]
        for redirected, said in ((">/dev/full", "standard output: No space left on device\n"), (">&-", "standard output is closed\n")):
            ended = subprocess.run(
                ["sh", "-c", f'"$@" {redirected}', "sh", *command, "--template", "f'{x}'", "-"], input=b"1", stderr=subprocess.PIPE
            )
            self.assertEqual((ended.returncode, ended.stderr.decode()), (2, said))


class Showing(Command):
    def test_progress(self):
        """On a terminal, after a second, and gone in the end."""
        clock = iter(range(0, 10_000))
        shown = io.StringIO()
        shown.isatty = lambda: True
        trace = b"1\r\n" * 100
        with mock.patch.object(stumpgarret_replay.time, "monotonic", lambda: next(clock)):
            with mock.patch.object(stumpgarret_replay, "BLOCK_BYTES", 30), contextlib.redirect_stderr(shown):
                pathlib.Path("t.csv").write_bytes(trace)
                with tempfile.TemporaryFile("w+") as out, contextlib.redirect_stdout(out):
                    self.assertEqual(stumpgarret.main(["replay", "--template", "f'{x}'", "t.csv"]), 0)
        self.assertRegex(shown.getvalue(), r"^(\r\x1b\[Kt\.csv: \d+ % checked)+(\r\x1b\[Kt\.csv: \d+ % written)+\r\x1b\[K$")

    def test_no_progress_elsewhere(self):
        clock = iter(range(0, 10_000))
        with mock.patch.object(stumpgarret_replay.time, "monotonic", lambda: next(clock)):
            self.assertEqual(self.through("f'{x}'", b"1\r\n" * 100)[2], "")


class Example(unittest.TestCase):
    def test_readme(self):
        """What README says of the command is what it writes."""
        readme = (CLONE / "README.md").read_text(encoding="utf-8")
        said = re.search(r"^    \./stumpgarret replay (\S+) (\S+)\n\n((?:    .*\n)+)", readme, re.MULTILINE)
        lines = "".join(line[4:] + "\n" for line in said[3].splitlines())
        with contextlib.chdir(CLONE), tempfile.TemporaryFile("w+") as out, contextlib.redirect_stdout(out):
            self.assertEqual(stumpgarret.main(["replay", said[1], said[2]]), 0)
            out.seek(0)
            self.assertEqual(out.read(), lines)

    def test_as_python_does(self):
        """The line of the example with its readings, as Python runs it."""
        source = (CLONE / "examples" / "bench.py").read_text().splitlines()
        rows = (CLONE / "examples" / "readings.csv").read_text().replace('"', "").split()
        readings = [tuple(map(int, row.split(","))) for row in rows]
        with contextlib.redirect_stdout(io.StringIO()) as out:
            exec("\n".join([f"for at, mv, code in {readings}:", source[6]]))
        template = stumpgarret_replay.template_at("\n".join(source).encode(), "bench.py", 7, None)
        trace = (CLONE / "examples" / "readings.csv").read_bytes()
        self.assertEqual(stumpgarret.replay(template.script, template.literals, trace).output.decode(), out.getvalue())


if __name__ == "__main__":
    unittest.main()
