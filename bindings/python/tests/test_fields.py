"""Scripts: the call's rows, where fields stand, what is written, and what is refused."""

import array
import contextlib
import ctypes
import doctest
import pathlib
import pydoc
import re
import tempfile
import unittest
from unittest import mock

from support import CLONE, calls_of, stumpgarret
from stumpgarret import FieldRow, Incomplete, Literal, Reason, Refusal, RefusalRow, Signs, Undecodable
from stumpgarret import differences, fields, list_script, literals, positions, read, rows, text_of

MOST = 1_048_576
CODINGS = {
    **dict.fromkeys(("latin-1", "Latin_1", "ISO-8859-1-unix", "iso-latin-1-dos", "l1"), "latin-1"),
    **dict.fromkeys(("utf-8", "UTF_8-mac", "utf-8-sig", "u8"), "utf-8"),
    **dict.fromkeys(("shift_jis", "SJIS"), "shift_jis"),
}


def told(source):
    """What is listed: line, column, expression, conversion, spec."""
    return [(field.line, field.column, field.expression, field.conversion, field.spec) for field in fields(source)]


def written(source):
    """The fields in short form, as they might be written."""
    return ["".join(stumpgarret._columns(field)) for field in fields(source)]


def refused(source):
    """What is listed all the same, and what is refused: line, column, number."""
    try:
        fields(source)
    except Incomplete as incomplete:
        places = [(one.line, one.column, one.number) for one in incomplete.refused]
        return [field.expression for field in incomplete.fields], places
    return "nothing is refused"


class Calls(unittest.TestCase):
    def test_rows(self):
        found = rows("x = f'{g(f\"{y=}\")!r:>{w}}' ''")
        outer = FieldRow(Reason.WRITTEN, 4, 7, 10, "r", Signs(None, 18, 20, 25), 0)
        in_spec = FieldRow(Reason.NONE, 4, 22, 1, None, Signs(None, None, None, 24), 0)
        inner = FieldRow(Reason.REPR, 9, 12, 1, "r", Signs(14, None, None, 15), 1)
        self.assertEqual((found.rows, found.literals, found.cut_to), ((outer, in_spec, inner), 2, 29))

    def test_refusal_rows(self):
        found = rows("f'{(]}' f'{x#}' f'{f\"}\"}' '")
        mismatched = RefusalRow(0, 5, 23, (40, 93), 4, 0)
        self.assertEqual([row for row in found.rows if isinstance(row, RefusalRow)][0], mismatched)
        numbers = [(row.start, row.place, row.number, row.within) for row in found.rows if isinstance(row, RefusalRow)]
        self.assertEqual(numbers, [(0, 5, 23, 0), (26, 26, 50, 0), (8, 12, 75, 2), (19, 22, 25, 3)])
        self.assertEqual((found.literals, found.cut_to), (3, 26))

    def test_bytes_and_text(self):
        self.assertEqual(rows("'é' f'{x}'"), rows("'é' f'{x}'".encode()))
        self.assertEqual(rows("'é' f'{x}'").rows[0].place, 8)

    def test_room(self):
        """A second call has room for just as many rows as there are."""
        for count, lent in ((256, [2560]), (257, [2560, 2570]), (10_000, [2560, 100_000])):
            with calls_of("fields") as calls:
                found = rows(f"f'''{count * '{x}'}'''")
            self.assertEqual([arguments[3] for arguments in calls], lent)
            self.assertEqual((len(found.rows), found.rows[-1].signs.close), (count, 4 + 3 * count))

    def test_what_is_lent(self):
        """The rows in front and what follows as it was, or zeros throughout with how many rows there are."""
        row = [2, 0, 3, 1, 0, 0, 0, 0, 5, 0, 2, 0, 6, 1, 0, 0, 0, 0, 8, 0]
        for lent, first, listed in ((20, 0, 20), (23, 0, 20), (19, 53, 0), (0, 53, 0)):
            numbers, answer = (ctypes.c_uint32 * lent)(*lent * [7]), (ctypes.c_uint32 * 12)(*12 * [7])
            stumpgarret._function("fields")(b"f'{a}{b}'", 9, numbers, lent, answer)
            self.assertEqual(list(numbers), row[:listed] + (lent - listed) * [7 if listed else 0])
            self.assertEqual(list(answer), [53, *8 * [0], 2, 0, 0] if first else [0, 2, 0, 1, 9, *7 * [0]])

    def test_no_third_call(self):
        numbers = (ctypes.c_uint32 * 12)(53, *8 * [0], 300)
        function = mock.Mock(side_effect=lambda *arguments: ctypes.memmove(arguments[4], numbers, 48))
        with mock.patch.object(stumpgarret, "_function", lambda name: function):
            with self.assertRaisesRegex(Refusal, "53 list buffer too short"):
                rows("")
        self.assertEqual([call.args[3] for call in function.call_args_list], [2560, 3000])

    def test_the_most(self):
        script = f"f'{{x}}'{(MOST - 6) * ' '}"
        self.assertEqual(rows(script).cut_to, MOST)
        with self.assertRaisesRegex(Refusal, "49 script over"):
            rows(script + " ")
        self.assertEqual(refused(script + " "), ([], [(1, 1, 49)]))


class WrongTypes(unittest.TestCase):
    def refuses(self, said, call, *arguments):
        with self.assertRaises(TypeError) as caught:
            call(*arguments)
        self.assertEqual(str(caught.exception), said)

    def test_scripts(self):
        for wrong in (None, 5, ["f'{x}'"], pathlib.PurePosixPath("a.py"), array.array("I", [1])):
            said = f"a script's content is wanted, as bytes or str, not {type(wrong).__name__}"
            for call in (fields, list_script, rows, text_of):
                self.refuses(said, call, wrong)
            self.refuses(said, literals, wrong, 0)
            self.refuses(said, read, wrong, [])
            self.refuses(said, differences, wrong, list_script(""))

    def test_right_scripts(self):
        for right in (b"f'{x}'", bytearray(b"f'{x}'"), memoryview(b"f'{x}'"), "f'{x}'"):
            self.assertEqual([field.expression for field in fields(right)], ["x"])

    def test_numbers(self):
        for wrong in (None, "0", 1.0):
            said = f"to be a whole number, not {type(wrong).__name__}"
            self.refuses(f"the offset is {said}", literals, "''", wrong)
            listed = [Literal(0, 0, 1, 0, 0, 2), Literal(0, 0, 1, 0, wrong, 2)]
            self.refuses(f"literal 1: start is {said}", read, "''", listed)

    def test_others(self):
        self.refuses("literal 0: a Literal is wanted, not tuple", read, "''", [(0, 0, 1, 0, 0, 2)])
        self.refuses("a list of Literals is wanted, not Literal", read, "''", Literal(0, 0, 1, 0, 0, 2))
        self.refuses("what list_script gives is wanted, not list", differences, b"", [])


class Paths(unittest.TestCase):
    def test_path_for_content(self):
        """A path that is given by mistake would be a script without fields."""
        with tempfile.TemporaryDirectory() as folder, contextlib.chdir(folder):
            pathlib.Path("bench.py").write_text("f'{x}'")
            for path in ("bench.py", b"bench.py", f"{folder}/bench.py"):
                for call in (fields, list_script):
                    with self.assertRaisesRegex(ValueError, "^a script's content is wanted, and .*bench.py is the path of a file"):
                        call(path)
            for content in ("bench.pyw", "bench.py\n", folder, "", "f'{x}'"):
                self.assertTrue(list_script(content).complete)


class Module(unittest.TestCase):
    def test_example_of_help(self):
        ran = doctest.testmod(stumpgarret)
        self.assertEqual((ran.failed, ran.attempted), (0, 11))

    def test_names(self):
        """What people call comes first, in what help() shows too; each name is there, and all that is public is among them."""
        self.assertEqual(stumpgarret.__all__[:3], ["fields", "list_script", "differences"])
        public = {name for name, one in vars(stumpgarret).items() if getattr(one, "__module__", "") == "stumpgarret"}
        public = {name for name in public if not name.startswith("_") and not name.isupper()} - {"main", "process"}
        self.assertEqual(set(stumpgarret.__all__) - {"REASONS", "REFUSALS", "UNCLOSED"}, public)
        shown = pydoc.plain(pydoc.render_doc(stumpgarret))
        called = shown.index("fields(source) "), shown.index("list_script(source) "), shown.index("python3 stumpgarret.py --help")
        self.assertEqual(called, tuple(sorted(called)))
        self.assertLess(shown.index("stumpgarret.fields("), 300)

    def test_one_version(self):
        crate = (CLONE / "bindings/rust/Cargo.toml").read_text()
        self.assertEqual(re.search('^version = "(.*)"$', crate, re.M)[1], stumpgarret.__version__)


class Places(unittest.TestCase):
    def test_second_of_two(self):
        self.assertEqual(told('print("VDD " f"{mv / 12.5:.0f}\\n")'), [(1, 17, "mv / 12.5", None, ".0f")])

    def test_over_lines(self):
        source = "print('a' # f'{no}'\n      f'{x!r}'\n      F'{y:>5}')\n"
        self.assertEqual(told(source), [(2, 10, "x", "r", None), (3, 10, "y", None, ">5")])

    def test_triple_quoted(self):
        self.assertEqual(told('f"""\n é{x}{\n y}"""'), [(2, 4, "x", None, None), (2, 7, "\n y", None, None)])

    def test_none(self):
        self.assertEqual(told("x = 1"), [])
        self.assertEqual(told(""), [])
        self.assertEqual(told("f'{{x}}' '{x}' u'{x}' if b'{x}' else r'{x}' # f'{x}'"), [])

    def test_columns_are_characters(self):
        self.assertEqual(told("'é\U0001f600' f'π{x}'"), [(1, 10, "x", None, None)])
        self.assertEqual(told("\t'\t' f'\t{x}'"), [(1, 10, "x", None, None)])

    def test_ends(self):
        ends = [field.end for field in fields("f'''é{x:{y}\n}{\n\té}''' f'{z}'")]
        self.assertEqual(ends, [(2, 2), (1, 12), (3, 4), (3, 13)])

    def test_line_ends(self):
        lines = ["f'{a}'", "f'''", "{b}''' f'{c:{d}}'", "f'\\", "{e}'", "\tf'é{f}'", "# 'f'{no}", "''"]
        places = [(1, 4), (3, 2), (3, 11), (3, 14), (5, 2), (6, 6)]
        for end in ("\n", "\r\n", "\r"):
            for last in ("", end, 2 * end):
                for source in (end.join(lines) + last, (end.join(lines) + last).encode()):
                    self.assertEqual([row[:2] for row in told(source)], places)

    def test_line_ends_are_newlines(self):
        field, = fields("f'''{x:a\r\nb\rc}'''")
        self.assertEqual((field.spec, field.end), ("a\nb\nc", (3, 3)))

    def test_other_line_separators(self):
        self.assertEqual(told("'\f\v\x1c\x85\u2028' f'{x}'"), [(1, 12, "x", None, None)])

    def test_positions(self):
        """In one pass they are those of the characters before each place."""
        script = "é\n\t😀\n\nab\u2028c\n".encode()
        counted = {}
        for place in range(len(script) + 1):
            if script[place : place + 1].decode("utf-8", "ignore") or place == len(script):
                before = script[:place].decode().split("\n")
                counted[place] = len(before), len(before[-1]) + 1
        self.assertEqual(positions(script, counted), counted)
        self.assertEqual(positions(script, [8, 0, 8]), {0: (1, 1), 8: counted[8]})
        self.assertEqual(positions(b"", []), {})


class Codings(unittest.TestCase):
    def test_byte_order_mark(self):
        for source in ("\ufefff'{x}'", b"\xef\xbb\xbff'{x}'", b"\xef\xbb\xbf# coding: utf-8\nf'{x}'"):
            self.assertEqual([row[1:3] for row in told(source)], [(4, "x")])

    def test_coding_lines(self):
        for line in (
            "# -*- coding: {} -*-", "#coding={}", "\f\t # vim: set fileencoding={} :", "#!python\n# coding: {}",
            "\n# coding:\t{}", " \t#\n#coding:{}", "# é coding: {}", "#!python\r# coding: {}", "\r\n# coding: {}",
        ):
            for coding, codec in CODINGS.items():
                said = line.format(coding)
                if "é" in said and codec == "shift_jis":
                    continue
                text = said + ("\nf'表{x}ボ'" if codec == "shift_jis" else "\nf'é{x}µ'")
                with self.subTest(line=said):
                    self.assertEqual(text_of(text.encode(codec)), text.replace("\r\n", "\n").replace("\r", "\n"))
                    self.assertEqual([row[1:3] for row in told(text.encode(codec))], [(5, "x")])

    def test_no_coding_lines(self):
        for first in ("x\n# coding: latin-1", "\n\n# coding: latin-1", "'#' # coding: latin-1", "\\\n# coding: latin-1",
                      "\v# coding: latin-1", "# coding : latin-1", "# Coding: latin-1", "x\r# coding: latin-1"):
            source = f"{first}\nf'é{{x}}'"
            with self.subTest(first=first):
                self.assertEqual([row[1:3] for row in told(source.encode())], [(5, "x")])
                with self.assertRaises(Undecodable):
                    text_of(source.encode("latin-1"))

    def test_shift_jis(self):
        """Bytes of characters that would be a backslash, a brace or a quote's are none."""
        source = "# coding: shift_jis\nf'表{十}ボ{ソ:ﾎ>5}'"
        self.assertIn(b"\x5c{", source.encode("shift_jis"))
        self.assertEqual(told(source.encode("shift_jis")), [(2, 5, "十", None, None), (2, 9, "ソ", None, "ﾎ>5")])

    def test_latin_1(self):
        source = b"#!python\n# -*- coding: latin-1 -*-\nf'\xb0{\xe9:\xb5>3}'"
        self.assertEqual(told(source), [(3, 5, "é", None, "µ>3")])

    def test_undecodable(self):
        for source, said in (
            (b"# coding: unknown\nf'{x}'", "unknown coding unknown"),
            (b"# coding: rot13\nf'{x}'", "unknown coding rot13: .* not a text encoding"),
            (b"f'{x}'\n\n\n'\xff'", "line 4 is not utf-8: "),
            (b"f'{x}'\r\r'\xed\xa0\x80'", "line 3 is not utf-8: "),
            (b"# coding: shift_jis\n'\xff'", "line 2 is not shift_jis: "),
            (b"# coding: ascii\n'\xc3\xa9'", "line 2 is not ascii: "),
            (b"# coding: punycode\n''", "is not punycode: "),
            (b"\xef\xbb\xbf# coding: latin-1\n", "its coding line says iso-8859-1, and it has a byte order mark"),
            (b"\xef\xbb\xbf#\n# coding: utf8\n", "its coding line says utf8, and it has a byte order mark"),
            ("f'{x}'".encode("utf-16-le"), r"line 1 has a byte 0: Python does not take it; UTF-16\?"),
            ("\nf'{x}'\n".encode("utf-16-be"), "line 1 has a byte 0"),
            (b"f'{x}'\r\n'\0'", "line 2 has a byte 0"),
            ("f'{x}'\n\n\0", "line 3 has a byte 0"),
        ):
            for function in (fields, list_script, text_of):
                with self.assertRaisesRegex(Undecodable, said):
                    function(source)


class Fields(unittest.TestCase):
    def test_self_documenting(self):
        self.assertEqual(written("f'{x = }' f'{y=!s:>{w=}}' f'{z=:}'"), ["x =!r", "y=!s:>{w=}", "w=!r", "z=:"])
        self.assertEqual(written("f'{x==y}{(a:=b)}{a:=5}{a!=b}'"), ["x==y", "(a:=b)", "a:=5", "a!=b"])
        self.assertEqual([field.documented for field in fields("f'{x  =  }{x==y}{x=:3}{y}'")], [True, False, True, False])
        self.assertEqual([field.expression for field in fields("f'{ x  =  }{y =}'")], [" x  ", "y "])

    def test_fields_in_specs(self):
        shown = [(one.column, one.expression, one.spec, one.depth) for one in fields("f'{x:{w:>3}.{p!r}f}{y}'")]
        self.assertEqual(shown, [(4, "x", "{w:>3}.{p!r}f", 0), (7, "w", ">3", 1), (14, "p", None, 1), (21, "y", None, 0)])

    def test_fields_in_expressions(self):
        source = "f\"{', '.join(f'{é:.2f}' 'a' for é in b)}{x:{d['k' f'{y}']}}\""
        shown = [(field.column, field.expression, field.depth) for field in fields(source)]
        outer = (4, "', '.join(f'{é:.2f}' 'a' for é in b)", 0)
        self.assertEqual(shown, [outer, (17, "é", 1), (42, "x", 0), (45, "d['k' f'{y}']", 1), (54, "y", 2)])

    def test_fields_deeper_in_expressions(self):
        source = "f'''{f\"{f'{x:3}'}\"}{y}'''"
        shown = [(field.expression, field.depth) for field in fields(source)]
        self.assertEqual(shown[1:], [("f'{x:3}'", 1), ("x", 2), ("y", 0)])

    def test_spec_as_written(self):
        for prefix, spec in (
            ("f", r">{w}\n"),
            ("f", r">{w}\N{DEGREE SIGN}\x7d\\"),
            ("f", r">{w}\N{DEGREE SIGN}{p}\N{OHM SIGN}"),
            ("f", r"{w}\{p}\\"),
            ("f", r"{w}\\"),
            ("f", "{w}\\\n"),
            ("f", ""),
            ("f", "{w}"),
            ("f", "{w}\\"),
            ("rF", r"\{w}\N{p}\x"),
            ("fR", "{w}\\N\\"),
            ("f", "é{w}é"),
        ):
            with self.subTest(spec=spec):
                source = f"{prefix}'''{{x!r:{spec}}}{{y}}'''"
                found = [field for field in fields(source) if field.depth == 0]
                self.assertEqual([field.spec for field in found], [spec, None])

    def test_reasons(self):
        found = fields("f'{x!r}{y=}' rf'{z = :{w}}{v=!s:3}{u}'")
        reasons = [Reason.WRITTEN, Reason.REPR, Reason.SPEC, Reason.NONE, Reason.WRITTEN, Reason.NONE]
        self.assertEqual([field.reason for field in found], reasons)

    def test_signs(self):
        source = "a = f'{x!r}' f'{y = :{w}}{é}'"
        for field in fields(source):
            signs = field.row.signs
            places = {"{": field.row.place, "=": signs.equals, "!": signs.bang, ":": signs.colon, "}": signs.close}
            self.assertTrue(all(source.encode()[place - 1] == ord(sign) for sign, place in places.items() if place))

    def test_other_literals_are_no_gap(self):
        """Only f-strings are read: what would be refused in another literal hides no field."""
        self.assertEqual(written(r"f'{a}' '\N{SNOWMAN}' b'é' 'a' b'b' '\x' f'{b}'"), ["a", "b"])
        self.assertEqual(written(f"({2000 * chr(39)} f'{{a}}')"), ["a"])

    def test_prefixes(self):
        self.assertEqual(refused("xf'{a}' 1f'{b}' _f'{c}' é_f'{d}'"), ([], [(1, column, 76) for column in (1, 9, 17, 25)]))
        told = [(1, 1, 76), (1, 34, 76), (1, 42, 76)]
        self.assertEqual(refused("éf'{a}' (f'{b}')+rF'{c}'-FR'{d}' ff'{e}' bf'{f}'"), (["a", "b", "c", "d"], told))
        self.assertEqual(written("if f'{a}'if'{b}'else'{c}'or f'{d}'and 1if''else f'{e}':0"), ["a", "d", "e"])

    def test_template_strings(self):
        """A prefix of a later Python hides its fields, and is told; so is one in an expression."""
        self.assertEqual(refused("x = t'{y:.0f}' + f'{z}'"), (["z"], [(1, 5, 76)]))
        self.assertEqual(refused("""f'{rt"{x}"}'"""), (['rt"{x}"'], [(1, 4, 76)]))
        (one,) = list_script('rt"{y}"').refused
        said = "; the string is read as if that word were not there"
        self.assertRegex(one.reason, f"^refused: 76 unknown prefix: .* from Python 3.14 on t begins a template string.*{said}$")

    def test_list(self):
        found = list_script("f'{a}' ''\nf'}'")
        self.assertEqual((len(found.entries), found.literals, found.complete), (2, 3, False))
        self.assertEqual((found.fields, found.refused), ([found.entries[0]], [found.entries[1]]))
        self.assertTrue(list_script("f'{a}'").complete)


class Refusals(unittest.TestCase):
    def test_place(self):
        self.assertEqual(refused("f'{a}'\nx = ('é'\n  f'{b}' f'é}')\nf'{c}'"), (["a", "b", "c"], [(3, 14, 25)]))

    def test_line_and_column(self):
        for source, place in (
            ("f'}'", (1, 4)),
            ("\n\n  é = f'é}'", (3, 11)),
            ("x = f'''é\n\n  é}\n'''", (3, 5)),
            ("x = f'''é\n{y!\n}'''", (3, 1)),
            ("x = f'é\\\n\\x4'", (2, 3)),
            ("x = ('é'\n     \"\"\"\n\n\"\"\" f'''\n😀{}''')", (5, 4)),
            ("é = f'''{\nf(f\"\"\"{é}\n}\"\"\")}'''", (3, 2)),
            ("x = f'{g(\"é\", f\"{(]}\")}'", (1, 20)),
            ("é = f'''\n{x:\né{y:{z}}}'''", (3, 5)),
            ("x = 1\r\nf'''é\r\n\r\n é}'''\r\n", (4, 4)),
        ):
            with self.subTest(source=source):
                _, ((*found, _),) = refused(source)
                self.assertEqual(tuple(found), place)

    def test_opened(self):
        for source, opened in (
            ("f'{(]}'", (1, 5)),
            ("\n é = f'é{g(x[0)}'", (2, 14)),
            ("x = f'''{\n  (é\n\n]}'''", (2, 4)),
            ("x = 'a' f'''\né{x:{\n[)}}'''", (3, 2)),
            ("f'{x)}'", None),
        ):
            with self.subTest(source=source):
                one, = list_script(source).refused
                self.assertEqual(one.opened, opened)
                said = ", opened at line {}, column {};".format(*opened) if opened else "closes nothing;"
                self.assertIn(said, one.reason)

    def test_name_and_reason(self):
        with self.assertRaises(Incomplete) as caught:
            fields("(f'{a}'\n f'\\N{SNOWMAN}')", "bench.py")
        one, = caught.exception.refused
        self.assertEqual((one.line, one.column, one.number, one.name), (2, 7, 13, "name not held"))
        said = r"^bench.py:2:7: refused: 13 name not held: .*; no field of the literal at line 2, column 2 is listed$"
        self.assertRegex(str(caught.exception), said)

    def test_in_expression_and_spec(self):
        self.assertEqual(refused("f'{g(f\"{a!x}\")}{b}'"), (["g(f\"{a!x}\")", "b"], [(1, 12, 21)]))
        self.assertEqual(refused("f'{x:{y:{z}}}' f'{a}'\nf'{b}'"), (["a", "b"], [(1, 9, 24)]))
        depths = [one.depth for one in list_script("f'}' f'{x:{g(f\"}\")}#}' f'{x#}'").refused]
        self.assertEqual(depths, [0, 2, 1])

    def test_blank(self):
        self.assertEqual(refused("f'{a}'\nf'{\xa0}' f'{b}'\nf'{c}'"), (["a", "b", "c"], [(2, 6, 22)]))
        self.assertEqual(refused("f'{x:{\u3000!r}}'"), ([], [(1, 9, 22)]))

    def test_never_closed(self):
        for source, found, place, said in (
            ("f'{a}'; x = 'b\nf'{c}'", ["a"], (1, 13, 51), "no field behind it is listed"),
            ("f'{a}'; x = '''b\nf'{c}'", ["a"], (1, 13, 50), "no field behind it is listed"),
            ("f\"{'''x'}{'x'''}{y}\"", ["'''x'", "'x'''", "y"], (1, 4, 50), "behind it in the expression is listed"),
        ):
            with self.subTest(source=source):
                self.assertEqual((refused(source)[0], refused(source)[1][0]), (found, place))
                self.assertIn(said, list_script(source).refused[0].reason)

    def test_read_otherwise(self):
        """What Python reads otherwise or not at all is listed as it stands, and told at its place."""
        for source, found, column in (
            ("f'{x#}{y}'", ["x#", "y"], 5),
            ("f\"{'\\n'}{y}\"", ["'\\n'", "y"], 5),
            (r"f'{x:\n}{y}'", ["x", "y"], 6),
            (r"f'{x:\N{DEGREE SIGN}}'", ["x", "DEGREE SIGN"], 6),
            ("f'{\"\"\"a\" \"b\"\"\"}{y}'", ['"""a" "b"""', "y"], 4),
            ("f'{x=()}{y}'", ["x=()", "y"], 6),
            ("f'{x= =}{y}'", ["x= =", "y"], 6),
            ("f'{=()}{y}'", ["=()", "y"], 5),
            ("f'{a:{x=()}}{y}'", ["a", "x=()", "y"], 9),
            ("f'{x={}}{y}'", ["x={}", "y"], 6),
        ):
            with self.subTest(source=source):
                self.assertEqual(refused(source), (found, [(1, column, 75)]))
                reason = list_script(source).refused[0].reason
                self.assertRegex(reason, "^refused: 75 .*: Python reads this field otherwise")
        self.assertEqual(written(r"f'{" + '"#"' + r"}{x:>{w}\n}' rf'{x:\n}'"), ['"#"', r"x:>{w}\n", "w", r"x:\n"])

    def test_lone_surrogate(self):
        self.assertEqual(refused("# \ud800\nf'{x}'\nf'a\udc80'"), (["x"], [(3, 4, 6)]))
        self.assertEqual(told("'\ud800' f'{x}'"), [(1, 8, "x", None, None)])


if __name__ == "__main__":
    unittest.main()
