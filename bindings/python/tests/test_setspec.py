"""`stumpgarret set-spec`: another spec for one field, by the places of the list, and nothing else changed."""

import codecs
import contextlib
import io
import os
import pathlib
import random
import stat
import unittest
from unittest import mock

import test_command
import test_listing
from support import CLONE, stumpgarret
import stumpgarret_setspec
import stumpgarret_words

BENCH = b"print('VDD', f'{mv / 12.5:.0f} {n!r} {k=} {v:>{w}}')\n"
SPECS = ["", ".3f", ">8", "%Y", "x", "s", "é<9", "-", ",.1%", ":<4"]


class Command(test_command.Command):
    def set_spec(self, *arguments, given=b""):
        """Status, what is printed, and what is said."""
        written = []
        with mock.patch.object(stumpgarret_setspec, "put", written.append), contextlib.redirect_stderr(io.StringIO()) as err:
            with mock.patch("sys.stdin", io.TextIOWrapper(io.BytesIO(given))):
                status = stumpgarret.main(["set-spec", *arguments])
        return status, b"".join(written), err.getvalue()

    def changed(self, source, place, spec):
        pathlib.Path("a.py").write_bytes(source)
        status, out, err = self.set_spec("--", f"a.py:{place}", spec)
        self.assertEqual(status, 0, err)
        return out


class Specs(Command):
    def test_put(self):
        for place, spec, field in (
            ("1:17", ".3f", b"{mv / 12.5:.3f}"),
            ("1:17", "", b"{mv / 12.5}"),
            ("1:33", ">9", b"{n!r:>9}"),
            ("1:39", ".1f", b"{k=:.1f}"),
            ("1:44", "d", b"{v:d}"),
            ("1:48", "d", b"{v:>{w:d}}"),
            ("1:44", "->8", b"{v:->8}"),
        ):
            with self.subTest(place=place, spec=spec):
                out = self.changed(BENCH, place, spec)
                old = next(one for one in (b"{mv / 12.5:.0f}", b"{n!r}", b"{k=}", b"{v:>{w}}") if one[:3] == field[:3])
                self.assertEqual(out, BENCH.replace(old, field))

    def test_said(self):
        """One line: what it was, what it is, and whether it rounds."""
        pathlib.Path("a.py").write_bytes(BENCH)
        self.assertEqual(self.set_spec("a.py:1:17", "d")[2], "a.py:1:17: mv / 12.5: :.0f is now :d, exact\n")
        self.assertEqual(self.set_spec("a.py:1:17", "")[2], "a.py:1:17: mv / 12.5: :.0f is now no spec, exact\n")
        self.assertEqual(self.set_spec("a.py:1:39", ".1f")[2], "a.py:1:39: k: !r is now :.1f, rounds\n")

    def test_within_an_expression(self):
        source = b"f'{g(f\"{a:.0f}\", f\"{b}\"):>9}' f'{c}'"
        self.assertEqual(self.changed(source, "1:9", ".2f"), source.replace(b".0f", b".2f"))
        self.assertEqual(self.changed(source, "1:21", ".2f"), source.replace(b"{b}", b"{b:.2f}"))
        self.assertEqual(self.changed(source, "1:4", "s"), source.replace(b">9", b"s"))

    def test_over_lines(self):
        source = b"f'''{\nx:\n>{w}\n}{y}'''\n"
        self.assertEqual(self.changed(source, "1:6", ".1f"), b"f'''{\nx:.1f}{y}'''\n")

    def test_own_bytes(self):
        """A byte order mark, line ends and a coding stay as they are, and so do columns."""
        for source, place in (
            (codecs.BOM_UTF8 + b"f'{x:.0f}'\r\n", "1:4"),
            (b"a\r\n'\xc3\xa9'; f'\xc3\xa9{x:.0f}'\r\nb\rc\n", "2:10"),
            (b"# coding: latin-1\r'\xe9'; f'\xe9{x:.0f}'\r", "2:10"),
            (b"# coding: cp932\nf'\x83\x5c{x:.0f}'\n", "2:5"),
        ):
            self.assertEqual(self.changed(source, place, ".2f"), source.replace(b".0f", b".2f"))

    def test_other_codings(self):
        """Nothing is written where the spec has no bytes, or bytes around it would mean something else."""
        pathlib.Path("a.py").write_bytes(b"# coding: latin-1\nf'{x:.0f}'")
        status, out, err = self.set_spec("a.py:2:4", "☃<9")
        said = "the spec cannot be written in the script's coding, iso-8859-1\n"
        self.assertEqual((status, out, err), (2, b"", said))
        pathlib.Path("a.py").write_bytes(b"# coding: utf-7\n+AGYAJwB7AHgAfQAn-")
        status, out, err = self.set_spec("a.py:2:4", ".2f")
        self.assertEqual((status != 0, out), (True, b""))

    def test_standard_input(self):
        status, out, _ = self.set_spec("-:1:4", ".1f", given=b"f'{x}'")
        self.assertEqual((status, out), (0, b"f'{x:.1f}'"))

    def test_names(self):
        pathlib.Path("names.txt").write_text("2603;SNOWMAN;So;0;ON;;;;;N;;;;;\n")
        pathlib.Path("a.py").write_text("f'{x:.0f}\\N{SNOWMAN}'")
        self.assertEqual(self.set_spec("--names", "names.txt", "a.py:1:4", "d")[:2], (0, b"f'{x:d}\\N{SNOWMAN}'"))
        with mock.patch.object(stumpgarret, "SYSTEM_NAMES", "none.txt"):
            self.assertEqual(self.set_spec("a.py:1:4", "d")[:2], (1, b""))

    def test_library(self):
        """A field of each tenth script of the library: not a byte changes but those of its spec, and the list says so."""
        chance, tried = random.Random(4), 0
        for path in test_listing.library_paths()[::10]:
            content = path.read_bytes()
            with contextlib.suppress(stumpgarret.Incomplete, stumpgarret.Undecodable):
                fields = stumpgarret.fields(content)
                if fields:
                    self.one_of(content, chance.choice(fields), chance.choice(SPECS))
                    tried += 1
        print(f"set-spec: {tried} scripts changed")
        self.assertGreater(tried, 20)

    def one_of(self, content, field, spec):
        new, _ = stumpgarret_setspec.set_spec(content, "a.py", field.line, field.column, spec, None)
        now = next(one for one in stumpgarret.fields(new) if (one.line, one.column) == (field.line, field.column))
        self.assertEqual((now.spec, now.expression), (spec or None, field.expression))
        front = os.path.commonprefix([content, new])
        back = os.path.commonprefix([content[len(front) :][::-1], new[len(front) :][::-1]])
        middle = content[len(front) : len(content) - len(back)]
        self.assertLessEqual(len(middle), len((field.spec or "").encode()) + 1)


class InPlace(Command):
    def test_written(self):
        path = pathlib.Path("a.py")
        path.write_bytes(BENCH)
        path.chmod(0o741)
        status, out, _ = self.set_spec("--in-place", "a.py:1:17", "d")
        self.assertEqual((status, out, path.read_bytes()), (0, b"", BENCH.replace(b".0f", b"d")))
        self.assertEqual((stat.S_IMODE(path.stat().st_mode), os.listdir()), (0o741, ["a.py"]))

    def test_link(self):
        """What it leads to is changed, and it stays a link."""
        os.mkdir("src")
        pathlib.Path("src/a.py").write_bytes(BENCH)
        os.symlink("src/a.py", "b.py")
        self.assertEqual(self.set_spec("--in-place", "b.py:1:17", "d")[0], 0)
        self.assertTrue(os.path.islink("b.py") and b"12.5:d}" in pathlib.Path("src/a.py").read_bytes())

    def test_not_written(self):
        """What is refused leaves the file as it was, and no other beside it."""
        pathlib.Path("a.py").write_bytes(BENCH)
        with mock.patch("os.replace", side_effect=OSError(28, "No space left on device")):
            status, _, err = self.set_spec("--in-place", "a.py:1:17", "d")
        self.assertEqual((status, err, os.listdir()), (2, "a.py: No space left on device\n", ["a.py"]))
        self.assertEqual(self.set_spec("--in-place", "a.py:1:16", "d")[0], 2)
        self.assertEqual(pathlib.Path("a.py").read_bytes(), BENCH)


class Refused(Command):
    def test_no_field(self):
        pathlib.Path("a.py").write_bytes(BENCH + b"\n")
        status, out, err = self.set_spec("a.py:1:16", "d")
        there = "a.py:1:17 mv / 12.5, a.py:1:33 n, a.py:1:39 k, a.py:1:44 v, a.py:1:48 w"
        self.assertEqual((status, out, err), (2, b"", f"a.py:1:16: no field begins here; those of line 1: {there}\n"))
        self.assertEqual(self.set_spec("a.py:2:1", "d")[2], "a.py:2:1: no field begins here; there is none in line 2\n")
        self.assertEqual(self.set_spec("a.py:99:1", "d")[0], 2)

    def test_refused_script(self):
        pathlib.Path("a.py").write_bytes(b"f'{x}' f'}'")
        status, out, err = self.set_spec("a.py:1:4", "d")
        self.assertEqual((status, out), (1, b""))
        self.assertRegex(err, "^a.py:1:11: refused: 25 .*; a script that is not listed whole is not changed\n$")

    def test_too_deep(self):
        """A field three deep is refused afterwards, and nothing is written."""
        pathlib.Path("a.py").write_bytes(b"f'{x:{w:d}}'")
        self.assertEqual(self.set_spec("a.py:1:7", "x")[0], 0)
        with mock.patch.object(stumpgarret_setspec, "NOT_IN_A_SPEC", stumpgarret_setspec.re.compile("\0")):
            for spec in ("{y}", "d}'#", "d}{z"):
                status, out, err = self.set_spec("a.py:1:7", spec)
                self.assertEqual((status, out, err[:20]), (1, b"", "a.py: with this spec"[:20]), spec)

    def test_another_field(self):
        """A change that alters a neighbour is seen, whatever made it."""
        found = stumpgarret.list_script("f'{x:d}{y:d}'")
        field, other = found.fields
        made = stumpgarret_setspec.change(field, ".3f")
        for after in ("f'{x:.3f}{y!r:d}'", "f'{x:.3f}{y:d}{z}'", "f'{x:.3f} {y:d}'", "f'{x:.4f}{y:d}'", "f'{x:.3f}'", "f'{x=:3f}{y:d}'"):
            with self.subTest(after=after), self.assertRaises(stumpgarret_words.Told):
                stumpgarret_setspec.see_again("a.py", found, stumpgarret.list_script(after), field, made, ".3f")
        same = stumpgarret_setspec.see_again("a.py", found, stumpgarret.list_script("f'{x:.3f}{y:d}'"), field, made, ".3f")
        self.assertEqual(same.spec, ".3f")

    def wrong(self, *arguments):
        return self.wrong_use("set-spec", *arguments).splitlines()[-1].split("error: ")[1]

    def test_wrong_use(self):
        for spec, kind in (("{w}", "brace"), ("}", "brace"), ("'", "quote"), ('"', "quote"), ("\\n", "backslash"), ("a\nb", "line end")):
            self.assertRegex(self.wrong("a.py:1:4", spec), f"^a SPEC has no {kind}, which would not stay in it: ")
        self.assertEqual(self.wrong("a.py:1:4", ":.2f"), "SPEC is what stands behind the colon: .2f")
        self.assertEqual(self.wrong("a.py:1", "d"), "SCRIPT:LINE:COLUMN is wanted, such as bench.py:3:10, and this is a.py:1")
        self.assertEqual(self.wrong("a.py:1:4"), "SCRIPT:LINE:COLUMN and SPEC are wanted")
        self.assertEqual(self.wrong("--in-place", "-:1:4", "d"), "standard input has no file to write to")

    def test_unread(self):
        self.assertEqual(self.set_spec("none.py:1:4", "d"), (2, b"", "none.py: No such file or directory\n"))
        pathlib.Path("a.py").write_bytes(b"\xff")
        self.assertEqual(self.set_spec("a.py:1:4", "d")[0], 2)
        pathlib.Path("nb.ipynb").write_text('{"cells": [], "nbformat": 4}')
        self.assertEqual(self.set_spec("nb.ipynb:1:4", "d"), (2, b"", "nb.ipynb: the cells of a notebook are not changed\n"))


class Example(Command):
    def test_readme(self):
        """What README says of the command is what it does."""
        readme = (CLONE / "README.md").read_text(encoding="utf-8")
        said = stumpgarret_setspec.re.search(r"^    \./stumpgarret set-spec (\S+) (\S+)\n\n    (.*)\n", readme, stumpgarret_setspec.re.M)
        with contextlib.chdir(CLONE):
            status, out, err = self.set_spec(said[1], said[2])
            before = pathlib.Path(said[1].split(":")[0]).read_bytes()
        self.assertEqual((status, err), (0, said[3] + "\n"))
        self.assertEqual(out, before.replace(b"12.5:.0f", b"12.5:.2f"))


if __name__ == "__main__":
    unittest.main()
