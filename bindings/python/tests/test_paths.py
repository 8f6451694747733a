"""Which scripts are listed: folders, patterns, lists of paths, and the table of a pyproject.toml."""

import json
import os
import pathlib
import unittest
from unittest import mock

import test_command
from support import stumpgarret

NAMES = b"2603;SNOWMAN;So;0;ON;;;;;N;;;;;\n"


class Command(test_command.Command):
    def put(self, *paths, content="f'{x}'"):
        for path in map(pathlib.Path, paths):
            path.parent.mkdir(parents=True, exist_ok=True)
            path.write_text(content)

    def listed(self, *words, status=0, **given):
        """The paths whose field is listed, in order."""
        ended, out, err = self.run_main(*words, **given)
        self.assertEqual((ended, err), (status, ""))
        return [line.split(":")[0] for line in out.splitlines()]


class Folders(Command):
    def test_below(self):
        """By their names, in order, at any depth; what is hidden or installed is left out."""
        self.put("b.py", "a/c.pyw", "a/b/d.py", "a.txt", "a/e.pyc", "a/py", ".f.py", "build/g.py")
        self.put("nb.ipynb", content=json.dumps({"cells": [{"cell_type": "code", "source": "f'{x}'"}]}))
        self.put(".git/no.py", "a/.hidden/no.py", "venv/no.py", "lib/site-packages/no.py", "node_modules/m/no.py")
        self.put("a/__pycache__/no.py", "mine/no.py", "mine/lib/no.py", "mine/pyvenv.cfg")
        found = [".f.py", "b.py", "nb.ipynb", "a/c.pyw", "a/b/d.py", "build/g.py"]
        self.assertEqual(self.listed("."), found)
        self.assertEqual(self.listed("./"), found)
        self.assertEqual(self.listed("a"), ["a/c.pyw", "a/b/d.py"])
        self.assertEqual(self.listed(f"{self.folder}/a/b"), [f"{self.folder}/a/b/d.py"])

    def test_named(self):
        """What is named is listed, whatever it is called and wherever it stands; what is met twice below folders once."""
        self.put("a/b.py", "a/.hidden/c.py", "a/script")
        self.assertEqual(self.listed("a/.hidden", "a/script"), ["a/.hidden/c.py", "a/script"])
        self.assertEqual(self.listed("a", ".", "a/../a"), ["a/b.py"])
        self.assertEqual(self.listed("a/b.py", "a"), ["a/b.py", "a/b.py"])

    def test_nothing(self):
        """A folder without a script is a mistake rather than a complete list."""
        self.put("a/b.txt")
        status, out, err = self.run_main("a", "--json")
        self.assertEqual((status, json.loads(out)["complete"]), (2, False))
        self.assertEqual(err, "stumpgarret: there is no *.py, *.pyw or *.ipynb below a\n")

    def test_links(self):
        """A link to a file is listed, one to a folder is not followed, and one to nothing is told."""
        self.put("a/b.py", "c.txt")
        os.symlink("..", "a/loop")
        os.symlink("../c.txt", "a/d.py")
        self.assertEqual(self.listed("a"), ["a/b.py", "a/d.py"])
        os.symlink("none", "a/e.py")
        os.mkfifo("a/pipe.py")
        status, out, err = self.run_main("a")
        self.assertEqual((status, err), (2, "a/e.py: No such file or directory\n"))

    def test_unread(self):
        """A folder that cannot be read is told, and the list is not complete."""
        self.put("a/b.py", "a/c/d.py")
        walk = os.walk

        def failing(top, onerror):
            onerror(PermissionError(13, "Permission denied", "a/c"))
            yield from walk(top)

        with mock.patch("os.walk", failing):
            self.assertEqual(self.run_main("a")[::2], (2, "a/c: Permission denied\n"))

    def test_many(self):
        """They are listed by one process, which builds nothing anew for each."""
        self.put(*(f"a/{number:04}.py" for number in range(1500)), content="f'{x}\\N{SNOWMAN}'")
        pathlib.Path("names.txt").write_bytes(NAMES)
        with mock.patch.object(stumpgarret.Names, "build", wraps=stumpgarret.Names.build) as build:
            self.assertEqual(len(self.listed("--names", "names.txt", "a")), 1500)
        self.assertEqual(build.call_count, 1)


class Exclude(Command):
    def test_patterns(self):
        self.put("a.py", "b.py", "test_c.py", "d/a.py", "d/e/f.py", "d/e/g/h.py", "i/e/j.py")
        for patterns, left in (
            (["a.py"], ["b.py", "test_c.py", "d/e/f.py", "d/e/g/h.py", "i/e/j.py"]),
            (["test_*"], ["a.py", "b.py", "d/a.py", "d/e/f.py", "d/e/g/h.py", "i/e/j.py"]),
            (["e"], ["a.py", "b.py", "test_c.py", "d/a.py"]),
            (["d/e/"], ["a.py", "b.py", "test_c.py", "d/a.py", "i/e/j.py"]),
            (["d/*", "i"], ["a.py", "b.py", "test_c.py"]),
            (["[ab].py", "d", "i"], ["test_c.py"]),
        ):
            with self.subTest(patterns=patterns):
                words = [word for pattern in patterns for word in ("--exclude", pattern)]
                self.assertEqual(self.listed(*words, "."), left)
        self.assertEqual(self.listed("--exclude", "*", "a.py"), ["a.py"])


class FilesFrom(Command):
    def test_lists(self):
        self.put("a.py", "b c.py", "d/e.py")
        self.assertEqual(self.listed("--files-from", "-", given=b"b c.py\nd\n\na.py"), ["b c.py", "d/e.py", "a.py"])
        self.assertEqual(self.listed("--files-from", "-", given=b"b c.py\0a.py\0"), ["b c.py", "a.py"])
        self.put("list.txt", content="a.py\r\n")
        self.assertEqual(self.listed("--files-from", "list.txt", "d"), ["d/e.py", "a.py"])

    def test_standard_input_twice(self):
        for words in (["-", "-"], ["--files-from", "-", "-"]):
            self.assertIn("standard input is named twice", self.wrong_use(*words))

    def test_empty(self):
        """No script is asked for, and none is listed."""
        self.assertEqual(self.listed("--files-from", "-", given=b""), [])

    def test_unread(self):
        with self.assertRaises(SystemExit) as caught, mock.patch("sys.stderr") as err:
            stumpgarret.main(["--files-from", "none.txt"])
        said = "stumpgarret: the list none.txt cannot be read: No such file or directory"
        self.assertEqual((caught.exception.code, err.write.call_args_list[0].args[0]), (2, said))


class Project(Command):
    def project(self, content, folder="."):
        self.put(f"{folder}/pyproject.toml", content=content)

    @unittest.skipUnless(test_command.IS_3_11, "tomllib is in Python 3.11")
    def test_table(self):
        self.put("a.py", "old/b.py", "src/c.py", "src/gen/d.py")
        self.project("[tool.stumpgarret]\nexclude = ['old', 'src/gen']\nnames = 'names.txt'\n")
        pathlib.Path("names.txt").write_bytes(NAMES)
        self.assertEqual(self.listed("."), ["a.py", "src/c.py"])
        self.assertEqual(self.listed("--exclude", "a.py", "."), ["src/c.py"])
        self.assertEqual(self.listed("--isolated", "."), ["a.py", "old/b.py", "src/c.py", "src/gen/d.py"])
        self.put("src/c.py", content="f'{x}\\N{SNOWMAN}'")
        os.chdir("src")
        self.assertEqual(self.listed("."), ["c.py"])
        self.assertEqual(self.listed("gen"), ["gen/d.py"])
        self.put("other.txt", content="")
        self.assertEqual(self.run_main("--names", "other.txt", "c.py")[0], 1)

    @unittest.skipUnless(test_command.IS_3_11, "tomllib is in Python 3.11")
    def test_nearest(self):
        """One without the table is passed over."""
        self.put("a/b/c.py", "a/b/d.py")
        self.project("[tool.stumpgarret]\nexclude = ['c.py']\n")
        self.project("[tool.other]\n# not of stumpgarret\n", "a")
        os.chdir("a/b")
        self.assertEqual(self.listed("."), ["d.py"])
        self.project("[tool.stumpgarret]\n", "../../a")
        self.assertEqual(self.listed("."), ["c.py", "d.py"])

    @unittest.skipUnless(test_command.IS_3_11, "tomllib is in Python 3.11")
    def test_wrong(self):
        self.put("a.py")
        for content, said in (
            ("[tool.stumpgarret]\nexclud = []", r"\[tool.stumpgarret\] has a key exclud, and knows exclude, names, allow"),
            ("[tool.stumpgarret]\nexclude = 'a'", r"exclude of \[tool.stumpgarret\] is to be a list of patterns"),
            ("[tool.stumpgarret]\nnames = 3", r"names of \[tool.stumpgarret\] is to be a path"),
            ("[tool]\nstumpgarret = 3", "tool.stumpgarret is no table"),
            ("[tool.stumpgarret", "Expected "),
        ):
            with self.subTest(content=content):
                self.project(content)
                self.assertRegex(self.refused("a.py"), f"^stumpgarret: {self.folder}/pyproject.toml: {said}")
                self.assertEqual(self.listed("--isolated", "a.py"), ["a.py"])

    def test_other_pythons(self):
        """Where no tomllib is, a table is not passed over in silence."""
        self.put("a.py")
        self.project("[tool.other]")
        with mock.patch.dict("sys.modules", tomllib=None):
            self.assertEqual(self.listed("a.py"), ["a.py"])
            self.project("[tool.stumpgarret]")
            said = "its table [tool.stumpgarret] is read by Python 3.11 or later; --isolated leaves it out"
            self.assertEqual(self.refused("a.py"), f"stumpgarret: {self.folder}/pyproject.toml: {said}")

    def refused(self, *words):
        with self.assertRaises(SystemExit) as caught, mock.patch("sys.stderr") as err:
            stumpgarret.main([*words])
        self.assertEqual(caught.exception.code, 2)
        return err.write.call_args_list[0].args[0]


if __name__ == "__main__":
    unittest.main()
