"""Notebooks: their code cells as scripts, and what in them is not Python."""

import json
import pathlib
import random
import unittest

import test_command
from support import stumpgarret
import stumpgarret_notebook


def notebook(*cells, **metadata):
    """A notebook of code cells; a pair has another type, too."""
    typed = [cell if isinstance(cell, tuple) else ("code", cell) for cell in cells]
    cells = [{"cell_type": kind, "source": source, "metadata": {}} for kind, source in typed]
    return json.dumps({"cells": cells, "metadata": metadata, "nbformat": 4, "nbformat_minor": 5})


class Cells(unittest.TestCase):
    def cell(self, source):
        found, = stumpgarret_notebook.cells(notebook(source).encode())
        return found.source, [line for line, _ in found.left_out]

    def test_left_out(self):
        for source, python, lines in (
            ("%matplotlib inline\nf'{x}'", "\nf'{x}'", [1]),
            ("a = 1\n!ls it's\n  %time f'{x}'\nb", "a = 1\n\n\nb", [2, 3]),
            ("%%time\nf'{x}'\n", "\nf'{x}'\n", [1]),
            ("%%bash\necho f'{x}'\n", "", [1]),
            ("%%!\necho it's", "", [1]),
            ("\n%%html --isolated\n<b>'</b>", "", [2]),
            ("%%memit -r 3\nf'{x}'", "\nf'{x}'", [1]),
            ("%%writefile it.txt\nit's", "", [1]),
            ("%%writefile -a it.py\nf'{x}'", "\nf'{x}'", [1]),
            ("# %no\n%yes\n# it's\n!yes\r\n%yes\r%yes", "# %no\n\n# it's\n\n\n", [2, 4, 5, 6]),
        ):
            with self.subTest(source=source):
                self.assertEqual(self.cell(source), (python, lines))

    def test_kept(self):
        """In a string, in brackets and behind a backslash it is Python; so is what a list of lines has."""
        for source in (
            "f'''\n%{x}\n!{y}'''\n",
            "print('%d'\n% f'{x}')",
            "x = [a,\n(b)\n%c]",
            "x = a \\\n%b",
            "rb'''\\'''\n%a''' '\\\n!b'",
            "('a' # (\n'''b\n% c''' % d)",
            "x = f'{a}' 'never closed\n%timeit'",
            "'''never closed\n%timeit\n",
            "assert x != y",
        ):
            with self.subTest(source=source):
                self.assertEqual(self.cell(source), (source, []))
                self.assertEqual(self.cell(source.splitlines(keepends=True)), (source, []))
        self.assertEqual(self.cell("f'''\n%{x}'''\n%time\n)\n%time"), ("f'''\n%{x}'''\n\n)\n", [3, 5]))

    def test_random(self):
        """No field of Python's is lost: what a cell of random pieces without such lines has is listed with them between."""
        chance = random.Random(5)
        pieces = ["f'{a}'", "f'''{b}\n%{c}'''", "(\n'%s'\n% f'{d}')", "# it's\n", "x,", "\\\n+ 1,", "'\\''", "[\n]"]
        for _ in range(300):
            lines = ["".join(chance.choices(pieces, k=3)) for _ in range(5)]
            plain = stumpgarret.list_script("\n".join(lines))
            with_magics = []
            for line in lines:
                with_magics += [line] + chance.choices([[], ["%timeit f'{no}'"], ["!echo it's", "%x"]], k=1)[0]
            source, _ = self.cell("\n".join(with_magics))
            found = stumpgarret.list_script(source)
            expressions = [[field.expression for field in one.fields] for one in (plain, found)]
            self.assertEqual(*expressions)
            self.assertEqual((found.complete, plain.complete), (True, True))

    def test_numbers(self):
        """Cells count from 1, those of text too."""
        found = stumpgarret_notebook.cells(notebook(("markdown", "f'{x}'"), "a", ("raw", "b"), "c").encode())
        self.assertEqual([(cell.number, cell.source) for cell in found], [(2, "a"), (4, "c")])

    def test_no_notebooks(self):
        for content, said in (
            (b"", "it is no notebook: Expecting value"),
            (b"\xff", "it is no notebook: 'utf-8' codec"),
            (b"[]", "it is no notebook: it has no cells"),
            (b'{"cells": [{"cell_type": "code"}]}', "it is no notebook: it has no cells"),
            (b'{"worksheets": []}', "it is no notebook: its format is older than 4"),
            (100_000 * b"[", "it is no notebook: "),
            (notebook("a", kernelspec={"language": "julia"}).encode(), "it is a notebook of julia, and not of Python"),
            (notebook("a", language_info={"name": "R"}).encode(), "it is a notebook of R, and not of Python"),
        ):
            with self.subTest(content=content[:40]):
                with self.assertRaisesRegex(stumpgarret.Undecodable, f"^{said}"):
                    stumpgarret_notebook.cells(content)
        python = notebook("a", language_info={"name": "python"}, kernelspec={"language": "other"}).encode()
        self.assertEqual(len(stumpgarret_notebook.cells(python)), 1)


class Command(test_command.Command):
    def run_notebook(self, *options, cells, status=0):
        pathlib.Path("nb.ipynb").write_text(notebook(*cells))
        ended, out, err = self.run_main(*options, "nb.ipynb")
        self.assertEqual(ended, status)
        return out, err

    def test_fields(self):
        out, err = self.run_notebook(cells=["f'{x}'", ("markdown", "f'{no}'"), "%time f'{no}'\n\nif x:\n    f'{mv:.0f}'"])
        self.assertEqual(out, "nb.ipynb:cell 1:1:4\tx\t\t\nnb.ipynb:cell 3:4:8\tmv\t\t:.0f\n")
        self.assertEqual(err, "nb.ipynb:cell 3:1: not Python, left out: %time f'{no}'\n")

    def test_refused(self):
        """What is refused in a cell takes nothing of another with it."""
        out, err = self.run_notebook(cells=["f'{x}' '", "f'{y}'"], status=1)
        self.assertEqual(out, "nb.ipynb:cell 1:1:4\tx\t\t\nnb.ipynb:cell 2:1:4\ty\t\t\n")
        self.assertEqual(err, "nb.ipynb:cell 1:1:8: refused: 50 quote never closed; no field behind it is listed\n")

    def test_unread(self):
        pathlib.Path("nb.ipynb").write_bytes(b"f'{x}'")
        status, out, err = self.run_main("nb.ipynb")
        self.assertEqual((status, out), (2, ""))
        self.assertRegex(err, "^nb.ipynb: it is no notebook: ")
        out, err = self.run_notebook(cells=["f'{x}'", "'\0'"], status=2)
        self.assertEqual(out, "nb.ipynb:cell 1:1:4\tx\t\t\n")
        self.assertEqual(err, "nb.ipynb:cell 2: line 1 has a byte 0: Python does not take it; UTF-16?\n")

    def test_otherwise_called(self):
        """A notebook is known by its content too; what only looks like one is a script."""
        content = notebook("f'{x}'").encode()
        self.assertEqual(self.run_main("-", given=content), (0, "<stdin>:cell 1:1:4\tx\t\t\n", ""))
        for script in (b"{'nbformat': f'{x}'}", b'{"nbformat": f\'{x}\'}', b'{"nbformat": [f"{x}"], "cells": 1}'):
            self.assertRegex(self.run_main("-", given=script)[1], r"^<stdin>:1:\d+\tx\t\t\n$")

    def test_last_line(self):
        pathlib.Path("nb.ipynb").write_text(notebook("f'{x}'", "%a\n!b"))
        self.assertRegex(self.run_whole("nb.ipynb")[2], "\n1 field in 1 script, complete; 2 lines or cells left out, not Python\n$")

    def test_json(self):
        out, _ = self.run_notebook("--json", cells=["", "f'{x}'\n%time"])
        field, left_out, end = map(json.loads, out.splitlines())
        self.assertEqual((field["kind"], field["file"], field["cell"], field["line"]), ("field", "nb.ipynb", 2, 1))
        self.assertEqual(left_out, {"kind": "left_out", "file": "nb.ipynb", "cell": 2, "line": 2, "text": "%time"})
        self.assertEqual((end["complete"], end["left_out"]), (True, 1))

    def test_unreadable_cell(self):
        out, _ = self.run_notebook("--json", "--sarif", "out.sarif", cells=["", "'\0'"], status=2)
        said = json.loads(out.splitlines()[0])
        self.assertEqual((said["kind"], said["file"], said["cell"]), ("unreadable", "nb.ipynb", 2))
        run, = json.loads(pathlib.Path("out.sarif").read_text())["runs"]
        place, = run["invocations"][0]["toolExecutionNotifications"][0]["locations"]
        self.assertEqual(place["logicalLocations"], [{"name": "cell 2", "kind": "module"}])
        self.assertEqual(place["physicalLocation"], {"artifactLocation": {"uri": "nb.ipynb"}})

    def test_page(self):
        """Each cell is a script of the page."""
        self.run_notebook("--html", "page.html", cells=["f'{x}'", "f'{y}'"])
        page = pathlib.Path("page.html").read_text()
        self.assertIn("<h2 id=\"s2\">nb.ipynb:cell 2</h2>", page)

    @unittest.skipUnless(test_command.IS_3_11, "Python 3.11 has the grammar")
    def test_check(self):
        self.assertEqual(self.run_notebook("--check", cells=["%time\nawait f(f'{x}')"])[1].count("\n"), 1)


if __name__ == "__main__":
    unittest.main()
