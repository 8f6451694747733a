"""What rounds: the class of a field, --classes, --rounds, --allow; and the classes of Python's own library against Python's own
`format()`."""

import collections
import contextlib
import json
import os
import pathlib
import re
import unittest

import test_command
import test_listing
import test_page
import test_paths
import test_sarif
from support import CLONE, stumpgarret
from stumpgarret import FieldClass, Spec

CLASSES = {
    "rounds": "{x:.3f} {x:e} {x:E} {x:f} {x:F} {x:g} {x:G} {x:n} {x:%} {x:.0} {x:>8.3} {x=:.2f} {x:,.1%} {x:.0n}",
    "computed": "{x:{w}} {x:.{n}f} {x:>{w}d} {x=:{w}}",
    "own": "{x:%Y-%m-%d} {x:.3q} {x:hex} {x:5 } {x: .2fV}",
    "text": "{x!r} {x!s:.3f} {x!a:>9} {x=} {x=!s} {x!s:{w}}",
    "exact": "{x} {x:} {x:d} {x:>8} {x:,} {x:#06x} {x:+} {x:_b} {x:c} {x:08} {x:*^9} {x:z} {x:s} {x:.3s} {x:>8s}",
}
VALUES = 59.44, 59.5
# What a type of an integer takes.
WHOLE = 59


def comes_back(spec, value):
    """Whether a value can be read from its text by a spec; None where Python refuses the spec for it."""
    told = Spec.parse(spec)
    # A fill may be a digit, which is no part of the number.
    blank = f" {spec[1:]}" if told.fill is not None else spec
    try:
        text = format(value, blank)
    except (ValueError, OverflowError):
        return None
    text = text.replace(",", "").replace("_", "").strip()
    if told.type == "c":
        return chr(value) in text
    if isinstance(value, float):
        return (float(text[:-1]) / 100 if text.endswith("%") else float(text)) == value
    base = {"b": 2, "o": 8, "x": 16, "X": 16}.get(told.type, 10)
    return int(re.sub("^([+-]?)0[boxX]", r"\1", text), base) == value


class Classes(unittest.TestCase):
    def test_each(self):
        for name, fields in CLASSES.items():
            for field in fields.split(" {"):
                field = field if field.startswith("{") else "{" + field
                with self.subTest(field=field):
                    found = stumpgarret.fields(f'f"{field}"')[0]
                    self.assertEqual(found.class_, FieldClass(name))
                    self.assertEqual(found.class_.may_round, name in ("rounds", "computed", "own"))

    def test_escapes(self):
        """A spec with a backslash is exact only where the backslash stays one, as a fill; and it is told as 75."""
        for spec, name in ((r"\x2e0f", "own"), (r"\N{FULL STOP}0f", "computed"), (r"\056f", "own"), (r"\<8", "exact"), (r"\>.1f", "rounds")):
            found = stumpgarret.list_script(f"f'{{x:{spec}}}'")
            self.assertEqual((found.fields[0].class_.value, [one.number for one in found.refused]), (name, [75]), spec)
        self.assertEqual(stumpgarret.fields(r"rf'{x:\d}'")[0].class_, FieldClass.OWN)

    def test_nested(self):
        """A field in a spec, and one in an expression, has a class of its own."""
        found = stumpgarret.fields("f'{f\"{a:.1f}\":>{b:d}}'")
        self.assertEqual([(field.expression, field.class_.value) for field in found][1:], [("a", "rounds"), ("b", "exact")])
        self.assertEqual(found[0].class_, FieldClass.COMPUTED)

    def test_as_python_does(self):
        """No spec of the class exact loses a value; those that round lose one of the two, unless Python refuses them."""
        shapes = ["", ">8", "*^+12", "<<9", "08", "+,", "_", "=12", "z", "#", " ", "5>9", "-_"]
        for shape in shapes:
            for kind in ["", *"bcdeEfFgGnoxX%", ".0", ".1", ".2f", ".3g", ".0%"]:
                field, = stumpgarret.fields(f"f'{{x:{shape}{kind}}}'")
                self.assertIn(field.class_.value, ("exact", "rounds"))
                if field.class_ == FieldClass.EXACT:
                    self.assertNotIn(False, [comes_back(field.spec, value) for value in (*VALUES, WHOLE)], field.spec)
        for spec in (".0f", ".1f", ".0e", ".2g", ".2", ">9.1f", ",.0f", ".3n"):
            self.assertIn(False, [comes_back(spec, value) for value in VALUES], spec)


class Library(unittest.TestCase):
    def test_specs(self):
        """Each spec of the library's fields, by what Python's own format() makes of two values."""
        count, specs = collections.Counter(), set()
        for path in test_listing.library_paths():
            try:
                found = stumpgarret.list_script(path.read_bytes()).fields
            except stumpgarret.Undecodable:
                continue
            count.update(field.class_.value for field in found)
            specs |= {(field.spec, field.class_) for field in found if field.conversion is None and field.spec}
        tried = collections.Counter()
        for spec, own in specs:
            if own in (FieldClass.EXACT, FieldClass.ROUNDS):
                back = {comes_back(spec, value) for value in VALUES}
                tried[own.value, "lost" if False in back else "kept" if True in back else "refused by Python"] += 1
        print("classes:", ", ".join(f"{number:,} {name}" for name, number in count.most_common()))
        print("specs:", ", ".join(f"{number:,} {name}, {what}" for (name, what), number in sorted(tried.items())))
        self.assertFalse(tried["exact", "lost"])
        self.assertGreater(tried["rounds", "lost"], 3)


class Command(test_command.Command):
    def rounds(self, *options, **scripts):
        """Status, lines of the list, and of standard error but for what to change."""
        for name, content in scripts.items():
            pathlib.Path(name + ".py").write_text(content)
        status, out, err = self.run_whole("--rounds", *options, *(name + ".py" for name in scripts))
        return status, out.splitlines(), [line for line in err.splitlines() if not line.startswith("    Change: ")]


class Rounds(Command):
    def test_classes(self):
        status, out, err = self.run_on("--classes", "--why", a="f'{x:.0f}{y!r}{z:{w}}'")
        self.assertEqual([line.split("\t")[5] for line in out.splitlines()], ["rounds", "text", "computed", "exact"])
        self.assertEqual((status, err), (0, ""))

    def test_only_what_rounds(self):
        status, lines, err = self.rounds(a="f'{x:.0f}{y!r}{z:{w}}{v:d}'\nf'{u:%Y}'", b="f'{v:>8}'")
        said = ["a.py:1:4\tx\t\t:.0f\trounds", "a.py:1:16\tz\t\t:{w}\tcomputed", "a.py:2:4\tu\t\t:%Y\town"]
        self.assertEqual((status, lines, err), (1, said, ["7 fields in 2 scripts, complete; 3 round or may"]))

    def test_nothing_rounds(self):
        self.assertEqual(self.rounds(a="f'{v:>8}{w!r}'"), (0, [], ["2 fields in 1 script, complete; nothing rounds"]))

    def test_refused(self):
        """Status 1 for it as ever, and 2 for what is not read."""
        status, _, err = self.rounds(a="f'{v}' f'}'")
        self.assertEqual((status, err[-1]), (1, "1 field in 1 script, not complete: 1 refusal; nothing rounds"))
        self.assertEqual(self.rounds("none.py", a="f'{v:.0f}'")[0], 2)

    def test_json(self):
        pathlib.Path("allow").write_text("a.py:x  # it may\n")
        status, lines, _ = self.rounds("--json", "--allow", "allow", a="f'{x:.0f}{y:.1f}{z}'")
        *fields, end = map(json.loads, lines)
        self.assertEqual([(one["class"], one["allowed"]) for one in fields], [("rounds", "it may"), ("rounds", None)])
        self.assertEqual((status, end["complete"], end["fields"], end["rounding"], end["allowed"]), (1, True, 3, 1, 1))

    def test_sarif(self):
        pathlib.Path("allow").write_text("a.py:x  # it may\n")
        status, _, _ = self.rounds("--sarif", "out.sarif", "--allow", "allow", a="f'{x:.0f}{y:{w}}{z:%Y}{v}'")
        log = json.loads(pathlib.Path("out.sarif").read_text())
        test_sarif.check(log)
        results = log["runs"][0]["results"]
        self.assertEqual([one["ruleId"] for one in results], ["SG-rounds", "SG-computed", "SG-own"])
        self.assertEqual(results[0]["suppressions"], [{"kind": "external", "justification": "it may"}])
        self.assertEqual(results[1]["message"]["text"], "{y:{w}} may round: its spec has a field")
        self.assertEqual((status, [one["level"] for one in results]), (1, 3 * ["error"]))

    def test_sarif_of_a_list(self):
        """What rounds is told where it is asked for."""
        self.run_on("--sarif", "out.sarif", a="f'{x:.0f}'")
        self.assertEqual(json.loads(pathlib.Path("out.sarif").read_text())["runs"][0]["results"], [])


class Allow(Command):
    def test_allowed(self):
        """They are listed with their reason, and do not count."""
        pathlib.Path("allow").write_text("# what the meter has\n\na.py:mv / 1000  # three digits, see #38\n./a.py : k= # so\n")
        status, lines, err = self.rounds("--allow", "allow", a="f'{ mv / 1000 :.3f}{k=:.1f}'")
        said = ["a.py:1:4\t mv / 1000 \t\t:.3f\trounds\tallowed: three digits, see #38", "a.py:1:21\tk=\t\t:.1f\trounds\tallowed: so"]
        self.assertEqual((status, lines), (0, said))
        self.assertEqual(err, ["2 fields in 1 script, complete; nothing rounds, 2 allowed"])

    def test_another_script(self):
        pathlib.Path("allow").write_text("a.py:x  # it may\n")
        status, lines, err = self.rounds("--allow", "allow", a="f'{x:.0f}'", b="f'{x:.0f}'")
        self.assertEqual((status, lines[1]), (1, "b.py:1:4\tx\t\t:.0f\trounds"))
        self.assertEqual(err, ["2 fields in 2 scripts, complete; 1 rounds or may, 1 allowed"])

    def test_as_it_is_listed(self):
        """A path may be copied from the list, wherever the list of what is accepted stands."""
        os.makedirs("lists")
        os.mkdir("src")
        pathlib.Path("lists/allow").write_text("src/a.py:x  # it may\n")
        pathlib.Path("src/a.py").write_text("f'{x:.0f}'")
        self.assertEqual(self.rounds("--allow", "lists/allow", "./src/a.py")[0], 0)
        os.chdir("src")
        self.assertEqual(self.rounds("--allow", "../lists/allow", "a.py")[0], 1)

    def test_from_the_folder_of_the_list(self):
        os.mkdir("src")
        pathlib.Path("src/allow").write_text("a.py:x  # it may\n")
        pathlib.Path("src/a.py").write_text("f'{x:.0f}'")
        self.assertEqual(self.rounds("--allow", "src/allow", "src/a.py")[0], 0)
        self.assertEqual(self.rounds("--allow", "src/allow", "./src")[0], 0)
        os.chdir("src")
        self.assertEqual(self.rounds("--allow", "allow", "a.py")[0], 0)
        self.assertEqual(self.rounds("--allow", os.path.abspath("allow"), os.path.abspath("a.py"))[0], 0)

    def test_nothing_met(self):
        """An entry that meets nothing is told, by its line; one whose script is there and not listed is not."""
        pathlib.Path("allow").write_text("a.py:x  # it may\na.py:y  # y does not round\nnone.py:x  # none\nb.py:z  # later\n-:x  # input\n")
        pathlib.Path("b.py").write_text("f'{z:.0f}'")
        status, _, err = self.rounds("--allow", "allow", a="f'{x:.0f}{y}'")
        said = ["allow:2: nothing that rounds is met by a.py:y  # y does not round", "allow:3: there is no script none.py"]
        self.assertEqual((status, err[:-1]), (0, said))

    def test_standard_input_and_notebooks(self):
        pathlib.Path("allow").write_text("-:x  # it may\nnb.ipynb:y  # so may this\n")
        with contextlib.chdir(self.folder):
            self.assertEqual(self.run_whole("--rounds", "--allow", "allow", "-", given=b"f'{x:.0f}'")[0], 0)
        cells = [{"cell_type": "code", "source": "f'{y:.0f}'"}]
        pathlib.Path("nb.ipynb").write_text(json.dumps({"cells": cells}))
        self.assertEqual(self.rounds("--allow", "allow", "nb.ipynb")[0], 0)

    def test_wrong(self):
        """A line without a reason, or that is no entry, is told with its place, and nothing is listed."""
        for line, said in (
            ("a.py:x", "a reason behind a # is wanted: a.py:x"),
            ("a.py:x  #  ", "path:expression  # reason is wanted: a.py:x  #  "),
            ("a.py  # it may", "path:expression  # reason is wanted: a.py  # it may"),
            ("a.py: # it may", "path:expression  # reason is wanted: a.py: # it may"),
        ):
            with self.subTest(line=line):
                pathlib.Path("allow").write_text(f"\n{line}\n")
                self.assertEqual(test_paths.Project.refused(self, "--allow", "allow", "a.py"), f"stumpgarret: allow:2: {said}")
        said = "stumpgarret: none: No such file or directory"
        self.assertEqual(test_paths.Project.refused(self, "--allow", "none", "a.py"), said)

    @unittest.skipUnless(test_command.IS_3_11, "tomllib is in Python 3.11")
    def test_project(self):
        os.makedirs("lists")
        pathlib.Path("pyproject.toml").write_text("[tool.stumpgarret]\nallow = ['lists/allow']\n")
        pathlib.Path("lists/allow").write_text("../a.py:x  # it may\n")
        self.assertEqual(self.rounds(a="f'{x:.0f}'")[0], 0)
        self.assertEqual(self.rounds("--isolated", a="f'{x:.0f}'")[0], 1)
        pathlib.Path("other").write_text("a.py:y  # it may, too\n")
        self.assertEqual(self.rounds("--allow", "other", a="f'{x:.0f}{y:.0f}'")[0], 0)
        pathlib.Path("pyproject.toml").write_text("[tool.stumpgarret]\nallow = 'lists/allow'\n")
        said = test_paths.Project.refused(self, "a.py")
        self.assertIn("allow of [tool.stumpgarret] is to be a list of paths", said)


class OnThePage(test_page.Command):
    def test_marks(self):
        """What rounds has a mark of its own, over lines too, and what is allowed another."""
        pathlib.Path("allow").write_text("a.py:x  # <it> may\n")
        page, _ = self.page("--allow", "allow", a="f'''{x:.0f}{y:\n.1f}{z}'''")
        content = pathlib.Path("page.html").read_text()
        kinds = re.findall(r'<mark class="(\w+)"', content)
        self.assertEqual(kinds, ["allowed", "may", "may", "other"])
        rows = [("allowed", "rounds, allowed: <it> may"), ("may", "own"), ("other", "exact")]
        self.assertEqual([(kind, cells[-1]) for kind, cells in page.rows[1:]], rows)

    def test_filter(self):
        """A box shows only what rounds; --rounds sets it. Its status is that of the list."""
        self.page(a="f'{x:.0f}{y}'")
        content = pathlib.Path("page.html").read_text()
        self.assertIn('<input type="checkbox" id="only"><label for="only">1 rounds or may: show only what does</label>', content)
        pathlib.Path("a.py").write_text("f'{x}'")
        self.assertEqual(self.run_whole("--rounds", "--html", "page.html", "a.py")[0], 0)
        content = pathlib.Path("page.html").read_text()
        self.assertIn('<input type="checkbox" id="only" checked><label for="only">No field rounds', content)
        self.assertIn("#only:checked ~ .both tr.other { display: none }", content)
        pathlib.Path("a.py").write_text("f'{x:.0f}'")
        self.assertEqual(self.run_whole("--rounds", "--html", "page.html", "a.py")[0], 1)


class Example(test_command.Command):
    def test_readme(self):
        """What README shows of the command is what it writes."""
        readme = (CLONE / "README.md").read_text(encoding="utf-8")
        said = re.search(r"^    \./fields --rounds (\S+)\n\n((?:    .*\n)+)", readme, re.MULTILINE)
        with contextlib.chdir(CLONE):
            status, out, err = self.run_whole("--rounds", said[1])
        lines = [line[4:] for line in said[2].splitlines()]
        self.assertEqual((status, sorted([*out.splitlines(), *err.splitlines()])), (1, sorted(lines)))


if __name__ == "__main__":
    unittest.main()
