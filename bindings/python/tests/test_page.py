"""The page that --html writes, by its parts as text."""

import hashlib
import html.parser
import pathlib
import random
import re
import unittest

import test_command
from support import stumpgarret
import stumpgarret_page
import stumpgarret_rules

TAGS = set("html head meta title style body h1 h2 p code a table tr th td div ol li mark span input label".split())
VOID = "meta", "input"
HOSTILE = ["</script>", "<script>alert(1)</script>", "</mark>", "</ol>", "&lt;", "&#0;", '"', "'", "<!--", "-->", "]]>", "\\"]
HOSTILE += [*"\1\t\n\x0b\x0c\x7f\x85\xa0\u2028\u202e\u200b\ufeffé\U0001f50b"]
FIELDS = ["f'{x}'", "f'{a:<{w}}'", "f'''{\nb!r}'''", "f'{f\"{c}\":>{d=}}'", "f'{(]}'", "f'}'", "f'{e#}'"]


class Page(html.parser.HTMLParser):
    """What a page has: its tags, each closed in order; its lines, marks, rows, links."""

    def __init__(self, content):
        super().__init__()
        self.stack, self.tags, self.ids, self.links = [], set(), [], []
        self.lines, self.marks, self.rows, self.said = [], {}, [], []
        self.title = ""
        self.feed(content)
        self.close()
        assert not self.stack, self.stack

    def handle_starttag(self, tag, attributes):
        given = dict(attributes)
        self.tags.add(tag)
        self.ids += [given["id"]] if "id" in given else []
        self.links += [given["href"]] if "href" in given else []
        assert not {"src", "srcset", "onclick", "onload"} & set(given)
        if tag not in VOID:
            self.stack.append((tag, given))
        if tag == "li":
            self.lines.append("")
        if tag == "tr":
            self.rows.append((given.get("class"), []))
        if tag in ("td", "th"):
            self.rows[-1][1].append("")
        if tag == "p":
            self.said.append((given.get("class"), ""))
        if tag == "mark" and "id" in given:
            self.marks[given["id"]] = ""

    def handle_endtag(self, tag):
        assert self.stack.pop()[0] == tag

    def handle_data(self, data):
        names = [tag for tag, _ in self.stack]
        if "title" in names:
            self.title += data
        if "li" in names:
            self.lines[-1] += data
        if "td" in names or "th" in names:
            self.rows[-1][1][-1] += data
        if "p" in names:
            self.said[-1] = (self.said[-1][0], self.said[-1][1] + data)
        for tag, given in self.stack:
            if tag == "mark" and "id" in given:
                self.marks[given["id"]] += data

    def handle_comment(self, data):
        raise AssertionError("there is a comment")


def escaped(text):
    """A line as the page shows it."""
    return "".join(char if char.isprintable() or char == "\t" else ascii(char)[1:-1] for char in text)


class Command(test_command.Command):
    def page(self, *options, status=0, **scripts):
        """The page over scripts, with what was told on standard error."""
        ended, out, err = self.run_on("--html", "page.html", *options, **scripts)
        self.assertEqual((ended, out), (status, ""))
        content = pathlib.Path("page.html").read_bytes().decode()
        self.assertTrue(content.startswith("<!DOCTYPE html>\n") and content.endswith("</html>\n"))
        page = Page(content)
        self.assertLessEqual(page.tags, TAGS)
        self.assertEqual(len(page.ids), len(set(page.ids)))
        self.assertLessEqual({link[1:] for link in page.links}, set(page.ids))
        self.assertEqual({link[0] for link in page.links} - {"#"}, set())
        self.assertNotIn("://", stumpgarret_page.STYLE)
        return page, err


class Parts(Command):
    def test_complete(self):
        source = "print('VDD',\n      f'{mv / 12.5:.0f} {n!r} {k=}')\n"
        page, err = self.page(bench=source)
        self.assertEqual(err, "")
        self.assertEqual(page.title, "Formatted fields of bench.py")
        self.assertEqual("\n".join(page.lines), source[:-1])
        self.assertEqual([*page.marks.values()], ["{mv / 12.5:.0f}", "{n!r}", "{k=}"])
        head, *rows = page.rows
        self.assertEqual(head, (None, ["Place", "Expression", "Conversion", "Spec", "Class"]))
        table = [("may", ["2:10", "mv / 12.5", " ", ":.0f", "rounds"]), ("other", ["2:26", "n", "!r ", "", "text"])]
        table += [("other", ["2:32", "k=", "!r repr: = with no spec", "", "text"])]
        self.assertEqual(rows, table)
        said = dict.fromkeys(text for _, text in page.said)
        self.assertEqual(page.said[0], ("yes", "Complete: 3 fields, and these are all"))
        self.assertIn(f"SHA-256 {hashlib.sha256(source.encode()).hexdigest()}, {len(source)} bytes", said)
        self.assertIn(f"Listed by {', '.join(test_command.VERSION_LINES)}, for the grammar of Python 3.11.", said)
        self.assertTrue(any("str.format and format() format too, and are not listed; where they stand was searched for, and is told." in text for text in said))

    def test_refused(self):
        page, err = self.page(status=1, a="f'{x}'\nf'}'\nf'{y}' '")
        words = [line.split(": ", 1)[1] for line in err.splitlines()]
        self.assertEqual(len(words), 2)
        first, last = ("other", ["1:4", "x", " ", "", "exact"]), ("other", ["3:4", "y", " ", "", "exact"])
        changes = [stumpgarret_rules.change(number, 0).replace("`", "") for number in (25, 50)]
        shown = [f"{word}Change: {change}{text}" for word, change, text in zip(words, changes, ["f'}'", "'"])]
        self.assertEqual(page.rows[1:], [first, ("no", ["2:4", shown[0]]), last, ("no", ["3:8", shown[1]])])
        self.assertEqual(page.said[0], ("no", "Not complete: what is in red, in 1 of 1 script"))
        self.assertIn(("no", "Not complete: 2 fields, 2 refusals"), page.said)

    def test_scripts(self):
        pathlib.Path("page.html").write_text("an older page")
        page, _ = self.page(status=2, a="f'{x}'", b=b"\xff", c="f'}'", d="")
        self.assertEqual(page.title, "Formatted fields of 4 scripts")
        self.assertEqual(page.said[0], ("no", "Not complete: what is in red, in 2 of 4 scripts"))
        contents = [["a.py", "Complete: 1 field, and these are all"], ["b.py", "Not read: line 1 is not utf-8: "]]
        contents += [["c.py", "Not complete: 0 fields, 1 refusal"], ["d.py", "Complete: 0 fields, and these are all"]]
        for (kind, row), (name, verdict), wanted in zip(page.rows[1:], contents, (None, "no", "no", None)):
            self.assertEqual((kind, row[0], row[1][: len(verdict)]), (wanted, name, verdict))
        self.assertEqual(page.lines, ["f'{x}'", "f'}'", ""])

    def test_nested_and_over_lines(self):
        page, _ = self.page(a="f'''{g(f\"{a}\")\n:{b}{c\n}} '''")
        self.assertEqual(page.lines, ["f'''{g(f\"{a}\")", ":{b}{c", "}} '''"])
        self.assertEqual([*page.marks.values()], ['{g(f"{a}")', "{a}", "{b}", "{c"])
        self.assertEqual([row[1][1] for row in page.rows[1:]], ['g(f"{a}")\\n', "a", "b", "c\\n"])

    def test_check(self):
        page, _ = self.page("--check", a="f'{x}'")
        self.assertIn(("small", "Python's own ast has the same fields."), page.said)
        page, err = self.page("--check", status=1, a="f'{a b}'")
        self.assertIn(("no", err.rstrip("\n")), page.said)
        self.assertIn(("no", "Not complete: 1 field, 1 difference from Python's reading"), page.said)

    def test_literals_that_are_refused(self):
        """Each shows its text: of a literal in an expression its own, of one that never closes its line."""
        page, _ = self.page(status=1, a="f'{a' f'{g(f\"}\")}'\nrf'''\t\n}'''\nf'{b#}'\nx = f\"{c}\n")
        texts = [cells[1] for kind, cells in page.rows if kind == "no"]
        for text, literal in zip(texts, ["f'{a'", 'f"}"', r"rf'''\t\n}'''", "f'{b#}'", 'f"{c}'], strict=True):
            self.assertRegex(text, rf"Change: .*[^ \w]{re.escape(literal)}$")

    def test_no_backticks(self):
        page, _ = self.page(status=1, a="f'{a' f'{x=}{y=:3}' f'{b#}' f'{c!x}' '")
        self.assertEqual([cells[2] for _, cells in page.rows[2:4]], ["!r repr: = with no spec", " none: = with a spec"])
        self.assertFalse([text for _, cells in page.rows for text in cells if "`" in text])

    def test_byte_0(self):
        page, _ = self.page(status=2, a="f'{x}\0'")
        self.assertIn(("no", "Not read: line 1 has a byte 0: Python does not take it; UTF-16?"), page.said)

    def test_places_of_refusals(self):
        """Each has a sign in the source, at the end of the script too."""
        page, _ = self.page(status=1, a="f'{x#}'\n'''\n")
        ids = [one for one in page.ids if re.match("s1[er]", one)]
        self.assertEqual(ids, ["s1e1", "s1e2", "s1e3", "s1r1", "s1r2", "s1r3"])


class Escapes(Command):
    def test_hostile(self):
        for piece in HOSTILE:
            source = f"# {piece}\nrf\"\"\"{{x:{piece}}}{{y}}\"\"\""
            page, _ = self.page(a=source)
            self.assertEqual(page.lines, [escaped(line) for line in source.split("\n")])
            self.assertEqual(page.marks["s1e2"], "{y}")
            shown = piece if piece.isprintable() else ascii(piece)[1:-1]
            self.assertEqual(page.rows[1][1][3], f":{shown}")

    def test_names(self):
        name = '<b>"&\u202e'
        page, _ = self.page(**{name: "f'{x}'"})
        self.assertEqual(page.title, r'Formatted fields of <b>"&\u202e.py')

    def test_surrogates(self):
        page, _ = self.page(a=b"# coding: raw_unicode_escape\n'\\ud800' f'{x}'")
        self.assertEqual(page.lines[1], r"'\ud800' f'{x}'")

    def test_random(self):
        """Lines and marks are the script's own, whatever it has."""
        chance = random.Random(8)
        for _ in range(300):
            source = "".join(chance.choice([*HOSTILE, *FIELDS, *FIELDS, "\n"]) for _ in range(chance.randrange(1, 30)))
            pathlib.Path("a.py").write_bytes(source.encode())
            self.run_main("--html", "page.html", "a.py")
            page = Page(pathlib.Path("page.html").read_bytes().decode())
            text = stumpgarret.text_of(source.encode())
            found = stumpgarret.list_script(source.encode())
            lines = text.split("\n")
            self.assertEqual(page.lines, [escaped(line) for line in lines][: len(page.lines)])
            self.assertEqual(lines[len(page.lines) :], [""] * (len(lines) - len(page.lines)))
            for number, entry in enumerate(found.entries, 1):
                if isinstance(entry, stumpgarret.ScriptField):
                    end = entry.end[1] - 1 if entry.end[0] == entry.line else None
                    self.assertEqual(page.marks[f"s1e{number}"], escaped(lines[entry.line - 1][entry.column - 2 : end]))


class Use(Command):
    def test_same_page(self):
        """The same scripts make the same page."""
        self.page(a="f'{x}'")
        before = pathlib.Path("page.html").read_bytes()
        self.page(a="f'{x}'")
        self.assertEqual(pathlib.Path("page.html").read_bytes(), before)

    def test_no_script_is_overwritten(self):
        pathlib.Path("a.py").write_text("f'{x}'")
        self.assertIn("--html needs a file that ends in .html", self.wrong_use("--html", "a.py", "a.py"))
        self.assertEqual(pathlib.Path("a.py").read_text(), "f'{x}'")

    def test_other_options(self):
        for option in ("--json", "--why", "--classes"):
            self.assertIn("--html goes with none of", self.wrong_use("--html", "page.html", option, "a.py"))

    def test_not_written(self):
        status, out, err = self.run_on("--html", "none/page.html", a="f'{x}'")
        self.assertEqual((status, out, err), (2, "", "none/page.html: No such file or directory\n"))

    def test_standard_input(self):
        self.assertEqual(self.run_main("--html", "page.html", "-", given=b"f'{x}'"), (0, "", ""))
        self.assertEqual(Page(pathlib.Path("page.html").read_text()).title, "Formatted fields of <stdin>")

    def test_syntax(self):
        with open(stumpgarret_page.__file__, encoding="utf-8") as file:
            compile(file.read(), "stumpgarret_page.py", "exec", stumpgarret.ast.PyCF_ONLY_AST, _feature_version=7)


if __name__ == "__main__":
    unittest.main()
